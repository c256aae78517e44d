//! The few steps of the handshake on the connecting side, after host.rs `enet_host_connect` and protocol.rs `handle_verify_connect`.
//!
//! Ids, sessions, connect id and window have no call in document 01 and no call reads them: the host keeps them here.

use crate::clock::stamp;
use crate::datagram::{Ids, NO_PEER_ID};
use crate::door::Plan;
use crate::link::{Command, Link, ASKS_FOR_ACKNOWLEDGEMENT};
use crate::look::Look;
use crate::Fallible;

pub const CONNECTING: u32 = 1;
pub const CONNECTED: u32 = 5;
pub const DISCONNECTING: u32 = 7;
pub const PEER_ITSELF: u32 = 255;
const NO_SESSION: u32 = 255;
const WINDOW_BOUNDS: (u32, u32) = (4_096, 65_536);
const MTU_BOUNDS: (u32, u32) = (576, 4_096);

/// The host has one peer, and so this is its id for the other end.
pub const OWN_PEER_ID: u16 = 0;

pub struct Handshake {
    pub ids: Ids,
    pub window: u32,
    connect_id: u32,
}

pub enum Verified {
    Yes,
    /// The other end answers something that was not asked: the source gives the peer up.
    No,
}

impl Handshake {
    /// Queues the connect command on a fresh record.
    pub fn begin(link: &mut Link, plan: &Plan) -> Fallible<Handshake> {
        link.reset()?;
        link.begin(plan.mtu, plan.channels)?;
        link.set_state(CONNECTING)?;
        let look = link.look()?;
        let connect_id = stamp() as u32;
        let mut fields = vec![
            u32::from(OWN_PEER_ID),
            NO_SESSION,
            NO_SESSION,
            plan.mtu,
            plan.window,
            plan.channels,
        ];
        fields.extend([
            0,
            0,
            look.throttle_interval,
            look.throttle_acceleration,
            look.throttle_deceleration,
        ]);
        fields.extend([connect_id, 0]);
        let connect =
            Command { byte: 2 | ASKS_FOR_ACKNOWLEDGEMENT, channel: PEER_ITSELF, number: 0, fields };
        link.setup(&connect)?.done("setup of the connect")?;
        let ids = Ids {
            outgoing_peer_id: NO_PEER_ID,
            outgoing_session_id: 255,
            incoming_session_id: 255,
        };
        Ok(Handshake { ids, window: plan.window, connect_id })
    }

    /// The verify's fields: peer id, sessions, MTU, window, channels, bandwidths, throttle's three, connect id.
    fn fits(&self, fields: &[u32], look: &Look) -> bool {
        let throttle =
            [look.throttle_interval, look.throttle_acceleration, look.throttle_deceleration];
        (1..=255).contains(&fields[5]) && fields[8..11] == throttle && fields[11] == self.connect_id
    }

    /// The verify is what answers the connect. The source takes the connect out of sent without a sample of the round trip; the link's one call
    /// that takes a command out is the acknowledgement, which takes one. So the record starts anew, with what the other end grants.
    pub fn verify(&mut self, link: &mut Link, fields: &[u32]) -> Fallible<Verified> {
        let look = link.look()?;
        if !self.fits(fields, &look) {
            return Ok(Verified::No);
        }
        let (outgoing_peer_id, incoming_session_id, outgoing_session_id) =
            (fields[0] as u16, fields[1] as u8, fields[2] as u8);
        self.ids = Ids { outgoing_peer_id, outgoing_session_id, incoming_session_id };
        self.window = self.window.min(fields[4].clamp(WINDOW_BOUNDS.0, WINDOW_BOUNDS.1));
        link.reset()?;
        link.begin(
            look.mtu.min(fields[3].clamp(MTU_BOUNDS.0, MTU_BOUNDS.1)),
            look.channel_count.min(fields[5]),
        )?;
        link.set_state(CONNECTED)?;
        Ok(Verified::Yes)
    }
}
