//! A socket that sends into nothing and never receives: the doors hand datagrams over themselves.

use std::convert::Infallible;

use crate::{consts::PROTOCOL_MAXIMUM_MTU, Address, PacketReceived, Socket, SocketOptions};

pub(crate) struct Silent;

/// The only address there is.
#[derive(Clone)]
pub(crate) struct Nobody;

impl Address for Nobody {
    fn same_host(&self, _: &Self) -> bool {
        true
    }

    fn same(&self, _: &Self) -> bool {
        true
    }

    fn is_broadcast(&self) -> bool {
        false
    }
}

impl Socket for Silent {
    type Address = Nobody;
    type Error = Infallible;

    fn init(&mut self, _: SocketOptions) -> Result<(), Infallible> {
        Ok(())
    }

    fn send(&mut self, _: Nobody, buffer: &[u8]) -> Result<usize, Infallible> {
        Ok(buffer.len())
    }

    fn receive(
        &mut self,
        _: &mut [u8; PROTOCOL_MAXIMUM_MTU],
    ) -> Result<Option<(Nobody, PacketReceived)>, Infallible> {
        Ok(None)
    }
}
