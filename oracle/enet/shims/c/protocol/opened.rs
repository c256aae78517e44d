// Opens private functions of src/c/protocol.rs to the doors: each calls its namesake and nothing else.

use super::*;

pub(crate) unsafe fn change_state<S: Socket>(
    host: *mut ENetHost<S>,
    peer: *mut ENetPeer<S>,
    state: ENetPeerState,
) {
    enet_protocol_change_state(host, peer, state);
}

pub(crate) unsafe fn handle_send_unsequenced<S: Socket>(
    host: *mut ENetHost<S>,
    peer: *mut ENetPeer<S>,
    command: *const ENetProtocol,
    current_data: *mut *mut u8,
) -> i32 {
    enet_protocol_handle_send_unsequenced(host, peer, command, current_data)
}

pub(crate) unsafe fn handle_send_reliable<S: Socket>(
    host: *mut ENetHost<S>,
    peer: *mut ENetPeer<S>,
    command: *const ENetProtocol,
    current_data: *mut *mut u8,
) -> i32 {
    enet_protocol_handle_send_reliable(host, peer, command, current_data)
}

pub(crate) unsafe fn handle_send_fragment<S: Socket>(
    host: *mut ENetHost<S>,
    peer: *mut ENetPeer<S>,
    command: *const ENetProtocol,
    current_data: *mut *mut u8,
) -> i32 {
    enet_protocol_handle_send_fragment(host, peer, command, current_data)
}

pub(crate) unsafe fn handle_acknowledge<S: Socket>(
    host: *mut ENetHost<S>,
    event: *mut ENetEvent<S>,
    peer: *mut ENetPeer<S>,
    command: *const ENetProtocol,
) -> i32 {
    enet_protocol_handle_acknowledge(host, event, peer, command)
}

pub(crate) unsafe fn handle_incoming_commands<S: Socket>(
    host: *mut ENetHost<S>,
    event: *mut ENetEvent<S>,
) -> bool {
    enet_protocol_handle_incoming_commands(host, event)
}

pub(crate) unsafe fn check_timeouts<S: Socket>(
    host: *mut ENetHost<S>,
    peer: *mut ENetPeer<S>,
    event: *mut ENetEvent<S>,
) -> i32 {
    enet_protocol_check_timeouts(host, peer, event)
}

pub(crate) unsafe fn check_outgoing_commands<S: Socket>(
    host: *mut ENetHost<S>,
    peer: *mut ENetPeer<S>,
    sent_unreliable_commands: *mut ENetList,
) -> i32 {
    enet_protocol_check_outgoing_commands(host, peer, sent_unreliable_commands)
}

pub(crate) unsafe fn remove_sent_unreliable_commands<S: Socket>(
    peer: *mut ENetPeer<S>,
    sent_unreliable_commands: *mut ENetList,
) {
    enet_protocol_remove_sent_unreliable_commands(peer, sent_unreliable_commands);
}
