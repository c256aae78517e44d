// Stands for src/socket.rs: what the host asks of a socket.

use crate::{consts::PROTOCOL_MAXIMUM_MTU, Address};

// The host fills it in; the oracle's socket has no buffers to size.
#[allow(dead_code)]
pub(crate) struct SocketOptions {
    pub(crate) receive_buffer: usize,
    pub(crate) send_buffer: usize,
}

// The host looks for both; the oracle's socket receives nothing.
#[allow(dead_code)]
pub(crate) enum PacketReceived {
    Complete(usize),
    Partial,
}

pub(crate) trait Socket {
    type Address: Address;
    type Error;

    fn init(&mut self, options: SocketOptions) -> Result<(), Self::Error>;
    fn send(&mut self, address: Self::Address, buffer: &[u8]) -> Result<usize, Self::Error>;
    // The host asks for this very type.
    #[allow(clippy::type_complexity)]
    fn receive(
        &mut self,
        buffer: &mut [u8; PROTOCOL_MAXIMUM_MTU],
    ) -> Result<Option<(Self::Address, PacketReceived)>, Self::Error>;
}
