// Stands for src/packet.rs: the packet flags, with the numbers of public ENet's enet.h.

pub(crate) const ENET_PACKET_FLAG_RELIABLE: u32 = 1;
pub(crate) const ENET_PACKET_FLAG_UNSEQUENCED: u32 = 2;
pub(crate) const ENET_PACKET_FLAG_NO_ALLOCATE: u32 = 4;
pub(crate) const ENET_PACKET_FLAG_UNRELIABLE_FRAGMENT: u32 = 8;
pub(crate) const ENET_PACKET_FLAG_SENT: u32 = 256;
