// Holds src/c/protocol.rs as it is, and a child module, since only a child sees its private functions.

include!("protocol/source.rs");

pub(crate) mod opened;
