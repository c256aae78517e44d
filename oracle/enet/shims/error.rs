// Stands for src/error.rs: the five refusals of a send, without their texts.

pub(crate) enum PeerSendError {
    NotConnected,
    InvalidChannel,
    PacketTooLarge,
    FragmentsExceeded,
    FailedToQueue,
}
