// Stands for src/address.rs: what the host asks of a peer's address.

pub(crate) trait Address: Clone {
    fn same_host(&self, other: &Self) -> bool;
    fn same(&self, other: &Self) -> bool;
    fn is_broadcast(&self) -> bool;
}
