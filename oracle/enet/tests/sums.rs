//! The preparation accepts the source's own bytes and no others.

#[path = "../prepare/sha256.rs"]
mod sha256;
// Only the check is tried here; the build itself has run the rest.
#[allow(dead_code)]
#[path = "../prepare/tree.rs"]
mod tree;

const LIST: &[u8] = include_bytes!(concat!(env!("ENET_TREE"), "/c/list.rs"));

#[test]
fn sums_are_sha256() {
    let empty = "e3b0c44298fc1c149afbf4c8996fb92427ae41e4649b934ca495991b7852b855";
    let abc = "ba7816bf8f01cfea414140de5dae2223b00361a396177a9cb410ff61f20015ad";
    assert_eq!((sha256::hex(b""), sha256::hex(b"abc")), (empty.into(), abc.into()));
}

#[test]
fn a_changed_byte_is_refused() {
    assert_eq!(tree::check("c/list.rs", LIST), Ok(()));
    let mut changed = LIST.to_vec();
    changed[100] ^= 1;
    assert!(tree::check("c/list.rs", &changed).is_err());
    assert!(tree::check("c/peer.rs", LIST).is_err());
    assert!(tree::check("lib.rs", LIST).is_err());
}
