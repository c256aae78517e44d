//! Copies the source byte for byte into a tree, beside the shims that stand for what it imports.

use std::{fs, path::Path};

use crate::sha256;

/// The sums of the files as they were read when the port began; no other bytes are accepted.
const SUMS: &str = include_str!("../sums.txt");

/// Our own files of the tree, embedded so that a prepared tree needs nothing else.
const SHIMS: &[(&str, &str)] = &[
    ("root.rs", include_str!("../shims/root.rs")),
    ("address.rs", include_str!("../shims/address.rs")),
    ("compressor.rs", include_str!("../shims/compressor.rs")),
    ("error.rs", include_str!("../shims/error.rs")),
    ("packet.rs", include_str!("../shims/packet.rs")),
    ("socket.rs", include_str!("../shims/socket.rs")),
    ("c/compress.rs", include_str!("../shims/c/compress.rs")),
    ("c/event.rs", include_str!("../shims/c/event.rs")),
    ("c/malloc.rs", include_str!("../shims/c/malloc.rs")),
    ("c/protocol.rs", include_str!("../shims/c/protocol.rs")),
    ("c/protocol/opened.rs", include_str!("../shims/c/protocol/opened.rs")),
];

/// The source's files, by their names below its `src`.
pub fn names() -> impl Iterator<Item = &'static str> {
    sums().map(|(_, name)| name)
}

/// Writes the whole tree, or says which file is missing or changed.
pub fn prepare(source: &Path, out: &Path) -> Result<(), String> {
    for name in names() {
        let from = source.join(name);
        let bytes = fs::read(&from).map_err(|why| format!("{}: {why}", from.display()))?;
        check(name, &bytes)?;
        write(&out.join(place(name)), &bytes)?;
    }
    for (name, text) in SHIMS {
        write(&out.join(name), text.as_bytes())?;
    }
    Ok(())
}

/// Refuses bytes that are not those of the stored sum.
pub fn check(name: &str, bytes: &[u8]) -> Result<(), String> {
    let expected = sums().find(|(_, known)| *known == name).map(|(sum, _)| sum);
    let found = sha256::hex(bytes);
    if expected == Some(found.as_str()) {
        return Ok(());
    }
    let expected = expected.unwrap_or("no sum at all");
    Err(format!("{name} is changed: its SHA-256 is {found}, sums.txt has {expected}"))
}

/// Where a source file lies in the tree: a wrapper takes the place of protocol.rs and includes it.
fn place(name: &'static str) -> &'static str {
    match name {
        "c/protocol.rs" => "c/protocol/source.rs",
        _ => name,
    }
}

/// The lines of sums.txt, as sha256sum writes them: sum, two spaces, name.
fn sums() -> impl Iterator<Item = (&'static str, &'static str)> {
    SUMS.lines().filter_map(|line| line.split_once("  "))
}

fn write(place: &Path, bytes: &[u8]) -> Result<(), String> {
    let folder = place.parent().expect("every file of the tree lies in a folder");
    fs::create_dir_all(folder)
        .and_then(|()| fs::write(place, bytes))
        .map_err(|why| format!("{}: {why}", place.display()))
}
