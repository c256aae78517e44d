//! Prepares the tree of the source and our shims, and tells the compiler where it lies.

#[path = "prepare/sha256.rs"]
mod sha256;
#[path = "prepare/tree.rs"]
mod tree;

use std::{env, path::PathBuf, process};

/// From this package to the source, if ENET_SRC names no other place.
const SOURCE: &str = "../../../shared/docs/src/src";

fn main() {
    let source = match env::var_os("ENET_SRC") {
        Some(place) => PathBuf::from(place),
        None => {
            PathBuf::from(env::var_os("CARGO_MANIFEST_DIR").expect("set by cargo")).join(SOURCE)
        }
    };
    let out = PathBuf::from(env::var_os("OUT_DIR").expect("set by cargo")).join("tree");

    println!("cargo:rerun-if-env-changed=ENET_SRC");
    for name in tree::names() {
        println!("cargo:rerun-if-changed={}", source.join(name).display());
    }
    if let Err(why) = tree::prepare(&source, &out) {
        eprintln!("the oracle is not built: {why}");
        process::exit(1);
    }
    println!("cargo:rustc-env=ENET_TREE={}", out.display());
}
