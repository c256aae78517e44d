//! `prepare SRC_DIR OUT_DIR`: the tree preparation alone, for builds by plain rustc.
//!
//! From the folder `oracle`, with any folder `$O` for what is made:
//!
//! ```sh
//! rustc --edition 2021 -O -o $O/prepare enet/prepare/main.rs
//! $O/prepare ../../shared/docs/src/src $O/tree
//! ENET_TREE=$O/tree rustc --edition 2021 -O --crate-type rlib --crate-name enet \
//!     -o $O/libenet.rlib enet/src/lib.rs
//! rustc --edition 2021 -O --crate-name compare --extern enet=$O/libenet.rlib \
//!     -o $O/compare compare/src/main.rs
//! ```

mod sha256;
mod tree;

use std::{env, path::Path, process};

fn main() {
    let places: Vec<_> = env::args_os().skip(1).collect();
    let [source, out] = places.as_slice() else {
        eprintln!("usage: prepare SRC_DIR OUT_DIR");
        process::exit(2);
    };
    if let Err(why) = tree::prepare(Path::new(source), Path::new(out)) {
        eprintln!("the tree is not prepared: {why}");
        process::exit(1);
    }
}
