// Stands for src/lib.rs: the names that the copied files ask for at the crate's root.

// The copied files are not ours to tidy.
#[allow(warnings, clippy::all)]
mod c;
#[allow(warnings, clippy::all)]
mod consts;

mod address;
mod compressor;
mod error;
mod packet;
mod socket;

pub(crate) use address::*;
pub(crate) use c::*;
pub(crate) use compressor::*;
pub(crate) use packet::*;
pub(crate) use socket::*;
pub(crate) use std::{boxed::Box, vec::Vec};
