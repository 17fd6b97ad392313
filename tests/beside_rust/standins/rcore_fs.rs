//! Stand-in for the root of the crate `rcore_fs`: `dirty` and `vfs` are the files themselves, `dev` is ours.
#![no_std]

extern crate alloc;
#[macro_use]
extern crate bitflags;

pub mod dev;
pub mod dirty;
pub mod vfs;
