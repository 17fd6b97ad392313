//! Dzomrelig as a file system of `rcore_fs::vfs`: [`Mount`] is a `FileSystem`, [`Inode`] an `INode`.
//!
//! A [`Mount`] is one owner's way to an image. Nodes come out of it as `Arc<dyn INode>`: one [`Inode`] for each node that is out, whose hold is closed when the
//! last `Arc` of it is dropped. So an owner can have [`OWN_HOLDS`](dzomrelig::OWN_HOLDS) different nodes out at a time, in as many `Arc`s as he likes; one more
//! is `FsError::Busy`.
//!
//! Nothing here panics. What went wrong where nobody can be told, as in a drop, goes to [`Device::report`].
//!
//! What the traits have and this does not: `io_control` answers `FsError::NotSupported`; `root_mac` is all zeros, since there are no MACs; `ext` is none.
//! [`ERRORS`] has the error of each refusal.
#![no_std]
#![forbid(unsafe_code)]
#![deny(missing_docs)]
#![deny(clippy::unwrap_used, clippy::expect_used, clippy::panic, clippy::indexing_slicing, clippy::arithmetic_side_effects)]

extern crate alloc;

mod errors;
mod host;
mod inode;
mod mount;
mod share;

pub use errors::{fs_error, EEXIST, ERRORS};
pub use host::{Device, FileNames};
pub use inode::Inode;
pub use mount::Mount;
