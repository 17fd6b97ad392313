#![doc = include_str!("../README.md")]
#![no_std]
#![deny(missing_docs)]
#![deny(unsafe_op_in_unsafe_fn)]
#![deny(unsafe_code)]
#![deny(clippy::unwrap_used, clippy::expect_used, clippy::panic, clippy::indexing_slicing, clippy::arithmetic_side_effects)]

extern crate alloc;

mod edge;
mod editor;
mod entries;
mod image;
mod reason;
mod types;

pub use editor::Editor;
pub use entries::{Entries, Entry, Place};
pub use image::Image;
pub use reason::{FailedRule, NoReason, Reason, Unfit};
pub use types::{Attributes, Counts, FallocateMode, FileName, Handle, Kind, Metadata, NewKind, Owner, Time};

/// The bytes of a block of the image.
pub const BLOCK: usize = 512;
/// The fewest blocks of an image.
pub const BLOCKS_LEAST: usize = 16;
/// The most blocks of an image.
pub const BLOCKS_MOST: usize = 4096;
/// The bytes of the table of open nodes.
pub const TABLE: usize = 4402;
/// The bytes of a folder's slot, as [`Editor::list`] and [`Editor::entry_into`] write it.
pub const SLOT: usize = 264;
/// The longest name in a folder, in bytes.
pub const NAME_LONGEST: usize = 255;
/// The longest contents of a file, symlink or socket, in bytes.
pub const FILE_LONGEST: u64 = 4_294_967_295;
/// The longest path of a folder, in bytes: 4,096 names with a slash before each. Of an image that passes the check none is longer than 256 times a third of
/// its blocks.
pub const PATH_LONGEST: usize = 1_048_576;
/// Start and length of a range that is inserted or collapsed are multiples of it.
pub const RANGE_UNIT: u64 = 128;
/// How many symlinks [`Editor::walk`] follows.
pub const LINKS_MOST: usize = 8;
/// How many handles of one owner can be live at once.
pub const OWN_HOLDS: usize = 8;
