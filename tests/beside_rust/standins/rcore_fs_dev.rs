//! Stand-in for `rcore_fs::dev`: only what the files name. A device error is a number; the clock is a trait.
use crate::vfs::Timespec;

#[derive(Debug, Clone, Copy, PartialEq, Eq)]
pub struct DevError(pub i32);

pub type DevResult<T> = Result<T, DevError>;

pub const EIO: i32 = 5;

pub trait TimeProvider: Send + Sync {
    fn current_time(&self) -> Timespec;
}
