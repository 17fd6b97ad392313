//! What a mount asks of the enclave around it.
use alloc::vec::Vec;
use dzomrelig::FileName;
use rcore_fs::dev::DevResult;
use rcore_fs::vfs::FsError;

/// Where an image is kept between two mounts.
///
/// An image is one run of bytes in memory while it is mounted. None of these may call the file system that calls them: it waits for them.
pub trait Device: Send + Sync {
    /// The bytes that were kept last.
    fn load(&self) -> DevResult<Vec<u8>>;

    /// Keeps the bytes: at each sync, and when a mount is dropped. All of them or, where it is cut off, best none: a mixture of two images is none.
    fn keep(&self, bytes: &[u8]) -> DevResult<()>;

    /// Hears of an error that no caller can be told, as of a node's drop. The node's place may then stay taken.
    fn report(&self, _error: FsError) {}
}

/// Makes the names of the nodes' own files: each time 16 bytes that it never gave before, as from a random source.
pub trait FileNames: Send + Sync {
    /// A new name.
    fn file_name(&self) -> FileName;
}

impl<F: Fn() -> [u8; 16] + Send + Sync> FileNames for F {
    fn file_name(&self) -> FileName {
        FileName(self())
    }
}
