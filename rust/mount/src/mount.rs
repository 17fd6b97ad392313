//! An image as a file system.
use alloc::boxed::Box;
use alloc::sync::Arc;
use dzomrelig::{Counts, FailedRule, Image, Owner, BLOCK, NAME_LONGEST};
use rcore_fs::dev::TimeProvider;
use rcore_fs::vfs::{self, FileSystem, FsInfo, INode};
use spin::RwLock;

use crate::inode::BLOCK_SIZE;
use crate::share::{Disk, Share};
use crate::{fs_error, Device, FileNames};

/// An image, mounted for one of its owners: a `FileSystem`.
///
/// Nodes keep what they need of it, so it can be dropped before them, as SEFS can. When the last of them is gone the image is synced and kept.
pub struct Mount {
    share: Arc<Share>,
}

impl Mount {
    /// Makes a fresh image of so many blocks of 512 bytes, has it kept, and mounts it for owner 1. What the device had is gone.
    pub fn create(
        device: Box<dyn Device>,
        blocks: usize,
        clock: &'static dyn TimeProvider,
        names: &'static dyn FileNames,
    ) -> vfs::Result<Arc<Mount>> {
        let now = clock.current_time();
        let image = Image::format(blocks, dzomrelig::Time::new(now.sec, now.nsec), names.file_name()).map_err(fs_error)?;
        let mount = Mount::on(image, device, clock, names);
        mount.sync()?;
        Ok(mount)
    }

    /// Mounts the device's image for owner 1.
    ///
    /// As SEFS does, it takes an image that the checker would fail; its calls are then slower, and answer an error where SEFS breaks off. [`check`](Mount::check) tells.
    pub fn open(device: Box<dyn Device>, clock: &'static dyn TimeProvider, names: &'static dyn FileNames) -> vfs::Result<Arc<Mount>> {
        let mut image = Image::untrusted(device.load()?).map_err(fs_error)?;
        // where it fails, the image stays as it is: tested in each call
        let _ = image.trust();
        Ok(Mount::on(image, device, clock, names))
    }

    /// Mounts the device's image for owner 1, after the enclave went down: what it left is mended first ([`Image::recovered`]), and kept.
    ///
    /// Where the last [`sync`](FileSystem::sync) was with a removed node out, [`open`](Mount::open) gives an image that the checker fails, and the node's number and
    /// room stay taken; this gives them back. An image that the checker passes is mounted as it is. One that can't be mended is not mounted: `WrongFs`.
    pub fn recover(device: Box<dyn Device>, clock: &'static dyn TimeProvider, names: &'static dyn FileNames) -> vfs::Result<Arc<Mount>> {
        let image = Image::recovered(device.load()?).map_err(fs_error)?;
        let mount = Mount::on(image, device, clock, names);
        mount.sync()?;
        Ok(mount)
    }

    fn on(image: Image, device: Box<dyn Device>, clock: &'static dyn TimeProvider, names: &'static dyn FileNames) -> Arc<Mount> {
        let disk = Disk { image: RwLock::new(image), device, clock, names };
        Share::new(Arc::new(disk), Owner::One).mount()
    }

    pub(crate) fn of(share: Arc<Share>) -> Mount {
        Mount { share }
    }

    /// The same image, mounted for this owner: a file system of its own, with places of its own. A node of the one is `NotSameFs` to the other.
    ///
    /// Mounts for one owner share his places.
    pub fn for_owner(&self, owner: Owner) -> Arc<Mount> {
        Share::new(Arc::clone(&self.share.disk), owner).mount()
    }

    /// For whom it is mounted.
    pub fn owner(&self) -> Owner {
        self.share.owner
    }

    /// Asks the checker.
    pub fn check(&self) -> Result<Counts, FailedRule> {
        self.image(Image::check)
    }

    /// A look at the image. What it calls may not call the file system.
    pub fn image<T>(&self, look: impl FnOnce(&Image) -> T) -> T {
        look(&self.share.disk.image.read())
    }
}

impl FileSystem for Mount {
    fn sync(&self) -> vfs::Result<()> {
        self.share.disk.sync()
    }

    fn root_inode(&self) -> Arc<dyn INode> {
        self.share.root()
    }

    /// As SEFS tells it: the numbers of nodes, not the room for contents.
    fn info(&self) -> FsInfo {
        let [magic, blocks, unused, _] = self.image(|image| superblock(image.bytes()));
        FsInfo {
            magic,
            bsize: BLOCK_SIZE,
            frsize: BLOCK_SIZE,
            blocks,
            bfree: unused,
            bavail: unused,
            files: blocks,
            ffree: unused,
            namemax: NAME_LONGEST,
        }
    }
}

/// The superblock's four numbers: the first bytes of the metadata file, in its block of number 0; zeros where there is none.
fn superblock(image: &[u8]) -> [usize; 4] {
    let is_first = |block: &&[u8]| block.starts_with(&[2, 0]) && block.get(20..24) == Some(&[0; 4]);
    let block = image.chunks_exact(BLOCK).find(is_first).unwrap_or_default();
    let mut numbers = block.get(24..40).unwrap_or_default().chunks_exact(4);
    [(); 4].map(|()| {
        let number = numbers.next().and_then(|bytes| bytes.try_into().ok()).map_or(0, u32::from_le_bytes);
        usize::try_from(number).unwrap_or(usize::MAX)
    })
}
