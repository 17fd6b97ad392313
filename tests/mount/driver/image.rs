//! The image that is mounted: for each of the four owners once.
use crate::world::FED;
use dzomrelig::Owner;
use dzomrelig_mount::{Device, Mount};
use rcore_fs::dev::DevResult;
use rcore_fs::vfs::{FileSystem, FsError, Result};
use rcore_fs_sefs::dev::UuidProvider;
use std::sync::atomic::{AtomicU64, Ordering::Relaxed};
use std::sync::{Arc, Mutex};

/// How many errors of drops were told.
pub static REPORTS: AtomicU64 = AtomicU64::new(0);

/// Bytes in memory.
#[derive(Clone, Default)]
pub struct Kept(Arc<Mutex<Vec<u8>>>);

impl Device for Kept {
    fn load(&self) -> DevResult<Vec<u8>> {
        Ok(self.0.lock().unwrap().clone())
    }

    fn keep(&self, bytes: &[u8]) -> DevResult<()> {
        *self.0.lock().unwrap() = bytes.to_vec();
        Ok(())
    }

    fn report(&self, error: FsError) {
        eprintln!("a drop: {error:?}");
        REPORTS.fetch_add(1, Relaxed);
    }
}

/// The time and the file name are those that the Rust is fed.
fn file_name() -> [u8; 16] {
    FED.generate_uuid().0
}

pub struct Mounted {
    kept: Kept,
    mounts: Vec<Arc<Mount>>,
}

impl Mounted {
    fn all(first: Arc<Mount>, kept: Kept) -> Mounted {
        let others = [Owner::Two, Owner::Three, Owner::Four].map(|owner| first.for_owner(owner));
        Mounted { kept, mounts: [first].into_iter().chain(others).collect() }
    }

    pub fn create(length: usize) -> Result<Mounted> {
        let kept = Kept::default();
        Ok(Mounted::all(Mount::create(Box::new(kept.clone()), length / 512, &FED, &file_name)?, kept))
    }

    pub fn open(bytes: Vec<u8>) -> Result<Mounted> {
        let kept = Kept(Arc::new(Mutex::new(bytes)));
        Ok(Mounted::all(Mount::open(Box::new(kept.clone()), &FED, &file_name)?, kept))
    }

    /// The mount of an owner, 1 to 4.
    pub fn of(&self, who: u8) -> &Arc<Mount> {
        &self.mounts[who as usize - 1]
    }

    pub fn bytes(&self) -> Vec<u8> {
        self.mounts[0].image(|image| image.bytes().to_vec())
    }

    /// Syncs, and what was kept is then the image.
    pub fn sync(&self) -> Result<()> {
        self.mounts[0].sync()?;
        assert!(self.mounts[0].image(|image| image.bytes() == *self.kept.0.lock().unwrap()), "not kept");
        Ok(())
    }
}
