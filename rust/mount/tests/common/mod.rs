//! A device in memory, a clock and a maker of file names.
use std::sync::atomic::{AtomicU64, Ordering};
use std::sync::{Arc, Mutex};

use dzomrelig_mount::{Device, Mount};
use rcore_fs::dev::{DevError, DevResult, TimeProvider};
use rcore_fs::vfs::{FileSystem, FsError, INode, Timespec};

/// What a device has, and what it was told.
#[derive(Clone, Default)]
pub struct Memory(Arc<Mutex<Kept>>);

#[derive(Default)]
pub struct Kept {
    pub bytes: Vec<u8>,
    pub times: usize,
    pub reports: Vec<FsError>,
    /// Nothing more is kept.
    pub broken: bool,
}

impl Memory {
    pub fn of(bytes: Vec<u8>) -> Memory {
        Memory(Arc::new(Mutex::new(Kept { bytes, ..Kept::default() })))
    }

    pub fn see<T>(&self, look: impl FnOnce(&mut Kept) -> T) -> T {
        look(&mut self.0.lock().unwrap())
    }
}

impl Device for Memory {
    fn load(&self) -> DevResult<Vec<u8>> {
        Ok(self.see(|kept| kept.bytes.clone()))
    }

    fn keep(&self, bytes: &[u8]) -> DevResult<()> {
        self.see(|kept| match kept.broken {
            true => Err(DevError(28)),
            false => {
                kept.bytes = bytes.to_vec();
                kept.times += 1;
                Ok(())
            }
        })
    }

    fn report(&self, error: FsError) {
        self.see(|kept| kept.reports.push(error));
    }
}

pub struct Clock;

pub const NOW: Timespec = Timespec { sec: 1_700_000_000, nsec: 5 };

impl TimeProvider for Clock {
    fn current_time(&self) -> Timespec {
        NOW
    }
}

static MADE: AtomicU64 = AtomicU64::new(1);

pub fn file_name() -> [u8; 16] {
    (MADE.fetch_add(1, Ordering::Relaxed) as u128).to_le_bytes()
}

pub fn fresh(blocks: usize) -> (Memory, Arc<Mount>) {
    let memory = Memory::default();
    let mount = Mount::create(Box::new(memory.clone()), blocks, &Clock, &file_name).unwrap();
    (memory, mount)
}

pub fn open(bytes: Vec<u8>) -> Result<(Memory, Arc<Mount>), FsError> {
    let memory = Memory::of(bytes);
    Ok((memory.clone(), Mount::open(Box::new(memory), &Clock, &file_name)?))
}

/// The error of an answer that has no node in it.
pub fn no(answer: Result<Arc<dyn INode>, FsError>) -> FsError {
    answer.map(|_| ()).unwrap_err()
}

pub fn root(mount: &Arc<Mount>) -> Arc<dyn INode> {
    mount.root_inode()
}
