//! The lines that docs/INTERFACE.md has for an enclave, made a test: they are there word for word, and they work over a storage of 000's.
use std::collections::BTreeMap;
use std::sync::Mutex;

use rcore_fs::dev::TimeProvider;
use rcore_fs::vfs::{FileType, Timespec};
use rcore_fs_sefs::dev::{File, SefsMac, SefsUuid};

// lines for docs/INTERFACE.md
use dzomrelig_mount::{Device, Mount};
use rcore_fs::dev::DevResult;
use rcore_fs::vfs::{self, FileSystem, FsError};
use rcore_fs_sefs::dev::{Storage, UuidProvider};
use std::sync::Arc;

/// The image is one file of the storage that SEFS had.
struct OneFile<S>(S);

impl<S: Storage> Device for OneFile<S> {
    fn load(&self) -> DevResult<Vec<u8>> {
        let mut bytes = vec![0; dzomrelig::BLOCKS_MOST * dzomrelig::BLOCK];
        let count = self.0.open("dzomrelig")?.read_at(&mut bytes, 0)?;
        bytes.truncate(count);
        Ok(bytes)
    }
    fn keep(&self, bytes: &[u8]) -> DevResult<()> {
        let file = self.0.open("dzomrelig").or_else(|_| self.0.create("dzomrelig"))?;
        file.set_len(bytes.len())?;
        file.write_all_at(bytes, 0)?;
        file.flush()
    }
    fn report(&self, error: FsError) {
        eprintln!("dzomrelig: {error}"); // the enclave's log
    }
}

fn mount(storage: impl Storage + 'static) -> vfs::Result<Arc<dyn FileSystem>> {
    // was: SEFS::open(Box::new(storage), &TIME, &UUID)
    Ok(Mount::open(Box::new(OneFile(storage)), &TIME, &|| UUID.generate_uuid().0)?)
}
// end

struct Provider;
static TIME: Provider = Provider;
static UUID: Provider = Provider;
static MADE: Mutex<u128> = Mutex::new(0);

impl TimeProvider for Provider {
    fn current_time(&self) -> Timespec {
        Timespec { sec: 1_700_000_000, nsec: 0 }
    }
}

impl UuidProvider for Provider {
    fn generate_uuid(&self) -> SefsUuid {
        let mut made = MADE.lock().unwrap();
        *made += 1;
        SefsUuid(made.to_le_bytes())
    }
}

type Bytes = Arc<Mutex<Vec<u8>>>;

#[derive(Clone, Default)]
struct Memory(Arc<Mutex<BTreeMap<String, Bytes>>>);

struct Open(Bytes);

impl Storage for Memory {
    fn open(&self, name: &str) -> DevResult<Box<dyn File>> {
        let file = self.0.lock().unwrap().get(name).cloned().ok_or(rcore_fs::dev::DevError(2))?;
        Ok(Box::new(Open(file)))
    }

    fn create(&self, name: &str) -> DevResult<Box<dyn File>> {
        let file = Bytes::default();
        self.0.lock().unwrap().insert(name.to_string(), file.clone());
        Ok(Box::new(Open(file)))
    }

    fn remove(&self, name: &str) -> DevResult<()> {
        self.0.lock().unwrap().remove(name);
        Ok(())
    }

    fn clear(&self) -> DevResult<()> {
        self.0.lock().unwrap().clear();
        Ok(())
    }
}

impl File for Open {
    fn read_at(&self, buf: &mut [u8], offset: usize) -> DevResult<usize> {
        let bytes = self.0.lock().unwrap();
        let n = buf.len().min(bytes.len().saturating_sub(offset));
        buf[..n].copy_from_slice(&bytes[offset..offset + n]);
        Ok(n)
    }

    fn write_at(&self, buf: &[u8], offset: usize) -> DevResult<usize> {
        let mut bytes = self.0.lock().unwrap();
        let end = bytes.len().max(offset + buf.len());
        bytes.resize(end, 0);
        bytes[offset..offset + buf.len()].copy_from_slice(buf);
        Ok(buf.len())
    }

    fn set_len(&self, len: usize) -> DevResult<()> {
        self.0.lock().unwrap().resize(len, 0);
        Ok(())
    }

    fn flush(&self) -> DevResult<()> {
        Ok(())
    }

    fn get_file_mac(&self) -> DevResult<SefsMac> {
        Ok(SefsMac::default())
    }
}

#[test]
fn an_image_in_one_file_of_the_storage() {
    let storage = Memory::default();
    assert_eq!(mount(storage.clone()).map(|_| ()), Err(FsError::DeviceError(2)));
    let fresh = Mount::create(Box::new(OneFile(storage.clone())), 256, &TIME, &|| UUID.generate_uuid().0).unwrap();
    fresh.root_inode().create("A", FileType::File, 0o644).unwrap().write_at(0, b"M0 0 L5 9 L9 0").unwrap();
    drop(fresh);
    let again = mount(storage).unwrap();
    assert_eq!(again.root_inode().find("A").unwrap().read_as_vec().unwrap(), b"M0 0 L5 9 L9 0");
}

#[test]
fn the_lines_are_those_of_the_page() {
    let (own, page) = (include_str!("enclave.rs"), include_str!("../../docs/INTERFACE.md"));
    let lines = own.split("// lines for docs/INTERFACE.md\n").nth(1).and_then(|rest| rest.split("// end\n").next()).unwrap();
    assert!(page.contains(lines));
}

/// The page's table of errors is the code's.
#[test]
fn the_errors_are_those_of_the_page() {
    let page = include_str!("../../docs/INTERFACE.md");
    for (reason, make) in dzomrelig_mount::ERRORS {
        let row = format!("| {} {} | {:?} |", reason.number(), reason.name(), make());
        assert!(page.contains(&row), "{row}");
    }
}
