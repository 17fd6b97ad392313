//! `driver timed ROUNDS < SCRIPT`: the nanoseconds that the Rust takes for each kind of call of a script, the least of so many rounds. Its
//! device keeps files as plain bytes in memory, and a hold is an `Arc` at the lowest free place: nothing is compared here.
//! `driver contents FILES ROUNDS`: the same of reads and writes of three sizes, beside so many files. `driver ranges ROUNDS`: of a range put in and taken out.
use crate::script::{Call, Command, Handle, Next, Script, KINDS, NAMES};
use crate::walk::MOST_LINKS;
use crate::world::{feed, kind_of, metadata_of, mode_of, text, Lister, FED};
use rcore_fs::dev::{DevError, DevResult};
use rcore_fs::vfs::{FallocateMode, FileSystem, INode, Result, Timespec};
use rcore_fs_sefs::dev::{File, SefsMac, Storage};
use rcore_fs_sefs::SEFS;
use std::collections::HashMap;
use std::io::Write;
use std::sync::{Arc, Mutex};
use std::time::Instant;

#[derive(Clone, Default)]
struct Plain(Arc<Mutex<HashMap<String, Arc<Mutex<Vec<u8>>>>>>);

struct Open(Arc<Mutex<Vec<u8>>>);

impl Storage for Plain {
    fn open(&self, name: &str) -> DevResult<Box<dyn File>> {
        let file = self.0.lock().unwrap().get(name).cloned().ok_or(DevError(2))?;
        Ok(Box::new(Open(file)))
    }

    fn create(&self, name: &str) -> DevResult<Box<dyn File>> {
        let file = Arc::default();
        self.0.lock().unwrap().insert(name.to_string(), Arc::clone(&file));
        Ok(Box::new(Open(file)))
    }

    fn remove(&self, name: &str) -> DevResult<()> {
        self.0.lock().unwrap().remove(name).map(|_| ()).ok_or(DevError(2))
    }

    fn clear(&self) -> DevResult<()> {
        self.0.lock().unwrap().clear();
        Ok(())
    }
}

impl File for Open {
    fn read_at(&self, buf: &mut [u8], offset: usize) -> DevResult<usize> {
        let bytes = self.0.lock().unwrap();
        let n = buf.len().min(bytes.len().saturating_sub(offset));
        buf[..n].copy_from_slice(&bytes[offset..offset + n]);
        Ok(n)
    }

    fn write_at(&self, buf: &[u8], offset: usize) -> DevResult<usize> {
        let mut bytes = self.0.lock().unwrap();
        let end = offset + buf.len();
        if bytes.len() < end {
            bytes.resize(end, 0);
        }
        bytes[offset..end].copy_from_slice(buf);
        Ok(buf.len())
    }

    fn set_len(&self, len: usize) -> DevResult<()> {
        self.0.lock().unwrap().resize(len, 0);
        Ok(())
    }

    fn flush(&self) -> DevResult<()> {
        Ok(())
    }

    fn get_file_mac(&self) -> DevResult<SefsMac> {
        Ok(SefsMac::default())
    }
}

#[derive(Default)]
struct Image {
    device: Plain,
    fs: Option<Arc<SEFS>>,
    holds: Vec<Option<Arc<dyn INode>>>,
}

impl Image {
    fn node(&self, h: &Handle) -> &Arc<dyn INode> {
        self.holds[h.hold as usize].as_ref().unwrap()
    }

    fn hold(&mut self, node: Arc<dyn INode>) {
        match self.holds.iter().position(|hold| hold.is_none()) {
            Some(free) => self.holds[free] = Some(node),
            None => self.holds.push(Some(node)),
        }
    }

    fn perform(&mut self, call: &Call) -> Result<()> {
        match call {
            Call::Format(time, file) => {
                self.holds.clear();
                feed(*time, *file);
                self.fs = Some(SEFS::create(Box::new(self.device.clone()), &FED, &FED)?);
                Ok(())
            }
            Call::Open => {
                self.holds.clear();
                self.fs = Some(SEFS::open(Box::new(self.device.clone()), &FED, &FED)?);
                Ok(())
            }
            Call::Root => {
                let root = self.fs.as_ref().unwrap().root_inode();
                Ok(self.hold(root))
            }
            Call::Find(h, name) => self.node(h).find(text(name)).map(|node| self.hold(node)),
            Call::Create(h, name, kind, mode, time, file) => {
                feed(*time, *file);
                self.node(h).create(text(name), kind_of(*kind), *mode).map(|node| self.hold(node))
            }
            Call::Link(h, name, other) => self.node(h).link(text(name), self.node(other)),
            Call::RemoveFile(h, name) | Call::RemoveFolder(h, name) => self.node(h).unlink(text(name)),
            Call::Move(h, old, to, new) => self.node(h).move_(text(old), self.node(to), text(new)),
            Call::Metadata(h) => self.node(h).metadata().map(|_| ()),
            Call::Set(h, mode, uid, gid, times) => self.node(h).set_metadata(&metadata_of(*mode, *uid, *gid, times)),
            Call::Entry(h, at, _) => self.node(h).get_entry(*at as usize).map(|_| ()),
            Call::List(h, next, dots, room) => {
                let start = Call::start(*next, *dots) as usize;
                self.node(h).iterate_entries(start, &mut Lister::new(*room as usize)).map(|_| ())
            }
            Call::Sync => self.fs.as_ref().unwrap().sync(),
            Call::Close(h) => Ok(self.holds[h.hold as usize] = None),
            Call::Read(h, at, room) => self.node(h).read_at(*at as usize, &mut vec![0; *room as usize]).map(|_| ()),
            Call::Write(h, at, data) => self.node(h).write_at(*at as usize, data).map(|_| ()),
            Call::Resize(h, length) => self.node(h).resize(*length as usize),
            Call::Fallocate(h, mode, flags, from, length) => {
                self.node(h).fallocate(&mode_of(*mode, *flags), *from as usize, *length as usize)
            }
            Call::Walk(h, path, _) => self.node(h).lookup_follow(text(path), MOST_LINKS).map(|node| self.hold(node)),
            Call::Check | Call::Inventory(_) | Call::Mend | Call::Path(..) => panic!("the Rust has no such call"),
        }
    }
}

pub fn timed(out: &mut impl Write, bytes: &[u8], rounds: u64) -> std::io::Result<()> {
    let mut best = [f64::INFINITY; KINDS];
    let mut counts = [0u32; KINDS];
    for _ in 0..rounds {
        let (mut script, mut image, mut spent) = (Script(bytes), Image::default(), [0f64; KINDS]);
        counts = [0; KINDS];
        while let Next::Do(command) = script.next() {
            let Command::Call(_, call) = command else { continue };
            let from = Instant::now();
            image.perform(&call).expect("a call that is refused");
            spent[call.number()] += from.elapsed().as_nanos() as f64;
            counts[call.number()] += 1;
        }
        for k in 0..KINDS {
            best[k] = best[k].min(spent[k] / counts[k] as f64);
        }
    }
    for k in (0..KINDS).filter(|k| counts[*k] > 0) {
        writeln!(out, "{} {} {:.0}", NAMES[k], counts[k], best[k])?;
    }
    Ok(())
}

const LONGEST: usize = 100_000;
const PLACE: usize = 100;
const LINE: usize = 128;
const TIMES: u32 = 20;

/// The nanoseconds of one call, `before` not counted; the least of so many rounds.
fn least(rounds: u64, before: impl Fn(), act: impl Fn()) -> f64 {
    let mut best = f64::INFINITY;
    for _ in 0..rounds {
        let mut spent = 0;
        for _ in 0..TIMES {
            before();
            let from = Instant::now();
            act();
            spent += from.elapsed().as_nanos();
        }
        best = best.min(spent as f64 / TIMES as f64);
    }
    best
}

/// An image of so many closed files, and an empty one that is open.
fn outline(files: u64) -> (Image, Arc<dyn INode>) {
    let mut image = Image::default();
    let time = Timespec { sec: 0, nsec: 0 };
    let root = Handle { hold: 0, stamp: 1 };
    let create = |name: String, file: u64| Call::Create(root, name.into_bytes(), 1, 420, time, (file as u128).to_le_bytes());
    image.perform(&Call::Format(time, [255; 16])).unwrap();
    image.perform(&Call::Root).unwrap();
    for k in 0..files {
        image.perform(&create(format!("glyph{k}"), k)).unwrap();
        image.perform(&Call::Close(Handle { hold: 1, stamp: 2 })).unwrap();
    }
    image.perform(&create("outline".to_string(), files)).unwrap();
    let node = image.holds[1].clone().unwrap();
    (image, node)
}

fn drawn(n: usize) -> Vec<u8> {
    (0..n).map(|i| (i * 7 + 1) as u8).collect()
}

/// A line of 128 bytes put in at the start of a file of whole lines, and taken out again.
pub fn ranges(out: &mut impl Write, rounds: u64) -> std::io::Result<()> {
    let (_image, node) = outline(0);
    let data = drawn(LONGEST.next_multiple_of(LINE));
    assert_eq!(node.write_at(0, &data).unwrap(), data.len());
    let put_in = || node.fallocate(&FallocateMode::InsertRange, 0, LINE).unwrap();
    let take_out = || node.fallocate(&FallocateMode::CollapseRange, 0, LINE).unwrap();
    put_in();
    writeln!(out, "insert {TIMES} {:.0}", least(rounds, take_out, put_in))?;
    take_out();
    writeln!(out, "collapse {TIMES} {:.0}", least(rounds, put_in, take_out))
}

pub fn contents(out: &mut impl Write, files: u64, rounds: u64) -> std::io::Result<()> {
    let (_image, node) = outline(files);
    let data = drawn(LONGEST);
    let copy = std::cell::RefCell::new(vec![0; LONGEST]);
    for size in [480, 8192, LONGEST] {
        let write = || assert_eq!(node.write_at(PLACE, &data[..size]).unwrap(), size);
        node.write_at(PLACE, &data).unwrap();
        let read = || assert_eq!(node.read_at(PLACE, &mut copy.borrow_mut()[..size]).unwrap(), size);
        writeln!(out, "read{size} {TIMES} {:.0}", least(rounds, || (), read))?;
        writeln!(out, "write{size} {TIMES} {:.0}", least(rounds, || (), write))?;
        writeln!(out, "new{size} {TIMES} {:.0}", least(rounds, || node.resize(0).unwrap(), write))?;
    }
    Ok(())
}
