//! Call scripts as REPLAY.md lays them out, read and written.
use crate::table::TABLE;
use rcore_fs::vfs::Timespec;

#[derive(Clone, Copy, PartialEq, Debug)]
pub struct Handle {
    pub hold: u32,
    pub stamp: u64,
}

pub type FileName = [u8; 16];

pub enum Command {
    Arena(Vec<u8>),
    Zeros(usize),
    Poke(usize, u8),
    Table(Vec<u8>),
    /// A call, and who asks: 0 where nobody has to.
    Call(u8, Call),
}

#[derive(Debug)]
pub enum Call {
    Format(Timespec, FileName),
    Open,
    Root,
    Find(Handle, Vec<u8>),
    Create(Handle, Vec<u8>, u32, u16, Timespec, FileName),
    Link(Handle, Vec<u8>, Handle),
    Move(Handle, Vec<u8>, Handle, Vec<u8>),
    Metadata(Handle),
    Set(Handle, u16, u64, u64, [Timespec; 3]),
    Entry(Handle, u64, u16),
    /// Next slot, whether the dots are asked for, room.
    List(Handle, u64, u8, u16),
    Sync,
    Close(Handle),
    Check,
    Read(Handle, u64, u16),
    Write(Handle, u64, Vec<u8>),
    Resize(Handle, u64),
    /// Path, length of the link buffer.
    Walk(Handle, Vec<u8>, u16),
    RemoveFile(Handle, Vec<u8>),
    RemoveFolder(Handle, Vec<u8>),
    /// Length of the output.
    Inventory(u16),
    Mend,
    /// Mode, flags, start, length.
    Fallocate(Handle, u8, u8, u64, u64),
    /// Length of the output.
    Path(Handle, u16),
}

pub const KINDS: usize = 24;
#[rustfmt::skip]
pub const NAMES: [&str; KINDS] =
    ["format", "open", "root", "find", "create", "link", "move", "metadata", "set", "entry", "list", "sync", "close", "check",
     "read", "write", "resize", "walk", "remove-file", "remove-folder", "inventory", "mend", "fallocate", "path"];
/// The commands' bytes: from 32 on those that document 02 adds; 22 was unlink.
const BYTES: [u8; KINDS] = [16, 17, 18, 19, 20, 21, 23, 24, 25, 26, 27, 28, 29, 30, 32, 33, 34, 35, 36, 37, 38, 39, 40, 41];

impl Call {
    /// Its place among the names.
    pub fn number(&self) -> usize {
        match self {
            Call::Format(..) => 0,
            Call::Open => 1,
            Call::Root => 2,
            Call::Find(..) => 3,
            Call::Create(..) => 4,
            Call::Link(..) => 5,
            Call::Move(..) => 6,
            Call::Metadata(_) => 7,
            Call::Set(..) => 8,
            Call::Entry(..) => 9,
            Call::List(..) => 10,
            Call::Sync => 11,
            Call::Close(_) => 12,
            Call::Check => 13,
            Call::Read(..) => 14,
            Call::Write(..) => 15,
            Call::Resize(..) => 16,
            Call::Walk(..) => 17,
            Call::RemoveFile(..) => 18,
            Call::RemoveFolder(..) => 19,
            Call::Inventory(_) => 20,
            Call::Mend => 21,
            Call::Fallocate(..) => 22,
            Call::Path(..) => 23,
        }
    }

    /// Whether it says who asks.
    pub fn asks(&self) -> bool {
        !matches!(self, Call::Format(..) | Call::Open | Call::Sync | Call::Check | Call::Inventory(_) | Call::Mend)
    }

    fn byte(&self) -> u8 {
        BYTES[self.number()]
    }

    pub fn name(&self) -> &'static str {
        NAMES[self.number()]
    }

    pub fn handles(&self) -> Vec<Handle> {
        match self {
            Call::Find(h, _) | Call::Create(h, ..) | Call::RemoveFile(h, _) | Call::RemoveFolder(h, _) => vec![*h],
            Call::Link(h, _, g) | Call::Move(h, _, g, _) => vec![*h, *g],
            Call::Metadata(h) | Call::Set(h, ..) | Call::Entry(h, ..) | Call::List(h, ..) | Call::Close(h) => vec![*h],
            Call::Read(h, ..) | Call::Write(h, ..) | Call::Resize(h, _) | Call::Walk(h, ..) | Call::Fallocate(h, ..) | Call::Path(h, _) => vec![*h],
            _ => vec![],
        }
    }

    /// The texts that it gives: names, or a path.
    pub fn names(&self) -> Vec<&[u8]> {
        match self {
            Call::Find(_, n) | Call::Create(_, n, ..) | Call::Link(_, n, _) => vec![n],
            Call::RemoveFile(_, n) | Call::RemoveFolder(_, n) | Call::Walk(_, n, _) => vec![n],
            Call::Move(_, n, _, m) => vec![n, m],
            _ => vec![],
        }
    }

    /// The name that this call would store.
    pub fn new_name(&self) -> Option<&[u8]> {
        match self {
            Call::Create(_, n, ..) | Call::Link(_, n, _) | Call::Move(_, _, _, n) => Some(n),
            _ => None,
        }
    }

    /// The slot that a listing starts with: order 6 leaves slots 0 and 1 out where the dots are not asked for.
    pub fn start(next: u64, dots: u8) -> u64 {
        if dots == 0 {
            next.max(2)
        } else {
            next
        }
    }

    pub fn write(&self, who: u8, out: &mut Vec<u8>) {
        out.push(self.byte());
        if self.asks() {
            out.push(who);
        }
        match self {
            Call::Format(time, file) => {
                put_time(out, time);
                out.extend(file);
            }
            Call::Find(h, name) | Call::RemoveFile(h, name) | Call::RemoveFolder(h, name) => {
                put_handle(out, h);
                put_name(out, name);
            }
            Call::Create(h, name, kind, mode, time, file) => {
                put_handle(out, h);
                put_name(out, name);
                out.extend(kind.to_le_bytes());
                out.extend(mode.to_le_bytes());
                put_time(out, time);
                out.extend(file);
            }
            Call::Link(h, name, node) => {
                put_handle(out, h);
                put_name(out, name);
                put_handle(out, node);
            }
            Call::Move(h, old, target, new) => {
                put_handle(out, h);
                put_name(out, old);
                put_handle(out, target);
                put_name(out, new);
            }
            Call::Metadata(h) | Call::Close(h) => put_handle(out, h),
            Call::Set(h, mode, uid, gid, times) => {
                put_handle(out, h);
                out.extend(mode.to_le_bytes());
                out.extend(uid.to_le_bytes());
                out.extend(gid.to_le_bytes());
                times.iter().for_each(|t| put_time(out, t));
            }
            Call::Entry(h, at, room) | Call::Read(h, at, room) => {
                put_handle(out, h);
                out.extend(at.to_le_bytes());
                out.extend(room.to_le_bytes());
            }
            Call::List(h, next, dots, room) => {
                put_handle(out, h);
                out.extend(next.to_le_bytes());
                out.push(*dots);
                out.extend(room.to_le_bytes());
            }
            Call::Write(h, at, data) => {
                put_handle(out, h);
                out.extend(at.to_le_bytes());
                put_name(out, data);
            }
            Call::Resize(h, length) => {
                put_handle(out, h);
                out.extend(length.to_le_bytes());
            }
            Call::Walk(h, path, room) => {
                put_handle(out, h);
                put_name(out, path);
                out.extend(room.to_le_bytes());
            }
            Call::Inventory(room) => out.extend(room.to_le_bytes()),
            Call::Path(h, room) => {
                put_handle(out, h);
                out.extend(room.to_le_bytes());
            }
            Call::Fallocate(h, mode, flags, from, length) => {
                put_handle(out, h);
                out.extend([*mode, *flags]);
                out.extend(from.to_le_bytes());
                out.extend(length.to_le_bytes());
            }
            Call::Open | Call::Root | Call::Sync | Call::Check | Call::Mend => (),
        }
    }
}

impl Command {
    pub fn write(&self, out: &mut Vec<u8>) {
        match self {
            Command::Arena(bytes) => {
                out.push(1);
                out.extend((bytes.len() as u32).to_le_bytes());
                out.extend(bytes);
            }
            Command::Zeros(length) => {
                out.push(2);
                out.extend((*length as u32).to_le_bytes());
            }
            Command::Poke(place, value) => {
                out.push(3);
                out.extend((*place as u32).to_le_bytes());
                out.push(*value);
            }
            Command::Table(bytes) => {
                out.push(4);
                out.extend(bytes);
            }
            Command::Call(who, call) => call.write(*who, out),
        }
    }
}

fn put_handle(out: &mut Vec<u8>, h: &Handle) {
    out.extend(h.hold.to_le_bytes());
    out.extend(h.stamp.to_le_bytes());
}

fn put_name(out: &mut Vec<u8>, name: &[u8]) {
    out.extend((name.len() as u16).to_le_bytes());
    out.extend(name);
}

fn put_time(out: &mut Vec<u8>, t: &Timespec) {
    out.extend(t.sec.to_le_bytes());
    out.extend(t.nsec.to_le_bytes());
}

/// A script still to be read.
pub struct Script<'a>(pub &'a [u8]);

pub enum Next {
    Do(Command),
    End,
    Bad,
}

impl Script<'_> {
    pub fn next(&mut self) -> Next {
        match self.bytes(1) {
            None | Some([0]) => Next::End,
            Some([byte, ..]) => {
                let byte = *byte;
                self.command(byte).map_or(Next::Bad, Next::Do)
            }
            Some([]) => Next::Bad,
        }
    }

    fn command(&mut self, byte: u8) -> Option<Command> {
        Some(match byte {
            1 => {
                let length = self.arena_length()?;
                Command::Arena(self.bytes(length)?.to_vec())
            }
            2 => Command::Zeros(self.arena_length()?),
            3 => Command::Poke(self.u32()? as usize, self.bytes(1)?[0]),
            4 => Command::Table(self.bytes(TABLE)?.to_vec()),
            16 | 17 | 28 | 30 | 38 | 39 => Command::Call(0, self.call(byte)?),
            _ => Command::Call(self.bytes(1)?[0], self.call(byte)?),
        })
    }

    fn call(&mut self, byte: u8) -> Option<Call> {
        Some(match byte {
            16 => Call::Format(self.time()?, self.array()?),
            17 => Call::Open,
            18 => Call::Root,
            19 => Call::Find(self.handle()?, self.name()?),
            20 => Call::Create(self.handle()?, self.name()?, self.u32()?, self.u16()?, self.time()?, self.array()?),
            21 => Call::Link(self.handle()?, self.name()?, self.handle()?),
            23 => Call::Move(self.handle()?, self.name()?, self.handle()?, self.name()?),
            24 => Call::Metadata(self.handle()?),
            25 => Call::Set(self.handle()?, self.u16()?, self.u64()?, self.u64()?, [self.time()?, self.time()?, self.time()?]),
            26 => Call::Entry(self.handle()?, self.u64()?, self.room()?),
            27 => Call::List(self.handle()?, self.u64()?, self.bytes(1)?[0], self.room()?),
            28 => Call::Sync,
            29 => Call::Close(self.handle()?),
            30 => Call::Check,
            32 => Call::Read(self.handle()?, self.u64()?, self.room()?),
            33 => Call::Write(self.handle()?, self.u64()?, self.data()?),
            34 => Call::Resize(self.handle()?, self.u64()?),
            35 => Call::Walk(self.handle()?, self.data()?, self.room()?),
            36 => Call::RemoveFile(self.handle()?, self.name()?),
            37 => Call::RemoveFolder(self.handle()?, self.name()?),
            38 => Call::Inventory(self.room()?),
            39 => Call::Mend,
            40 => Call::Fallocate(self.handle()?, self.mode()?, self.bytes(1)?[0], self.u64()?, self.u64()?),
            41 => Call::Path(self.handle()?, self.room()?),
            _ => return None,
        })
    }

    fn bytes(&mut self, n: usize) -> Option<&[u8]> {
        let (taken, rest) = self.0.split_at_checked(n)?;
        self.0 = rest;
        Some(taken)
    }

    fn array<const N: usize>(&mut self) -> Option<[u8; N]> {
        self.bytes(N).map(|b| b.try_into().unwrap())
    }

    fn u16(&mut self) -> Option<u16> {
        self.array().map(u16::from_le_bytes)
    }

    fn u32(&mut self) -> Option<u32> {
        self.array().map(u32::from_le_bytes)
    }

    fn u64(&mut self) -> Option<u64> {
        self.array().map(u64::from_le_bytes)
    }

    fn i64(&mut self) -> Option<i64> {
        self.array().map(i64::from_le_bytes)
    }

    fn arena_length(&mut self) -> Option<usize> {
        self.u32().map(|n| n as usize).filter(|n| *n <= 2_097_664)
    }

    fn room(&mut self) -> Option<u16> {
        self.u16().filter(|n| *n <= 8192)
    }

    fn mode(&mut self) -> Option<u8> {
        self.bytes(1).map(|b| b[0]).filter(|n| *n <= 5)
    }

    fn handle(&mut self) -> Option<Handle> {
        Some(Handle { hold: self.u32()?, stamp: self.u64()? })
    }

    fn name(&mut self) -> Option<Vec<u8>> {
        let n = self.u16().filter(|n| *n <= 1024)?;
        self.bytes(n as usize).map(|b| b.to_vec())
    }

    fn data(&mut self) -> Option<Vec<u8>> {
        let n = self.room()?;
        self.bytes(n as usize).map(|b| b.to_vec())
    }

    fn time(&mut self) -> Option<Timespec> {
        Some(Timespec { sec: self.i64()?, nsec: self.i64()? })
    }
}
