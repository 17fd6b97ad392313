//! Call scripts (docs/REPLAY.md), interpreted over the crate's public calls: a line of text for each call.
use std::fmt::Write as _;

use dzomrelig::{Attributes, Editor, FallocateMode, FileName, Handle, Image, Place, Reason, Time, BLOCK, BLOCKS_LEAST, BLOCKS_MOST, TABLE};

const SCRIPT_MOST: usize = 1 << 20;
const ARENA_MOST: usize = BLOCK * (BLOCKS_MOST + 1);
const OUT: usize = 8192;
const NAME_MOST: usize = 1024;
/// A row of the table: id, dirty mark, record.
const ROW: usize = 4 + 1 + 112;
const ROWS: usize = 34;

/// Whether images are tested in each call (tests/tested.rs), or only once where that is enough.
pub const TESTED: bool = matches!(env!("CARGO_CRATE_NAME").as_bytes(), b"tested");

/// The same image, on the way that the calls go.
pub fn way(image: &Image) -> Image {
    match TESTED {
        true => Image::from_parts(image.bytes(), *image.table()),
        false => image.clone(),
    }
}

/// What ends a script that breaks the format.
struct BadScript;

struct Reader<'a>(&'a [u8]);

type Read<T> = Result<T, BadScript>;

impl<'a> Reader<'a> {
    fn bytes(&mut self, length: usize) -> Read<&'a [u8]> {
        let (head, rest) = self.0.split_at_checked(length).ok_or(BadScript)?;
        self.0 = rest;
        Ok(head)
    }

    fn array<const N: usize>(&mut self) -> Read<[u8; N]> {
        Ok(self.bytes(N)?.try_into().unwrap())
    }

    fn u8(&mut self) -> Read<u8> {
        Ok(u8::from_le_bytes(self.array()?))
    }

    fn u16(&mut self) -> Read<u16> {
        Ok(u16::from_le_bytes(self.array()?))
    }

    fn u32(&mut self) -> Read<u32> {
        Ok(u32::from_le_bytes(self.array()?))
    }

    fn u64(&mut self) -> Read<u64> {
        Ok(u64::from_le_bytes(self.array()?))
    }

    fn length(&mut self, most: usize) -> Read<usize> {
        Some(self.u32()? as usize).filter(|&n| n <= most).ok_or(BadScript)
    }

    fn handle(&mut self) -> Read<Handle> {
        Ok(Handle { hold: self.u32()?, stamp: self.u64()? })
    }

    fn name(&mut self) -> Read<&'a [u8]> {
        let length = Some(self.u16()? as usize).filter(|&n| n <= NAME_MOST).ok_or(BadScript)?;
        self.bytes(length)
    }

    fn mode(&mut self) -> Read<u8> {
        Some(self.u8()?).filter(|&mode| mode <= FallocateMode::InsertRange.number()).ok_or(BadScript)
    }

    fn time(&mut self) -> Read<Time> {
        Ok(Time::new(self.u64()? as i64, self.u64()? as i64))
    }

    fn file(&mut self) -> Read<FileName> {
        Ok(FileName(self.array()?))
    }

    fn room(&mut self) -> Read<usize> {
        Some(self.u16()? as usize).filter(|&n| n <= OUT).ok_or(BadScript)
    }
}

const PRIME: u64 = 4_294_967_291;

/// The sum of the lines: h becomes h x 257 + b + 1, modulo a prime.
pub fn sum(bytes: &[u8]) -> u64 {
    bytes.iter().fold(0, |h, &b| (h * 257 + u64::from(b) + 1) % PRIME)
}

/// The same sum of an arena, whose blocks are summed again only where they changed.
#[derive(Default)]
struct Sums {
    bytes: Vec<u8>,
    /// Of each block its own sum, and what the sum before it is multiplied by.
    blocks: Vec<(u64, u64)>,
}

impl Sums {
    fn sum(&mut self, bytes: &[u8]) -> u64 {
        if self.bytes.len() != bytes.len() {
            *self = Sums { bytes: vec![0; bytes.len()], blocks: vec![(0, 0); bytes.len().div_ceil(BLOCK)] };
        }
        let mut h = 0;
        for ((old, new), (own, power)) in self.bytes.chunks_mut(BLOCK).zip(bytes.chunks(BLOCK)).zip(&mut self.blocks) {
            if *power == 0 || old != new {
                old.copy_from_slice(new);
                *own = sum(new);
                *power = new.iter().fold(1, |p, _| p * 257 % PRIME);
            }
            h = (h * *power + *own) % PRIME;
        }
        h
    }
}

fn times(t: Time) -> String {
    format!("{} {}", t.sec, t.nsec)
}

/// `ok` or `no` and the reason's number, and the values of a call that is done.
fn said<T>(answer: Result<T, Reason>, values: impl FnOnce(T) -> String) -> String {
    match answer {
        Ok(value) => format!("ok {}", values(value)).trim_end().to_owned(),
        Err(reason) => format!("no {}", reason.number()),
    }
}

fn held(answer: Result<Handle, Reason>) -> String {
    said(answer, |h| format!("{} {}", h.hold, h.stamp))
}

fn done(answer: Result<(), Reason>) -> String {
    said(answer, |()| String::new())
}

struct Replay {
    image: Image,
    arena: Sums,
    text: String,
}

impl Replay {
    fn new() -> Replay {
        let mut table = [0; TABLE];
        table[TABLE - 8] = 1;
        Replay { image: Image::from_parts(vec![0; BLOCK * BLOCKS_LEAST], table), arena: Sums::default(), text: String::new() }
    }

    fn line(&mut self, name: &str, answer: String) {
        let (a, t) = (self.arena.sum(self.image.bytes()), sum(self.image.table()));
        writeln!(self.text, "{name} {answer} a {a} t {t}").unwrap();
    }

    /// Who asks.
    fn by(&mut self, who: u8) -> Editor<&mut Image> {
        Editor::numbered(&mut self.image, who)
    }

    fn set_arena(&mut self, bytes: Vec<u8>) {
        self.image = Image::from_parts(bytes, *self.image.table());
    }

    fn command(&mut self, byte: u8, s: &mut Reader) -> Read<()> {
        let who = if matches!(byte, 18..=27 | 29 | 32..=37 | 40 | 41) { s.u8()? } else { 0 };
        match byte {
            1 => {
                let length = s.length(ARENA_MOST)?;
                let bytes = s.bytes(length)?.to_vec();
                self.set_arena(bytes);
            }
            2 => {
                let length = s.length(ARENA_MOST)?;
                self.set_arena(vec![0; length]);
            }
            3 => {
                let (place, value) = (s.u32()? as usize, s.u8()?);
                let mut bytes = self.image.bytes().to_vec();
                if let Some(byte) = bytes.get_mut(place) {
                    *byte = value;
                }
                self.set_arena(bytes);
            }
            4 => {
                // any dirty mark but 0 is written as 1
                let mut table: [u8; TABLE] = s.array()?;
                for row in table.chunks_exact_mut(ROW).take(ROWS) {
                    row[4] = u8::from(row[4] != 0);
                }
                self.image = Image::from_parts(self.image.bytes(), table);
            }
            16 => {
                let (time, file) = (s.time()?, s.file()?);
                let answer = self.image.reformat(time, file);
                self.image = way(&self.image);
                self.line("format", done(answer));
            }
            17 => {
                let answer = self.image.reopen();
                self.line("open", done(answer));
            }
            18 => {
                let answer = self.by(who).root();
                self.line("root", held(answer));
            }
            19 => {
                let (h, name) = (s.handle()?, s.name()?);
                let answer = self.by(who).find(h, name);
                self.line("find", held(answer));
            }
            20 => {
                let (h, name, kind, mode, time, file) = (s.handle()?, s.name()?, s.u32()?, s.u16()?, s.time()?, s.file()?);
                let answer = self.by(who).create_numbered(h, name, kind, mode, time, file);
                self.line("create", held(answer));
            }
            21 => {
                let (h, name, node) = (s.handle()?, s.name()?, s.handle()?);
                let answer = self.by(who).link(h, name, node);
                self.line("link", done(answer));
            }
            23 => {
                let (h, old, to, new) = (s.handle()?, s.name()?, s.handle()?, s.name()?);
                let answer = self.by(who).rename(h, old, to, new);
                self.line("move", done(answer));
            }
            24 => {
                let answer = self.by(who).metadata(s.handle()?);
                let told = said(answer, |m| {
                    let stamps = [m.atime, m.mtime, m.ctime].map(times).join(" ");
                    let kind = m.kind.number();
                    format!("{} {} {} {kind} {} {stamps} {} {} {}", m.inode, m.size, m.mode, m.blocks, m.links, m.uid, m.gid)
                });
                self.line("metadata", told);
            }
            25 => {
                let (h, mode, uid, gid) = (s.handle()?, s.u16()?, s.u64()?, s.u64()?);
                let (atime, mtime, ctime) = (s.time()?, s.time()?, s.time()?);
                let answer = self.by(who).set_metadata(h, &Attributes { mode, uid, gid, atime, mtime, ctime });
                self.line("set", done(answer));
            }
            26 => {
                let (h, slot, room) = (s.handle()?, s.u64()?, s.room()?);
                let mut out = [238; OUT];
                let answer = done(self.by(who).entry_into(h, slot, &mut out[..room]));
                self.line("entry", format!("{answer} o {}", sum(&out)));
            }
            27 => {
                let (h, next, dots, room) = (s.handle()?, s.u64()?, s.u8()? != 0, s.room()?);
                let (mut place, mut out) = (Place { folder: h, next, dots }, [238; OUT]);
                let answer = said(self.by(who).list(&mut place, &mut out[..room]), |n| n.to_string());
                self.line("list", format!("{answer} o {} p {}", sum(&out), place.next));
            }
            28 => {
                let answer = self.image.sync();
                self.line("sync", done(answer));
            }
            29 => {
                let answer = self.by(who).close(s.handle()?);
                self.line("close", done(answer));
            }
            30 => {
                let verdict = match self.image.check() {
                    Ok(c) => format!("pass nodes {} unused {} free {}", c.nodes, c.unused, c.free),
                    Err(rule) => format!("fail rule {}", rule.number()),
                };
                self.line("check", verdict);
            }
            32 => {
                let (h, place, room) = (s.handle()?, s.u64()?, s.room()?);
                let mut out = [238; OUT];
                let answer = said(self.by(who).read_at(h, place, &mut out[..room]), |n| n.to_string());
                self.line("read", format!("{answer} o {}", sum(&out)));
            }
            33 => {
                let (h, place, length) = (s.handle()?, s.u64()?, s.room()?);
                let answer = self.by(who).write_at(h, place, s.bytes(length)?);
                self.line("write", done(answer));
            }
            34 => {
                let (h, length) = (s.handle()?, s.u64()?);
                let answer = self.by(who).resize(h, length);
                self.line("resize", done(answer));
            }
            35 => {
                let (h, length) = (s.handle()?, s.room()?);
                let (path, room, mut links) = (s.bytes(length)?, s.room()?, [238; OUT]);
                let answer = held(self.by(who).walk(h, path, &mut links[..room]));
                self.line("walk", format!("{answer} o {}", sum(&links)));
            }
            36 => {
                let (h, name) = (s.handle()?, s.name()?);
                let answer = self.by(who).remove_file(h, name);
                self.line("remove-file", done(answer));
            }
            37 => {
                let (h, name) = (s.handle()?, s.name()?);
                let answer = self.by(who).remove_folder(h, name);
                self.line("remove-folder", done(answer));
            }
            38 => {
                let (room, mut out) = (s.room()?, [238; OUT]);
                let answer = said(self.image.inventory_into(&mut out[..room]), |n| n.to_string());
                self.line("inventory", format!("{answer} o {}", sum(&out)));
            }
            39 => {
                let answer = self.image.mend();
                self.image = way(&self.image);
                self.line("mend", done(answer));
            }
            40 => {
                let (h, mode, flags) = (s.handle()?, s.mode()?, s.u8()?);
                let (from, length) = (s.u64()?, s.u64()?);
                let answer = self.by(who).fallocate_numbered(h, mode, flags, from, length);
                self.line("fallocate", done(answer));
            }
            41 => {
                let (h, room, mut out) = (s.handle()?, s.room()?, [238; OUT]);
                let answer = said(self.by(who).path_into(h, &mut out[..room]), |n| n.to_string());
                self.line("path", format!("{answer} o {}", sum(&out)));
            }
            _ => return Err(BadScript),
        }
        Ok(())
    }

    fn run(&mut self, script: &[u8]) -> Read<()> {
        if script.len() > SCRIPT_MOST {
            return Err(BadScript);
        }
        let mut reader = Reader(script);
        while let Ok(byte) = reader.u8() {
            if byte == 0 {
                break;
            }
            self.command(byte, &mut reader)?;
        }
        Ok(())
    }
}

/// What a script prints.
pub fn replay(script: &[u8]) -> String {
    let mut replay = Replay::new();
    if replay.run(script).is_err() {
        replay.text.push_str("bad script\n");
    }
    replay.text
}
