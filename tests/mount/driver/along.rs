//! The mount's side of a sequence: each call that is made on 000 is made here too, through the same traits, and held against what 000 said.
use crate::besides::Besides;
use crate::counts::Counts;
use crate::device::sum;
use crate::gen::Beside;
use crate::image::{Mounted, REPORTS};
use crate::script::{Call, Command, Handle};
use crate::walk::{Beside as WalkedBeside, Stop, Walk, Walked};
use crate::world::{feed, kind_of, metadata_of, mode_of, text, Line, World};
use dzomrelig::Reason;
use dzomrelig_mount::fs_error;
use rcore_fs::vfs::{DirentVisitor, FileSystem, FileType, FsError, INode, Metadata, Result};
use std::collections::HashMap;
use std::sync::atomic::Ordering::Relaxed;
use std::sync::Arc;

const SLOT: usize = 264;
const OUTPUT: usize = 8192;

/// A call that the traits do not have in that form: nobody asks, no `Arc` is there, a name is no `&str`, unlink takes both kinds, a `String` needs no room, and a
/// limit of holds that the mount does not have in that place.
const NOT_MADE: [&str; 7] = ["owner", "handle", "another's", "kind", "output", "table", "arena"];

pub struct Along<'a> {
    seed: u64,
    pub mounted: Option<Mounted>,
    pub holds: HashMap<(u32, u64), Arc<dyn INode>>,
    /// Bytes that were set from outside, and not opened yet.
    bytes: Option<Vec<u8>>,
    /// The two sides went apart in a call of which nothing is said: nothing is compared until the next format or open.
    apart: bool,
    /// There was a difference: what follows would only repeat it.
    ended: bool,
    pub counts: &'a mut Counts,
    besides: Option<Besides>,
}

/// What a call gives.
pub enum Got {
    Done,
    Node(Arc<dyn INode>),
    Told(Metadata),
    Name(String),
    Slots(usize, Vec<Seen>),
    Bytes(usize, Vec<u8>),
}

pub type Seen = (String, u64, FileType, usize);

/// Takes so many slots.
pub struct Visitor {
    pub seen: Vec<Seen>,
    pub room: usize,
}

impl DirentVisitor for Visitor {
    fn visit_entry(&mut self, name: &str, id: u64, kind: FileType, at: usize) -> Result<()> {
        if self.seen.len() == self.room {
            return Err(FsError::NoDeviceSpace);
        }
        self.seen.push((name.to_string(), id, kind, at));
        Ok(())
    }
}

fn listed(node: &Arc<dyn INode>, from: u64, output: usize) -> Result<Got> {
    let mut visitor = Visitor { seen: vec![], room: output / SLOT };
    let count = node.iterate_entries(from as usize, &mut visitor)?;
    Ok(Got::Slots(count, visitor.seen))
}

/// The error that 000 gave, by the number that its side of the comparison writes for it.
fn error_of(number: u32) -> Option<FsError> {
    Some(match number {
        6 => FsError::InvalidParam,
        7 => FsError::NotDir,
        8 => FsError::DirRemoved,
        9 => FsError::IsDir,
        10 => FsError::NameTooLong,
        11 => FsError::EntryNotFound,
        12 => FsError::EntryExist,
        13 => FsError::DirNotEmpty,
        18 => FsError::WrongFs,
        20 => FsError::NoDeviceSpace,
        21 => FsError::NotFile,
        23 => FsError::SymLoop,
        _ => return None,
    })
}

impl<'a> Along<'a> {
    pub fn new(seed: u64, counts: &'a mut Counts) -> Along<'a> {
        let (mounted, holds, bytes) = (None, HashMap::new(), None);
        Along { seed, mounted, holds, bytes, apart: true, ended: false, counts, besides: Some(Besides::new(seed)) }
    }

    pub fn difference(&mut self, text: String) {
        self.ended = true;
        self.counts.difference(self.seed, text);
    }

    fn node(&self, h: Handle) -> Arc<dyn INode> {
        self.holds.get(&(h.hold, h.stamp)).expect("a hold of the other side").clone()
    }

    fn current(&self) -> Vec<u8> {
        self.mounted.as_ref().map_or(vec![], Mounted::bytes)
    }

    /// A new image, or this one as it is stored: the old one's nodes are dropped, which it alone sees.
    fn start(&mut self, mounted: Mounted) {
        self.holds.clear();
        self.mounted = Some(mounted);
        self.bytes = None;
        self.apart = false;
    }

    fn perform(&mut self, who: u8, call: &Call) -> Result<Got> {
        let mounted = self.mounted.as_ref().expect("an image");
        match call {
            Call::Root => Ok(Got::Node(mounted.of(who).root_inode())),
            Call::Find(h, name) => self.node(*h).find(text(name)).map(Got::Node),
            Call::Create(h, name, kind, mode, time, file) => {
                // 000 may have been asked in a forked copy of this process alone
                feed(*time, *file);
                self.node(*h).create(text(name), kind_of(*kind), *mode).map(Got::Node)
            }
            Call::Link(h, name, other) => self.node(*h).link(text(name), &self.node(*other)).map(|_| Got::Done),
            Call::RemoveFile(h, name) | Call::RemoveFolder(h, name) => self.node(*h).unlink(text(name)).map(|_| Got::Done),
            Call::Move(h, old, to, new) => self.node(*h).move_(text(old), &self.node(*to), text(new)).map(|_| Got::Done),
            Call::Metadata(h) => self.node(*h).metadata().map(Got::Told),
            Call::Set(h, mode, uid, gid, times) => self.node(*h).set_metadata(&metadata_of(*mode, *uid, *gid, times)).map(|_| Got::Done),
            Call::Entry(h, at, _) => self.node(*h).get_entry(*at as usize).map(Got::Name),
            Call::List(h, next, dots, room) => listed(&self.node(*h), Call::start(*next, *dots), *room as usize),
            Call::Sync => mounted.sync().map(|_| Got::Done),
            Call::Close(h) => {
                self.holds.remove(&(h.hold, h.stamp));
                Ok(Got::Done)
            }
            Call::Read(h, at, room) => {
                let mut out = vec![238; OUTPUT];
                let count = self.node(*h).read_at(*at as usize, &mut out[..*room as usize])?;
                Ok(Got::Bytes(count, out))
            }
            Call::Write(h, at, data) => {
                let count = self.node(*h).write_at(*at as usize, data)?;
                assert_eq!(count, data.len());
                Ok(Got::Done)
            }
            Call::Resize(h, length) => self.node(*h).resize(*length as usize).map(|_| Got::Done),
            Call::Fallocate(h, mode, flags, from, length) => {
                self.node(*h).fallocate(&mode_of(*mode, *flags), *from as usize, *length as usize).map(|_| Got::Done)
            }
            Call::Format(..) | Call::Open | Call::Check | Call::Walk(..) | Call::Inventory(_) | Call::Mend | Call::Path(..) => panic!("not a call of the traits"),
        }
    }

    /// A walk by the traits' calls, a part after the other as on 000's side, and `lookup_follow` where it was asked there.
    fn walks(
        &mut self,
        who: u8,
        h: Handle,
        path: &[u8],
        room: u16,
        both: bool,
        line: &str,
        world: &World,
    ) -> std::result::Result<(), String> {
        let mount = self.mounted.as_ref().expect("an image").of(who);
        let Walked { end, links, beside } = Walk::new(&**mount, None, room as usize).walked(self.node(h), path, both);
        let words: Vec<&str> = line.split(' ').collect();
        let mut output = [238; OUTPUT];
        output[..links.len()].copy_from_slice(&links);
        if both && beside != WalkedBeside::Same {
            return Err(if let WalkedBeside::Other(text) = beside { text } else { "no lookup_follow".to_string() });
        }
        if words.iter().rev().nth(4) != Some(&sum(0, &output).to_string().as_str()) {
            return Err(format!("links {links:?}"));
        }
        match (words[1], end) {
            ("ok", Ok(node)) => self.taken(node, &words, world),
            ("no", Err(Stop::Rust(error))) if words[2].parse().ok().and_then(error_of).as_ref() == Some(&error) => Ok(()),
            ("no", Err(Stop::Rule(_, number))) if words[2] == number.to_string() => Ok(()),
            (_, Err(Stop::Rust(error))) => Err(format!("{error:?}")),
            (_, Err(Stop::Rule(rule, number))) => Err(format!("{rule} {number}")),
            (_, Ok(_)) => Err("done".to_string()),
        }
    }

    /// A node that both sides opened.
    fn taken(&mut self, node: Arc<dyn INode>, words: &[&str], world: &World) -> std::result::Result<(), String> {
        let h = Handle { hold: words[2].parse().unwrap(), stamp: words[3].parse().unwrap() };
        let (mine, other) = (node.metadata(), world.table.node(h).unwrap().metadata());
        self.holds.insert((h.hold, h.stamp), node);
        if mine == other {
            Ok(())
        } else {
            Err(format!("{mine:?}, and not {other:?}"))
        }
    }

    /// Whether the mount's answer is what the other side's line says. Values that the line has only a sum of are asked of 000 again.
    fn agrees(&mut self, call: &Call, ruled: bool, line: &str, got: Result<Got>, world: &mut World) -> std::result::Result<(), String> {
        let words: Vec<&str> = line.split(' ').collect();
        let got = match (words[1], got) {
            ("ok", Ok(got)) => got,
            ("no", Err(error)) => {
                let number = words[2].parse().unwrap_or(0);
                let said = if ruled { Reason::try_from(number).ok().map(fs_error) } else { error_of(number) };
                return if said.as_ref() == Some(&error) { Ok(()) } else { Err(format!("{error:?}, and not {said:?}")) };
            }
            (_, Ok(_)) => return Err("done".to_string()),
            (_, Err(error)) => return Err(format!("{error:?}")),
        };
        let same = |same: bool, what: String| if same { Ok(()) } else { Err(what) };
        match (call, got) {
            (_, Got::Done) => Ok(()),
            (_, Got::Node(node)) => self.taken(node, &words, world),
            (Call::Metadata(h), Got::Told(mine)) => {
                let other = world.table.node(*h).unwrap().metadata();
                same(other.as_ref() == Ok(&mine), format!("{mine:?}, and not {other:?}"))
            }
            (Call::Entry(h, at, _), Got::Name(mine)) => {
                let other = world.table.node(*h).unwrap().get_entry(*at as usize);
                same(other.as_ref() == Ok(&mine), format!("{mine:?}, and not {other:?}"))
            }
            (Call::List(h, next, dots, room), Got::Slots(count, mine)) => {
                let other = listed(world.table.node(*h).unwrap(), Call::start(*next, *dots), *room as usize);
                let equal = matches!(&other, Ok(Got::Slots(n, seen)) if *n == count && *seen == mine);
                same(equal, format!("{count} slots {mine:?}"))
            }
            (Call::Read(..), Got::Bytes(count, out)) => {
                let mine = [count.to_string(), "o".to_string(), sum(0, &out).to_string()];
                same(words[2..5] == mine, format!("{mine:?}"))
            }
            _ => Err("another kind of answer".to_string()),
        }
    }

    /// A call that 000 answered, or whose answer the documents give.
    fn compare(&mut self, who: u8, call: &Call, rule: Option<&'static str>, both: bool, line: &str, world: &mut World) {
        let is_text = |name: &&[u8]| std::str::from_utf8(name).is_ok();
        match rule {
            Some(rule) if NOT_MADE.contains(&rule) => return self.counts.left(rule),
            _ if !call.names().iter().all(is_text) => return self.counts.left("name"),
            Some("name") if matches!(call, Call::Walk(..)) => return self.counts.left("name"),
            _ => (),
        }
        let agrees = match call {
            Call::Walk(h, path, room) => self.walks(who, *h, path, *room, both, line, world),
            _ => {
                let got = self.perform(who, call);
                self.agrees(call, rule.is_some_and(|rule| !["folder", "beyond"].contains(&rule)), line, got, world)
            }
        };
        if let Err(text) = agrees {
            return self.difference(format!("{call:?} of {who}: {line} {rule:?}: the mount says {text}"));
        }
        let words = if line.contains(" no ") { 2 } else { 1 };
        let answer: Vec<&str> = line.split(' ').skip(1).take(words).collect();
        match rule {
            Some(rule) => self.counts.ruled(rule),
            None if both => self.counts.same("walk by lookup_follow too", answer.join(" ")),
            None => self.counts.same(call.name(), answer.join(" ")),
        }
        self.compare_bytes(call, world);
    }

    pub fn compare_bytes(&mut self, call: &Call, world: &World) {
        let mounted = self.mounted.as_ref().expect("an image");
        if mounted.of(1).image(|image| world.arena_is(image.bytes())) == Some(false) {
            self.difference(format!("{call:?}: the stored bytes differ"));
        }
    }

    /// Nothing is said of the answer; a refusal keeps all bytes.
    fn unsaid(&mut self, who: u8, call: &Call, rule: &str, world: &World) {
        self.counts.left(rule);
        let is_text = |name: &&[u8]| std::str::from_utf8(name).is_ok();
        if rule != "stuck" || matches!(call, Call::Walk(..)) || !call.names().iter().all(is_text) {
            return;
        }
        let before = self.current();
        let refused = self.perform(who, call).is_err();
        self.apart = self.current() != before || world.arena_is(&before) != Some(true);
        if refused && self.current() != before {
            self.difference(format!("{call:?}: refused, and yet something changed"));
        }
        // A node that 000 has not.
        self.apart |= !refused;
    }

    fn format(&mut self, rule: Option<&'static str>) {
        let length = self.bytes.as_ref().map_or_else(|| self.current().len(), Vec::len);
        if rule.is_some() {
            return self.counts.left("arena");
        }
        match Mounted::create(length) {
            Ok(mounted) => self.start(mounted),
            Err(error) => return self.difference(format!("format: {error:?}")),
        }
        self.counts.same("format", "ok".to_string());
    }

    fn open(&mut self, rule: Option<&'static str>, line: &str, world: &mut World) {
        let bytes = match self.bytes.take() {
            Some(bytes) => bytes,
            None if self.apart => world.arena(),
            None => self.current(),
        };
        let number = line.split(' ').nth(2).and_then(|word| word.parse::<u32>().ok());
        let said = number.and_then(|number| Reason::try_from(number).ok()).map(fs_error);
        match (Mounted::open(bytes), line.starts_with("open ok")) {
            (Ok(mounted), true) => self.start(mounted),
            (Err(error), false) if said.as_ref() == Some(&error) => self.apart = true,
            (mine, _) => return self.difference(format!("{line}: the mount says {:?}", mine.map(|_| ()))),
        }
        match rule {
            Some(rule) => self.counts.ruled(rule),
            None => self.counts.same("open", line.split(' ').nth(1).unwrap_or("").to_string()),
        }
    }

    fn check(&mut self, line: &str) {
        let counts = self.mounted.as_ref().expect("an image").of(1).check();
        let mine = counts.map(|c| format!("check pass nodes {} unused {} free {} ", c.nodes, c.unused, c.free));
        match mine {
            Ok(mine) if line.starts_with(&mine) => self.counts.ruled("check"),
            mine => self.difference(format!("{line}: the mount says {mine:?}")),
        }
    }
}

impl Beside for Along<'_> {
    fn outside(&mut self, command: &Command) {
        match command {
            Command::Arena(bytes) => self.bytes = Some(bytes.clone()),
            Command::Zeros(length) => self.bytes = Some(vec![0; *length]),
            Command::Poke(place, value) => {
                let mut bytes = self.bytes.take().unwrap_or_else(|| self.current());
                if let Some(byte) = bytes.get_mut(*place) {
                    *byte = *value;
                }
                self.bytes = Some(bytes);
            }
            Command::Table(_) | Command::Call(..) => panic!("no such command in a sequence"),
        }
    }

    fn call(&mut self, who: u8, call: &Call, line: &Line, world: &mut World) {
        let both = matches!(line, Line::Both(_));
        let (rule, line) = match line {
            _ if self.ended => return,
            Line::Same(line) | Line::Both(line) => (None, line),
            Line::Left(rule, line) => (Some(*rule), line),
            Line::Unsaid(rule, _) if self.apart => return self.counts.left(rule),
            Line::Unsaid(rule, _) => return self.unsaid(who, call, rule, world),
            Line::Lost(text) => return self.difference(text.clone()),
        };
        match call {
            Call::Format(..) => self.format(rule),
            Call::Open => self.open(rule, line, world),
            _ if self.apart => return self.counts.left("apart"),
            Call::Check => self.check(line),
            _ => self.compare(who, call, rule, both, line, world),
        }
        if !self.ended && !self.apart && !world.hurt {
            let mut besides = self.besides.take().expect("besides");
            besides.ask(self, who, call, world);
            self.besides = Some(besides);
        }
        self.counts.reports = REPORTS.load(Relaxed);
    }
}
