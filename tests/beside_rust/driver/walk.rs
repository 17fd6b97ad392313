//! Order 7's walk, part by part by the Rust's own calls: `find` for a part, `metadata` for the type of what is found, `read_at` for a
//! symlink's target, its root for a leading slash. The Rust has no call that walks by order 7's rules; `lookup_follow` is the nearest, and
//! is asked beside them where both sets of rules take the texts.
use crate::device::Device;
use rcore_fs::vfs::{FileSystem, FileType, FsError, INode, PATH_MAX};
use std::collections::VecDeque;
use std::result::Result;
use std::sync::Arc;

pub const MOST_LINKS: usize = 8;

type Node = Arc<dyn INode>;

/// What refuses a walk.
pub enum Stop {
    Rust(FsError),
    /// A refusal of order 7 that the Rust's calls do not have: the rule and the reason.
    Rule(&'static str, u32),
}

impl From<FsError> for Stop {
    fn from(e: FsError) -> Stop {
        Stop::Rust(e)
    }
}

/// What `lookup_follow` says of the same path.
#[derive(PartialEq)]
pub enum Beside {
    /// Not asked.
    Not,
    /// It ends as the walk does, at the same node.
    Same,
    Other(String),
}

pub struct Walked {
    pub end: Result<Node, Stop>,
    /// The link buffer's bytes, as far as they were written.
    pub links: Vec<u8>,
    pub beside: Beside,
}

pub struct Walk<'a> {
    fs: &'a dyn FileSystem,
    /// The device under it, where it has to know that contents are read.
    device: Option<&'a Device>,
    /// The link buffer's length.
    room: usize,
    links: Vec<u8>,
    met: usize,
    /// A target is longer than what `lookup_follow` reads of one.
    long: bool,
}

impl<'a> Walk<'a> {
    pub fn new(fs: &'a dyn FileSystem, device: Option<&'a Device>, room: usize) -> Walk<'a> {
        Walk { fs, device, room, links: vec![], met: 0, long: false }
    }

    /// The walk, and where `beside` says so, `lookup_follow` for the same path.
    pub fn walked(mut self, from: Node, path: &[u8], beside: bool) -> Walked {
        let end = self.along(from.clone(), path);
        let asked = beside && !self.long && path.len() <= PATH_MAX && both_take(&from, path, &end);
        let beside = if asked { self.beside(&from, path, &end) } else { Beside::Not };
        Walked { end, links: self.links, beside }
    }

    fn along(&mut self, from: Node, path: &[u8]) -> Result<Node, Stop> {
        let (mut at, mut parts) = self.entered(from, path, "path")?;
        while let Some(part) = parts.pop_front() {
            let node = found(&at, &part)?;
            let seen = node.metadata()?;
            if seen.type_ != FileType::SymLink {
                at = node;
                continue;
            }
            let target = self.target(&node, seen.size)?;
            let (start, mut first) = self.entered(at, &target, "target")?;
            // The rest of the text that held the link goes on after the target.
            first.append(&mut parts);
            (at, parts) = (start, first);
        }
        Ok(at)
    }

    /// Where a text starts, and its parts.
    fn entered(&self, at: Node, text: &[u8], rule: &'static str) -> Result<(Node, VecDeque<String>), Stop> {
        let bad = || Stop::Rule(rule, 5);
        let text = std::str::from_utf8(text).ok().filter(|t| !t.contains('\0')).ok_or_else(bad)?;
        let (start, rest) = match text.strip_prefix('/') {
            Some("") => return Ok((self.fs.root_inode(), VecDeque::new())),
            Some(rest) => (None, rest),
            None => (Some(at), text),
        };
        let parts: VecDeque<String> = rest.split('/').map(|part| part.to_string()).collect();
        if parts.iter().any(|part| part.is_empty()) {
            return Err(bad());
        }
        Ok((start.unwrap_or_else(|| self.fs.root_inode()), parts))
    }

    /// A symlink's target, which then stands in the link buffer.
    fn target(&mut self, link: &Node, size: usize) -> Result<Vec<u8>, Stop> {
        if self.met == MOST_LINKS {
            return Err(Stop::Rule("ninth", 23));
        }
        self.met += 1;
        if size > self.room - self.links.len() {
            return Err(Stop::Rule("room", 20));
        }
        let mut target = vec![0; size];
        let read = self.contents(|| link.read_at(0, &mut target))?;
        assert_eq!(read, size);
        self.links.extend(&target);
        self.long |= size > PATH_MAX;
        Ok(target)
    }

    /// A call that reads contents: as many bytes as there are.
    fn contents<T>(&self, act: impl FnOnce() -> T) -> T {
        let set = |on: bool| self.device.iter().for_each(|device| device.disk().contents = on);
        set(true);
        let answer = act();
        set(false);
        answer
    }

    fn beside(&self, from: &Node, path: &[u8], end: &Result<Node, Stop>) -> Beside {
        let path = std::str::from_utf8(path).unwrap();
        let answer = self.contents(|| from.lookup_follow(path, MOST_LINKS));
        let same = match (end, &answer) {
            (Ok(node), Ok(other)) => std::ptr::addr_eq(Arc::as_ptr(node), Arc::as_ptr(other)),
            (Err(Stop::Rust(e)), Err(other)) => e == other,
            (Err(Stop::Rule("ninth", _)), Err(other)) => *other == FsError::SymLoop,
            _ => false,
        };
        if same {
            return Beside::Same;
        }
        let number = |node: &Node| node.metadata().map(|m| m.inode);
        Beside::Other(format!("lookup_follow {:?}, the walk {:?}", answer.as_ref().map(number), end.as_ref().map(number).map_err(told)))
    }
}

fn told(stop: &Stop) -> String {
    match stop {
        Stop::Rust(e) => format!("{e:?}"),
        Stop::Rule(rule, number) => format!("{rule} {number}"),
    }
}

/// A part, looked up as find looks it up, with 01's own reason for `..` of a removed folder.
fn found(at: &Node, part: &str) -> Result<Node, Stop> {
    let folder = at.metadata()?;
    if part == ".." && folder.type_ == FileType::Dir && folder.nlinks == 0 {
        return Err(Stop::Rule("dots", 8));
    }
    Ok(at.find(part)?)
}

/// Whether `lookup_follow` goes the same way: it takes texts that order 7 refuses, has no link buffer, goes up from a removed folder, and asks
/// for a folder also where the path starts at root.
fn both_take(from: &Node, path: &[u8], end: &Result<Node, Stop>) -> bool {
    let folder = || from.metadata().is_ok_and(|m| m.type_ == FileType::Dir);
    !matches!(end, Err(Stop::Rule("path" | "target" | "room" | "dots", _))) && (!path.starts_with(b"/") || folder())
}
