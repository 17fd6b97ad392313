//! The proved calls (`include/dzomrelig.h`), and the one place with unsafe code.
//!
//! A [`Pair`] is an arena and its table of open nodes. Nobody else can write them: the fields are this module's own. What the C functions ask of
//! their caller is met by the types here: a slice gives a pointer that is not null and the length that belongs to it; `&mut` slices overlap nothing;
//! table, file name and words are arrays of the sizes that the calls want, so that a wrong size can't be passed.
//!
//! Every call that takes or makes a handle says who asks, by a number that the call itself judges.
//!
//! The calls for owners of an image (`dz_own_`) leave the tests of arena and table out, and ask for more: that both would pass them, and that the chains are the
//! arena's (`Owned` of crates/owners_kept). A pair has chains where that is so, and only then are these calls made. It gets them where a format, a check or a
//! mending of it gave 0, and then the making of the chains (theorems `FormatFresh`, `CheckTrusts`, `MendTrusts` and `ChainsOwn`, crate `linked`). Each of these
//! calls leaves a pair that passes again, and chains that are right (`OwnKeeps`, crate `linked`). Open, which is none of them, takes the chains away.
#![allow(unsafe_code)]
use alloc::boxed::Box;
use alloc::vec::Vec;

use crate::{Attributes, Counts, FailedRule, FileName, Handle, Kind, Metadata, Reason, Time, TABLE};

// One line for each, in the header's order.
#[rustfmt::skip]
extern "C" {
    fn dz_format(a: *mut u8, al: usize, t: *mut u8, tl: usize, sec: i64, nsec: i64, file: *const u8, fl: usize) -> u32;
    fn dz_open(a: *const u8, al: usize, t: *mut u8, tl: usize) -> u32;
    fn dz_sync(a: *mut u8, al: usize, t: *mut u8, tl: usize) -> u32;
    fn dz_check(a: *const u8, al: usize, t: *const u8, tl: usize, counts: *mut u64, words: usize) -> u32;
    fn dz_inventory(a: *const u8, al: usize, out: *mut u8, ol: usize, length: *mut u64, words: usize) -> u32;
    fn dz_mend(a: *mut u8, al: usize, t: *const u8, tl: usize) -> u32;
    fn dz_root(a: *const u8, al: usize, t: *mut u8, tl: usize, who: u8, handle: *mut u64, words: usize) -> u32;
    fn dz_find(a: *const u8, al: usize, t: *mut u8, tl: usize, who: u8, hold: u32, stamp: u64, name: *const u8, nl: usize, handle: *mut u64, words: usize) -> u32;
    fn dz_walk(a: *const u8, al: usize, t: *mut u8, tl: usize, who: u8, hold: u32, stamp: u64, path: *const u8, pl: usize, links: *mut u8, ll: usize,
               handle: *mut u64, words: usize) -> u32;
    fn dz_close(a: *mut u8, al: usize, t: *mut u8, tl: usize, who: u8, hold: u32, stamp: u64) -> u32;
    fn dz_create(a: *mut u8, al: usize, t: *mut u8, tl: usize, who: u8, hold: u32, stamp: u64, name: *const u8, nl: usize, kind: u32, mode: u16,
                 sec: i64, nsec: i64, file: *const u8, fl: usize, handle: *mut u64, words: usize) -> u32;
    fn dz_link(a: *mut u8, al: usize, t: *mut u8, tl: usize, who: u8, hold: u32, stamp: u64, name: *const u8, nl: usize, child_hold: u32, child_stamp: u64) -> u32;
    fn dz_remove_file(a: *mut u8, al: usize, t: *mut u8, tl: usize, who: u8, hold: u32, stamp: u64, name: *const u8, nl: usize) -> u32;
    fn dz_remove_folder(a: *mut u8, al: usize, t: *mut u8, tl: usize, who: u8, hold: u32, stamp: u64, name: *const u8, nl: usize) -> u32;
    fn dz_move(a: *mut u8, al: usize, t: *mut u8, tl: usize, who: u8, hold: u32, stamp: u64, old: *const u8, ol: usize, to_hold: u32, to_stamp: u64,
               new: *const u8, nl: usize) -> u32;
    fn dz_metadata(a: *const u8, al: usize, t: *const u8, tl: usize, who: u8, hold: u32, stamp: u64, metadata: *mut u64, words: usize) -> u32;
    fn dz_set_metadata(a: *const u8, al: usize, t: *mut u8, tl: usize, who: u8, hold: u32, stamp: u64, mode: u16, uid: u64, gid: u64,
                       asec: i64, ansec: i64, msec: i64, mnsec: i64, csec: i64, cnsec: i64) -> u32;
    fn dz_read(a: *const u8, al: usize, t: *const u8, tl: usize, who: u8, hold: u32, stamp: u64, place: u64, out: *mut u8, ol: usize, count: *mut u64, words: usize) -> u32;
    fn dz_write(a: *mut u8, al: usize, t: *mut u8, tl: usize, who: u8, hold: u32, stamp: u64, place: u64, data: *const u8, dl: usize) -> u32;
    fn dz_resize(a: *mut u8, al: usize, t: *mut u8, tl: usize, who: u8, hold: u32, stamp: u64, length: u64) -> u32;
    fn dz_fallocate(a: *mut u8, al: usize, t: *mut u8, tl: usize, who: u8, hold: u32, stamp: u64, mode: u8, flags: u8, from: u64, length: u64) -> u32;
    fn dz_get_entry(a: *const u8, al: usize, t: *const u8, tl: usize, who: u8, hold: u32, stamp: u64, slot: u64, out: *mut u8, ol: usize) -> u32;
    fn dz_list(a: *const u8, al: usize, t: *const u8, tl: usize, who: u8, hold: u32, stamp: u64, next: *mut u64, words: usize, dots: u8, out: *mut u8, ol: usize) -> u32;
    fn dz_path(a: *const u8, al: usize, t: *const u8, tl: usize, who: u8, hold: u32, stamp: u64, out: *mut u8, ol: usize, count: *mut u64, words: usize) -> u32;
}

// The same for owners.
#[rustfmt::skip]
extern "C" {
    fn dz_own_chains(a: *const u8, al: usize, c: *mut u16, cl: usize) -> u32;
    fn dz_own_sync(a: *mut u8, al: usize, c: *mut u16, cl: usize, t: *mut u8, tl: usize) -> u32;
    fn dz_own_root(a: *const u8, al: usize, c: *const u16, cl: usize, t: *mut u8, tl: usize, who: u8, handle: *mut u64, words: usize) -> u32;
    fn dz_own_find(a: *const u8, al: usize, c: *const u16, cl: usize, t: *mut u8, tl: usize, who: u8, hold: u32, stamp: u64, name: *const u8, nl: usize,
                   handle: *mut u64, words: usize) -> u32;
    fn dz_own_walk(a: *const u8, al: usize, c: *const u16, cl: usize, t: *mut u8, tl: usize, who: u8, hold: u32, stamp: u64, path: *const u8, pl: usize,
                   links: *mut u8, ll: usize, handle: *mut u64, words: usize) -> u32;
    fn dz_own_close(a: *mut u8, al: usize, c: *mut u16, cl: usize, t: *mut u8, tl: usize, who: u8, hold: u32, stamp: u64) -> u32;
    fn dz_own_create(a: *mut u8, al: usize, c: *mut u16, cl: usize, t: *mut u8, tl: usize, who: u8, hold: u32, stamp: u64, name: *const u8, nl: usize,
                     kind: u32, mode: u16, sec: i64, nsec: i64, file: *const u8, fl: usize, handle: *mut u64, words: usize) -> u32;
    fn dz_own_link(a: *mut u8, al: usize, c: *mut u16, cl: usize, t: *mut u8, tl: usize, who: u8, hold: u32, stamp: u64, name: *const u8, nl: usize,
                   child_hold: u32, child_stamp: u64) -> u32;
    fn dz_own_remove_file(a: *mut u8, al: usize, c: *mut u16, cl: usize, t: *mut u8, tl: usize, who: u8, hold: u32, stamp: u64, name: *const u8, nl: usize) -> u32;
    fn dz_own_remove_folder(a: *mut u8, al: usize, c: *mut u16, cl: usize, t: *mut u8, tl: usize, who: u8, hold: u32, stamp: u64, name: *const u8, nl: usize) -> u32;
    fn dz_own_move(a: *mut u8, al: usize, c: *mut u16, cl: usize, t: *mut u8, tl: usize, who: u8, hold: u32, stamp: u64, old: *const u8, ol: usize,
                   to_hold: u32, to_stamp: u64, new: *const u8, nl: usize) -> u32;
    fn dz_own_metadata(a: *const u8, al: usize, c: *const u16, cl: usize, t: *const u8, tl: usize, who: u8, hold: u32, stamp: u64,
                       metadata: *mut u64, words: usize) -> u32;
    fn dz_own_set_metadata(a: *const u8, al: usize, c: *const u16, cl: usize, t: *mut u8, tl: usize, who: u8, hold: u32, stamp: u64, mode: u16, uid: u64, gid: u64,
                           asec: i64, ansec: i64, msec: i64, mnsec: i64, csec: i64, cnsec: i64) -> u32;
    fn dz_own_get_entry(a: *const u8, al: usize, c: *const u16, cl: usize, t: *const u8, tl: usize, who: u8, hold: u32, stamp: u64, slot: u64,
                        out: *mut u8, ol: usize) -> u32;
    fn dz_own_list(a: *const u8, al: usize, c: *const u16, cl: usize, t: *const u8, tl: usize, who: u8, hold: u32, stamp: u64, next: *mut u64, words: usize, dots: u8,
                   out: *mut u8, ol: usize) -> u32;
    fn dz_own_read(a: *const u8, al: usize, c: *const u16, cl: usize, t: *const u8, tl: usize, who: u8, hold: u32, stamp: u64, place: u64,
                   out: *mut u8, ol: usize, count: *mut u64, words: usize) -> u32;
    fn dz_own_write(a: *mut u8, al: usize, c: *mut u16, cl: usize, t: *mut u8, tl: usize, who: u8, hold: u32, stamp: u64, place: u64,
                    data: *const u8, dl: usize) -> u32;
    fn dz_own_resize(a: *mut u8, al: usize, c: *mut u16, cl: usize, t: *mut u8, tl: usize, who: u8, hold: u32, stamp: u64, length: u64) -> u32;
    fn dz_own_fallocate(a: *mut u8, al: usize, c: *mut u16, cl: usize, t: *mut u8, tl: usize, who: u8, hold: u32, stamp: u64, mode: u8, flags: u8,
                        from: u64, length: u64) -> u32;
    fn dz_own_path(a: *const u8, al: usize, c: *const u16, cl: usize, t: *const u8, tl: usize, who: u8, hold: u32, stamp: u64, out: *mut u8, ol: usize,
                   count: *mut u64, words: usize) -> u32;
}

/// The words of the chains.
const CHAINS: usize = 8192;

fn answer(number: u32) -> Result<(), Reason> {
    match number {
        0 => Ok(()),
        _ => Err(Reason::of(number)),
    }
}

/// A handle from its two words; a hold is below 2^32.
fn held(number: u32, [hold, stamp]: [u64; 2]) -> Result<Handle, Reason> {
    answer(number).map(|()| Handle { hold: hold as u32, stamp })
}

/// Counts from their three words, each of which fits its field. The number is no reason but a rule.
fn counted(number: u32, [nodes, unused, free]: [u64; 3]) -> Result<Counts, FailedRule> {
    match number {
        0 => Ok(Counts { nodes: nodes as u32, unused: unused as u32, free: free as u32 }),
        rule => Err(FailedRule::of(rule)),
    }
}

/// Metadata from its 14 words, each of which fits its field. A type that is none is Stuck, as the call itself says.
fn told(number: u32, words: [u64; 14]) -> Result<Metadata, Reason> {
    answer(number)?;
    let [inode, size, mode, kind, blocks, asec, ansec, msec, mnsec, csec, cnsec, links, uid, gid] = words;
    Ok(Metadata {
        inode: inode as u32,
        size,
        mode: mode as u16,
        kind: Kind::try_from(kind as u32).map_err(|_| Reason::Stuck)?,
        blocks: blocks as u32,
        atime: Time::new(asec as i64, ansec as i64),
        mtime: Time::new(msec as i64, mnsec as i64),
        ctime: Time::new(csec as i64, cnsec as i64),
        links: links as u16,
        uid: uid as u32,
        gid: gid as u32,
    })
}

/// An arena and its table of open nodes. Any bytes are safe in both.
#[derive(Clone)]
pub(crate) struct Pair {
    arena: Vec<u8>,
    table: Box<[u8; TABLE]>,
    /// There where the calls for owners may be made: see the module's lines.
    chains: Option<Box<[u16; CHAINS]>>,
}

// SAFETY of every block below: as the module's first lines say. A call keeps no pointer, and writes only what it is given as `*mut`.
#[rustfmt::skip]
impl Pair {
    /// An arena and a table of any bytes.
    pub(crate) fn of(arena: Vec<u8>, table: Box<[u8; TABLE]>) -> Pair {
        Pair { arena, table, chains: None }
    }

    pub(crate) fn arena(&self) -> &[u8] {
        &self.arena
    }

    pub(crate) fn table(&self) -> &[u8; TABLE] {
        &self.table
    }

    pub(crate) fn into_parts(self) -> (Vec<u8>, Box<[u8; TABLE]>) {
        (self.arena, self.table)
    }

    pub(crate) fn is_trusted(&self) -> bool {
        self.chains.is_some()
    }

    /// From a pair that passes: the chains are built, and the calls for owners are made from now on.
    fn own(&mut self) {
        let (a, mut c) = (&self.arena, Box::new([0; CHAINS]));
        let n = unsafe { dz_own_chains(a.as_ptr(), a.len(), c.as_mut_ptr(), c.len()) };
        self.chains = Some(c).filter(|_| n == 0);
    }

    pub(crate) fn format(&mut self, time: Time, file: FileName) -> Result<(), Reason> {
        let (a, t, FileName(f)) = (&mut self.arena, &mut self.table, file);
        let n = unsafe { dz_format(a.as_mut_ptr(), a.len(), t.as_mut_ptr(), t.len(), time.sec, time.nsec, f.as_ptr(), f.len()) };
        answer(n).map(|()| self.own())
    }

    pub(crate) fn open(&mut self) -> Result<(), Reason> {
        let (a, t) = (&self.arena, &mut self.table);
        let n = unsafe { dz_open(a.as_ptr(), a.len(), t.as_mut_ptr(), t.len()) };
        answer(n).map(|()| self.chains = None)
    }

    pub(crate) fn sync(&mut self) -> Result<(), Reason> {
        let (a, t) = (&mut self.arena, &mut self.table);
        answer(unsafe {
            match &mut self.chains {
                Some(c) => dz_own_sync(a.as_mut_ptr(), a.len(), c.as_mut_ptr(), c.len(), t.as_mut_ptr(), t.len()),
                None => dz_sync(a.as_mut_ptr(), a.len(), t.as_mut_ptr(), t.len()),
            }
        })
    }

    pub(crate) fn check(&self) -> Result<Counts, FailedRule> {
        let (a, t, mut w) = (&self.arena, &self.table, [0; 3]);
        let n = unsafe { dz_check(a.as_ptr(), a.len(), t.as_ptr(), t.len(), w.as_mut_ptr(), w.len()) };
        counted(n, w)
    }

    /// The length of the text; the table does not go in.
    pub(crate) fn inventory(&self, out: &mut [u8]) -> Result<u64, Reason> {
        let (a, mut w) = (&self.arena, [0; 1]);
        let n = unsafe { dz_inventory(a.as_ptr(), a.len(), out.as_mut_ptr(), out.len(), w.as_mut_ptr(), w.len()) };
        let [length] = w;
        answer(n).map(|()| length)
    }

    /// Where it is done the pair passes, and the calls for owners are made from now on. A refusal changes nothing, so chains that are there stay right.
    pub(crate) fn mend(&mut self) -> Result<(), Reason> {
        let (a, t) = (&mut self.arena, &self.table);
        let n = unsafe { dz_mend(a.as_mut_ptr(), a.len(), t.as_ptr(), t.len()) };
        answer(n).map(|()| self.own())
    }

    /// Where the check passes, the calls for owners are made from now on.
    pub(crate) fn trust(&mut self) -> Result<Counts, FailedRule> {
        let counts = self.check()?;
        self.own();
        Ok(counts)
    }

    pub(crate) fn root(&mut self, who: u8) -> Result<Handle, Reason> {
        let (a, t, mut w) = (&self.arena, &mut self.table, [0; 2]);
        let n = unsafe {
            match &self.chains {
                Some(c) => dz_own_root(a.as_ptr(), a.len(), c.as_ptr(), c.len(), t.as_mut_ptr(), t.len(), who, w.as_mut_ptr(), w.len()),
                None => dz_root(a.as_ptr(), a.len(), t.as_mut_ptr(), t.len(), who, w.as_mut_ptr(), w.len()),
            }
        };
        held(n, w)
    }

    pub(crate) fn find(&mut self, who: u8, h: Handle, name: &[u8]) -> Result<Handle, Reason> {
        let (a, t, mut w) = (&self.arena, &mut self.table, [0; 2]);
        let n = unsafe {
            match &self.chains {
                Some(c) => dz_own_find(a.as_ptr(), a.len(), c.as_ptr(), c.len(), t.as_mut_ptr(), t.len(), who, h.hold, h.stamp, name.as_ptr(), name.len(),
                                       w.as_mut_ptr(), w.len()),
                None => dz_find(a.as_ptr(), a.len(), t.as_mut_ptr(), t.len(), who, h.hold, h.stamp, name.as_ptr(), name.len(), w.as_mut_ptr(), w.len()),
            }
        };
        held(n, w)
    }

    /// The targets that were read stand in `links`, also where it is refused.
    pub(crate) fn walk(&mut self, who: u8, h: Handle, path: &[u8], links: &mut [u8]) -> Result<Handle, Reason> {
        let (a, t, mut w) = (&self.arena, &mut self.table, [0; 2]);
        let n = unsafe {
            match &self.chains {
                Some(c) => dz_own_walk(a.as_ptr(), a.len(), c.as_ptr(), c.len(), t.as_mut_ptr(), t.len(), who, h.hold, h.stamp, path.as_ptr(), path.len(),
                                       links.as_mut_ptr(), links.len(), w.as_mut_ptr(), w.len()),
                None => dz_walk(a.as_ptr(), a.len(), t.as_mut_ptr(), t.len(), who, h.hold, h.stamp, path.as_ptr(), path.len(),
                                links.as_mut_ptr(), links.len(), w.as_mut_ptr(), w.len()),
            }
        };
        held(n, w)
    }

    pub(crate) fn close(&mut self, who: u8, h: Handle) -> Result<(), Reason> {
        let (a, t) = (&mut self.arena, &mut self.table);
        answer(unsafe {
            match &mut self.chains {
                Some(c) => dz_own_close(a.as_mut_ptr(), a.len(), c.as_mut_ptr(), c.len(), t.as_mut_ptr(), t.len(), who, h.hold, h.stamp),
                None => dz_close(a.as_mut_ptr(), a.len(), t.as_mut_ptr(), t.len(), who, h.hold, h.stamp),
            }
        })
    }

    pub(crate) fn create(&mut self, who: u8, h: Handle, name: &[u8], kind: u32, mode: u16, time: Time, file: FileName) -> Result<Handle, Reason> {
        let (a, t, mut w, FileName(f)) = (&mut self.arena, &mut self.table, [0; 2], file);
        let n = unsafe {
            match &mut self.chains {
                Some(c) => dz_own_create(a.as_mut_ptr(), a.len(), c.as_mut_ptr(), c.len(), t.as_mut_ptr(), t.len(), who, h.hold, h.stamp,
                                         name.as_ptr(), name.len(), kind, mode, time.sec, time.nsec, f.as_ptr(), f.len(), w.as_mut_ptr(), w.len()),
                None => dz_create(a.as_mut_ptr(), a.len(), t.as_mut_ptr(), t.len(), who, h.hold, h.stamp, name.as_ptr(), name.len(), kind, mode,
                                  time.sec, time.nsec, f.as_ptr(), f.len(), w.as_mut_ptr(), w.len()),
            }
        };
        held(n, w)
    }

    pub(crate) fn link(&mut self, who: u8, h: Handle, name: &[u8], node: Handle) -> Result<(), Reason> {
        let (a, t) = (&mut self.arena, &mut self.table);
        answer(unsafe {
            match &mut self.chains {
                Some(c) => dz_own_link(a.as_mut_ptr(), a.len(), c.as_mut_ptr(), c.len(), t.as_mut_ptr(), t.len(), who, h.hold, h.stamp,
                                       name.as_ptr(), name.len(), node.hold, node.stamp),
                None => dz_link(a.as_mut_ptr(), a.len(), t.as_mut_ptr(), t.len(), who, h.hold, h.stamp, name.as_ptr(), name.len(), node.hold, node.stamp),
            }
        })
    }

    pub(crate) fn remove_file(&mut self, who: u8, h: Handle, name: &[u8]) -> Result<(), Reason> {
        let (a, t) = (&mut self.arena, &mut self.table);
        answer(unsafe {
            match &mut self.chains {
                Some(c) => dz_own_remove_file(a.as_mut_ptr(), a.len(), c.as_mut_ptr(), c.len(), t.as_mut_ptr(), t.len(), who, h.hold, h.stamp,
                                         name.as_ptr(), name.len()),
                None => dz_remove_file(a.as_mut_ptr(), a.len(), t.as_mut_ptr(), t.len(), who, h.hold, h.stamp, name.as_ptr(), name.len()),
            }
        })
    }

    pub(crate) fn remove_folder(&mut self, who: u8, h: Handle, name: &[u8]) -> Result<(), Reason> {
        let (a, t) = (&mut self.arena, &mut self.table);
        answer(unsafe {
            match &mut self.chains {
                Some(c) => dz_own_remove_folder(a.as_mut_ptr(), a.len(), c.as_mut_ptr(), c.len(), t.as_mut_ptr(), t.len(), who, h.hold, h.stamp,
                                         name.as_ptr(), name.len()),
                None => dz_remove_folder(a.as_mut_ptr(), a.len(), t.as_mut_ptr(), t.len(), who, h.hold, h.stamp, name.as_ptr(), name.len()),
            }
        })
    }

    pub(crate) fn rename(&mut self, who: u8, h: Handle, old: &[u8], to: Handle, new: &[u8]) -> Result<(), Reason> {
        let (a, t) = (&mut self.arena, &mut self.table);
        answer(unsafe {
            match &mut self.chains {
                Some(c) => dz_own_move(a.as_mut_ptr(), a.len(), c.as_mut_ptr(), c.len(), t.as_mut_ptr(), t.len(), who, h.hold, h.stamp,
                                       old.as_ptr(), old.len(), to.hold, to.stamp, new.as_ptr(), new.len()),
                None => dz_move(a.as_mut_ptr(), a.len(), t.as_mut_ptr(), t.len(), who, h.hold, h.stamp, old.as_ptr(), old.len(), to.hold, to.stamp,
                                new.as_ptr(), new.len()),
            }
        })
    }

    pub(crate) fn metadata(&self, who: u8, h: Handle) -> Result<Metadata, Reason> {
        let (a, t, mut w) = (&self.arena, &self.table, [0; 14]);
        let n = unsafe {
            match &self.chains {
                Some(c) => dz_own_metadata(a.as_ptr(), a.len(), c.as_ptr(), c.len(), t.as_ptr(), t.len(), who, h.hold, h.stamp, w.as_mut_ptr(), w.len()),
                None => dz_metadata(a.as_ptr(), a.len(), t.as_ptr(), t.len(), who, h.hold, h.stamp, w.as_mut_ptr(), w.len()),
            }
        };
        told(n, w)
    }

    pub(crate) fn set_metadata(&mut self, who: u8, h: Handle, s: &Attributes) -> Result<(), Reason> {
        let (a, t) = (&self.arena, &mut self.table);
        answer(unsafe {
            match &self.chains {
                Some(c) => dz_own_set_metadata(a.as_ptr(), a.len(), c.as_ptr(), c.len(), t.as_mut_ptr(), t.len(), who, h.hold, h.stamp, s.mode, s.uid, s.gid,
                                               s.atime.sec, s.atime.nsec, s.mtime.sec, s.mtime.nsec, s.ctime.sec, s.ctime.nsec),
                None => dz_set_metadata(a.as_ptr(), a.len(), t.as_mut_ptr(), t.len(), who, h.hold, h.stamp, s.mode, s.uid, s.gid,
                                        s.atime.sec, s.atime.nsec, s.mtime.sec, s.mtime.nsec, s.ctime.sec, s.ctime.nsec),
            }
        })
    }

    /// How many bytes were read.
    pub(crate) fn read(&self, who: u8, h: Handle, place: u64, out: &mut [u8]) -> Result<u64, Reason> {
        let (a, t, mut w) = (&self.arena, &self.table, [0; 1]);
        let n = unsafe {
            match &self.chains {
                Some(c) => dz_own_read(a.as_ptr(), a.len(), c.as_ptr(), c.len(), t.as_ptr(), t.len(), who, h.hold, h.stamp, place, out.as_mut_ptr(), out.len(),
                                       w.as_mut_ptr(), w.len()),
                None => dz_read(a.as_ptr(), a.len(), t.as_ptr(), t.len(), who, h.hold, h.stamp, place, out.as_mut_ptr(), out.len(), w.as_mut_ptr(), w.len()),
            }
        };
        let [count] = w;
        answer(n).map(|()| count)
    }

    pub(crate) fn write(&mut self, who: u8, h: Handle, place: u64, data: &[u8]) -> Result<(), Reason> {
        let (a, t) = (&mut self.arena, &mut self.table);
        answer(unsafe {
            match &mut self.chains {
                Some(c) => dz_own_write(a.as_mut_ptr(), a.len(), c.as_mut_ptr(), c.len(), t.as_mut_ptr(), t.len(), who, h.hold, h.stamp, place,
                                        data.as_ptr(), data.len()),
                None => dz_write(a.as_mut_ptr(), a.len(), t.as_mut_ptr(), t.len(), who, h.hold, h.stamp, place, data.as_ptr(), data.len()),
            }
        })
    }

    pub(crate) fn resize(&mut self, who: u8, h: Handle, length: u64) -> Result<(), Reason> {
        let (a, t) = (&mut self.arena, &mut self.table);
        answer(unsafe {
            match &mut self.chains {
                Some(c) => dz_own_resize(a.as_mut_ptr(), a.len(), c.as_mut_ptr(), c.len(), t.as_mut_ptr(), t.len(), who, h.hold, h.stamp, length),
                None => dz_resize(a.as_mut_ptr(), a.len(), t.as_mut_ptr(), t.len(), who, h.hold, h.stamp, length),
            }
        })
    }

    pub(crate) fn fallocate(&mut self, who: u8, h: Handle, mode: u8, flags: u8, from: u64, length: u64) -> Result<(), Reason> {
        let (a, t) = (&mut self.arena, &mut self.table);
        answer(unsafe {
            match &mut self.chains {
                Some(c) => dz_own_fallocate(a.as_mut_ptr(), a.len(), c.as_mut_ptr(), c.len(), t.as_mut_ptr(), t.len(), who, h.hold, h.stamp, mode, flags,
                                            from, length),
                None => dz_fallocate(a.as_mut_ptr(), a.len(), t.as_mut_ptr(), t.len(), who, h.hold, h.stamp, mode, flags, from, length),
            }
        })
    }

    pub(crate) fn entry(&self, who: u8, h: Handle, slot: u64, out: &mut [u8]) -> Result<(), Reason> {
        let (a, t) = (&self.arena, &self.table);
        answer(unsafe {
            match &self.chains {
                Some(c) => dz_own_get_entry(a.as_ptr(), a.len(), c.as_ptr(), c.len(), t.as_ptr(), t.len(), who, h.hold, h.stamp, slot, out.as_mut_ptr(), out.len()),
                None => dz_get_entry(a.as_ptr(), a.len(), t.as_ptr(), t.len(), who, h.hold, h.stamp, slot, out.as_mut_ptr(), out.len()),
            }
        })
    }

    /// The slot to go on with.
    pub(crate) fn list(&self, who: u8, h: Handle, next: u64, dots: bool, out: &mut [u8]) -> Result<u64, Reason> {
        let (a, t, mut w, dots) = (&self.arena, &self.table, [next; 1], u8::from(dots));
        let n = unsafe {
            match &self.chains {
                Some(c) => dz_own_list(a.as_ptr(), a.len(), c.as_ptr(), c.len(), t.as_ptr(), t.len(), who, h.hold, h.stamp, w.as_mut_ptr(), w.len(),
                                       dots, out.as_mut_ptr(), out.len()),
                None => dz_list(a.as_ptr(), a.len(), t.as_ptr(), t.len(), who, h.hold, h.stamp, w.as_mut_ptr(), w.len(), dots, out.as_mut_ptr(), out.len()),
            }
        };
        let [next] = w;
        answer(n).map(|()| next)
    }

    /// How many bytes the path has.
    pub(crate) fn path(&self, who: u8, h: Handle, out: &mut [u8]) -> Result<u64, Reason> {
        let (a, t, mut w) = (&self.arena, &self.table, [0; 1]);
        let n = unsafe {
            match &self.chains {
                Some(c) => dz_own_path(a.as_ptr(), a.len(), c.as_ptr(), c.len(), t.as_ptr(), t.len(), who, h.hold, h.stamp, out.as_mut_ptr(), out.len(),
                                       w.as_mut_ptr(), w.len()),
                None => dz_path(a.as_ptr(), a.len(), t.as_ptr(), t.len(), who, h.hold, h.stamp, out.as_mut_ptr(), out.len(), w.as_mut_ptr(), w.len()),
            }
        };
        let [count] = w;
        answer(n).map(|()| count)
    }
}
