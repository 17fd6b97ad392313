//! Ranges of a file: each mode held against a plain vector, the blocks that it takes and gives back, and what refuses it, in order.
mod common;

use std::collections::BTreeSet;
use std::ops::Range;

use common::damage::{self, record};
use common::{create, file, fresh, mine, mode_by_chance, ranged, Mine, Numbers, MODES, TIME};
use dzomrelig::{FallocateMode, Handle, Image, NewKind, Owner, Reason, BLOCK, FILE_LONGEST, RANGE_UNIT};
use FallocateMode::{Allocate, CollapseRange, InsertRange, PunchHoleKeepSize, ZeroRange, ZeroRangeKeepSize};

/// The bytes of a file that one of its blocks has.
const PAYLOAD: usize = 480;

/// So many bytes, none of them zero.
fn outline(length: usize) -> Vec<u8> {
    (0..length).map(|i| (i % 251) as u8 + 1).collect()
}

/// An image with a file of these bytes.
fn with(blocks: usize, bytes: &[u8]) -> (Mine, Handle) {
    let (mut image, root) = fresh(blocks);
    let a = create(&mut image, root, "a", NewKind::File).unwrap();
    image.write_at(a, 0, bytes).unwrap();
    (image, a)
}

fn has(image: &Mine, a: Handle, want: &[u8]) {
    assert!(image.read_to_vec(a).unwrap() == want);
    assert_eq!(image.metadata(a).unwrap().size, want.len() as u64);
    assert!(image.check().is_ok());
}

/// The call is refused for this reason, and no byte has changed.
fn no(image: &mut Mine, reason: Reason, a: Handle, mode: FallocateMode, from: u64, length: u64) {
    let before = image.clone();
    assert_eq!(image.fallocate(a, mode, from, length), Err(reason), "{mode:?} {from} {length}");
    assert!(image.bytes() == before.bytes() && image.table() == before.table(), "{reason} changed something");
}

// ---- what each does

#[test]
fn insert_and_collapse() {
    for (size, from, length) in [(300, 128, 128), (129, 0, 128), (128, 0, 640), (1_000, 384, 1_280), (2_000, 1_920, 128), (500, 0, 0)] {
        let text = outline(size);
        let (mut image, a) = with(64, &text);
        image.insert_range(a, from, length).unwrap();
        let (from, hole) = (from as usize, vec![0; length as usize]);
        let longer = [&text[..from], &hole, &text[from..]].concat();
        has(&image, a, &longer);
        image.collapse_range(a, from as u64, length).unwrap();
        has(&image, a, &text);
        // what is closed has stored its size
        image.insert_range(a, from as u64, length).unwrap();
        image.close(a).unwrap();
        let root = image.root().unwrap();
        let a = image.find(root, "a").unwrap();
        has(&image, a, &longer);
    }
}

#[test]
fn zeros() {
    let text = outline(1_000);
    for (from, length) in [(0usize, 1_000usize), (1, 998), (479, 2), (500, 0), (900, 300), (1_000, 5), (2_000, 0), (2_000, 1_000)] {
        let (in_it, end) = (from.min(1_000)..(from + length).min(1_000), from + length);
        let mut cleared = text.clone();
        cleared[in_it].fill(0);
        for mode in [PunchHoleKeepSize, ZeroRangeKeepSize] {
            let (mut image, a) = with(64, &text);
            image.fallocate(a, mode, from as u64, length as u64).unwrap();
            has(&image, a, &cleared);
        }
        let (mut image, a) = with(64, &text);
        image.punch_hole(a, from as u64, length as u64).unwrap();
        has(&image, a, &cleared);
        image.zero_range(a, from as u64, length as u64).unwrap();
        cleared.resize(end.max(1_000), 0);
        has(&image, a, &cleared);
    }
}

/// Room is not reserved: a file only grows. Zeros and what moves are written, and take blocks where there were none.
#[test]
fn blocks() {
    let (mut image, a) = with(32, &outline(10));
    let free = |image: &Mine| image.check().unwrap().free;
    let start = free(&image);
    image.allocate(a, 0, 5_000).unwrap();
    assert_eq!((free(&image), image.metadata(a).unwrap().size), (start, 5_000));
    let before = image.clone();
    image.fallocate(a, Allocate { keep_size: true }, 4_000, 9_000).unwrap();
    image.allocate(a, 3_000, 1_000).unwrap();
    image.punch_hole(a, 5_000, 1_000).unwrap();
    image.punch_hole(a, 3_000, 0).unwrap();
    image.zero_range(a, 4_000, 0).unwrap();
    assert!(image.bytes() == before.bytes() && image.table() == before.table());
    image.punch_hole(a, 479, 482).unwrap();
    assert_eq!(free(&image), start - 2);
    image.collapse_range(a, 128, 128).unwrap();
    assert_eq!(free(&image), start - 10);
    image.resize(a, 480).unwrap();
    assert_eq!(free(&image), start);
    image.insert_range(a, 0, 128).unwrap();
    assert_eq!(free(&image), start - 1);
    // a collapse gives back what lies past the new end
    image.collapse_range(a, 0, 128).unwrap();
    assert_eq!(free(&image), start);
    has(&image, a, &[outline(10), vec![0; 470]].concat());
}

/// One after another, by two who have the file open; and of a file that was removed.
#[test]
fn shared_and_removed() {
    let (mut image, a) = with(64, &outline(1_000));
    let mut ben = image.editor(Owner::Two);
    let root = ben.root().unwrap();
    let his = ben.find(root, "a").unwrap();
    ben.remove_file(root, "a").unwrap();
    ben.insert_range(his, 256, 256).unwrap();
    assert_eq!(ben.insert_range(a, 256, 256), Err(Reason::BadHandle));
    image.write_at(a, 256, vec![7; 256]).unwrap();
    let mut want = outline(1_000);
    want.splice(256..256, vec![7; 256]);
    has(&image, a, &want);
    image.collapse_range(a, 0, 256).unwrap();
    want.drain(..256);
    has(&image, a, &want);
}

// ---- by chance

/// A file's bytes and its blocks.
struct Model {
    text: Vec<u8>,
    blocks: BTreeSet<usize>,
}

fn of(bytes: Range<usize>) -> Range<usize> {
    bytes.start / PAYLOAD..if bytes.is_empty() { bytes.start / PAYLOAD } else { bytes.end.div_ceil(PAYLOAD) }
}

impl Model {
    /// The bytes that are written.
    fn written(&self, mode: FallocateMode, from: usize, length: usize) -> Range<usize> {
        let (size, end) = (self.text.len(), from + length);
        match mode {
            Allocate { .. } => 0..0,
            PunchHoleKeepSize | ZeroRangeKeepSize => from.min(size)..end.min(size),
            ZeroRange => from..end,
            _ if length == 0 => 0..0,
            CollapseRange => from..size - length,
            InsertRange => from..size + length,
        }
    }

    /// What refuses it, in order.
    fn refuses(&self, mode: FallocateMode, from: u64, length: u64, free: usize) -> Option<Reason> {
        let (size, unit) = (self.text.len() as u128, |n: u64| n % RANGE_UNIT == 0);
        let end = u128::from(from) + u128::from(length);
        let most = u128::from(FILE_LONGEST);
        let fits = match mode {
            CollapseRange => end < size && unit(from) && unit(length),
            InsertRange => u128::from(from) < size && unit(from) && unit(length),
            _ => true,
        };
        if end > most {
            return Some(Reason::FileTooBig);
        }
        if !fits {
            return Some(Reason::InvalidParam);
        }
        if mode == InsertRange && size + u128::from(length) > most {
            return Some(Reason::FileTooBig);
        }
        let absent = of(self.written(mode, from as usize, length as usize)).filter(|k| !self.blocks.contains(k)).count();
        (absent > free).then_some(Reason::NoDeviceSpace)
    }

    fn put(&mut self, at: usize, data: &[u8]) {
        self.text.resize(self.text.len().max(at + data.len()), 0);
        self.text[at..at + data.len()].copy_from_slice(data);
        self.blocks.extend(of(at..at + data.len()));
    }

    fn cut(&mut self, length: usize) {
        self.text.resize(length, 0);
        self.blocks.retain(|k| k * PAYLOAD < length);
    }
}

/// A place or a length: mostly small, mostly aligned, and now and then at an end.
fn number(n: &mut Numbers, most: u64) -> u64 {
    match n.below(24) {
        0 => [u64::MAX, u64::MAX - 127, FILE_LONGEST, FILE_LONGEST - 127, FILE_LONGEST + 1, 1 << 32][n.below(6) as usize],
        1..=6 => n.below(most + 200),
        _ => RANGE_UNIT * n.below(most / RANGE_UNIT + 2),
    }
}

/// One call on a range, held against the model: whether it was done.
fn call(image: &mut Mine, a: Handle, model: &mut Model, n: &mut Numbers) -> bool {
    let (mode, size) = (mode_by_chance(n), model.text.len() as u64);
    let (from, length) = (number(n, size), number(n, size.min(1_200)));
    let (before, free) = (image.clone(), image.check().unwrap().free as usize);
    let grown = from.saturating_add(length).max(size) > 40_000;
    // a vector of four billion bytes is none for a test
    if grown && matches!(mode, Allocate { keep_size: false } | ZeroRange) && from.saturating_add(length) <= FILE_LONGEST {
        return false;
    }
    let answer = image.fallocate(a, mode, from, length);
    assert_eq!(answer.err(), model.refuses(mode, from, length, free), "{mode:?} {from} {length} of {size}");
    if answer.is_err() {
        assert!(image.bytes() == before.bytes() && image.table() == before.table());
        return false;
    }
    let had = model.blocks.len();
    let written = model.written(mode, from as usize, length as usize);
    ranged(&mut model.text, mode, from as usize, length as usize);
    model.blocks.extend(of(written));
    model.cut(model.text.len());
    assert_eq!(image.check().unwrap().free as usize, free + had - model.blocks.len());
    true
}

#[test]
fn every_mode_by_chance() {
    let n = &mut Numbers(0x5EED_0F13_0A11_0CA7);
    let mut done = 0;
    for round in 0..80 {
        let (mut image, a) = with([24, 40, 200][round % 3], b"");
        let mut model = Model { text: vec![], blocks: BTreeSet::new() };
        for _ in 0..60 {
            match n.below(5) {
                0 => {
                    let (at, data) = (n.below(3_000) as usize, outline(n.below(900) as usize));
                    if image.write_at(a, at as u64, &data).is_ok() {
                        model.put(at, &data);
                    }
                }
                1 if n.below(3) == 0 => {
                    let length = n.below(4_000);
                    image.resize(a, length).unwrap();
                    model.cut(length as usize);
                }
                _ => done += usize::from(call(&mut image, a, &mut model, n)),
            }
            has(&image, a, &model.text);
        }
    }
    assert!(done > 1_200, "{done}");
}

// ---- refusals

/// 4, 21, 22, 6, 22, in that order; where two hold, the first comes.
#[test]
fn refused_in_order() {
    let (mut image, a) = with(32, &outline(1_000));
    let root = image.root().unwrap();
    let link = create(&mut image, root, "link", NewKind::Symlink).unwrap();
    let none = Handle { hold: 31, stamp: 7 };
    let i = &mut image;
    for mode in MODES {
        no(i, Reason::BadHandle, none, mode, u64::MAX, u64::MAX);
        for other in [root, link] {
            no(i, Reason::NotFile, other, mode, u64::MAX, u64::MAX);
            no(i, Reason::NotFile, other, mode, 0, 0);
        }
        // as whole numbers: the sum does not wrap
        for (from, length) in
            [(u64::MAX, 1), (1, u64::MAX), (u64::MAX, u64::MAX), (FILE_LONGEST, 1), (FILE_LONGEST + 1, 0), (129, FILE_LONGEST - 128)]
        {
            no(i, Reason::FileTooBig, a, mode, from, length);
        }
    }
    for (from, length) in [(1_024, 0), (1_024, 128), (1, 128), (0, 1), (127, 127), (896, 129), (FILE_LONGEST, 0)] {
        no(i, Reason::InvalidParam, a, InsertRange, from, length);
    }
    for (from, length) in [(0, 1_000), (0, 1_024), (896, 128), (1_024, 0), (1, 128), (0, 1), (512, 127), (FILE_LONGEST - 127, 127)] {
        no(i, Reason::InvalidParam, a, CollapseRange, from, length);
    }
    // the end fits, the grown size does not
    let most = FILE_LONGEST / RANGE_UNIT * RANGE_UNIT;
    no(i, Reason::FileTooBig, a, InsertRange, 0, most);
    no(i, Reason::FileTooBig, a, InsertRange, 0, most - 768);
    no(i, Reason::NoDeviceSpace, a, InsertRange, 0, most - 896);
    i.resize(a, FILE_LONGEST).unwrap();
    no(i, Reason::FileTooBig, a, InsertRange, 128, 128);
    i.insert_range(a, 128, 0).unwrap();
    i.zero_range(a, FILE_LONGEST - 3, 3).unwrap();
    i.allocate(a, 0, FILE_LONGEST).unwrap();
    no(i, Reason::NoDeviceSpace, a, CollapseRange, 0, 128);
    no(i, Reason::NoDeviceSpace, a, PunchHoleKeepSize, 0, FILE_LONGEST);
    i.resize(a, 1_000).unwrap();
    has(i, a, &outline(1_000));
}

/// A number that is no mode: 6 in its place, after the range's end.
#[test]
fn modes_by_their_numbers() {
    assert_eq!(MODES.map(|mode| (mode.number(), mode.flags())), [(0, 0), (0, 1), (1, 0), (2, 0), (3, 0), (4, 0), (5, 0)]);
    let text = outline(1_000);
    for mode in MODES {
        for flags in [mode.flags(), mode.flags() | 2, mode.flags() | 254] {
            let ((mut named, a), (mut numbered, b)) = (with(32, &text), with(32, &text));
            named.fallocate(a, mode, 256, 128).unwrap();
            numbered.fallocate_numbered(b, mode.number(), flags, 256, 128).unwrap();
            assert_eq!(named.read_to_vec(a), numbered.read_to_vec(b));
        }
    }
    // a flag of another mode does nothing
    let (mut image, a) = with(32, &text);
    image.fallocate_numbered(a, 2, 1, 1_000, 5).unwrap();
    assert_eq!(image.metadata(a).unwrap().size, 1_005);
    let before = image.clone();
    for mode in [6, 7, 255] {
        for flags in [0, 1, 255] {
            assert_eq!(image.fallocate_numbered(a, mode, flags, 0, 128), Err(Reason::InvalidParam));
            assert_eq!(image.fallocate_numbered(a, mode, flags, FILE_LONGEST, 1), Err(Reason::FileTooBig));
            assert_eq!(image.fallocate_numbered(Handle { hold: 9, stamp: 9 }, mode, flags, 0, 0), Err(Reason::BadHandle));
        }
    }
    assert!(image.bytes() == before.bytes() && image.table() == before.table());
}

#[test]
fn no_room() {
    let (mut image, a) = with(16, &outline(480));
    let free = u64::from(image.check().unwrap().free);
    let room = 480 * free / RANGE_UNIT * RANGE_UNIT;
    no(&mut image, Reason::NoDeviceSpace, a, InsertRange, 0, room + RANGE_UNIT);
    no(&mut image, Reason::NoDeviceSpace, a, ZeroRange, 479, 480 * free + 2);
    image.insert_range(a, 0, room).unwrap();
    image.collapse_range(a, 0, room).unwrap();
    image.zero_range(a, 479, 480 * free + 1).unwrap();
    no(&mut image, Reason::NoDeviceSpace, a, InsertRange, 0, 480 * 4);
    // a collapse of a file with holes makes blocks before it gives any back
    image.resize(a, 0).unwrap();
    image.resize(a, 480 * (free + 3)).unwrap();
    no(&mut image, Reason::NoDeviceSpace, a, CollapseRange, 0, 128);
    image.collapse_range(a, 128 * 12, 128).unwrap();
}

/// On images from elsewhere: a file that is not there, one that is shorter or longer than its size, a size that no file can have.
#[test]
fn damaged() {
    let (mut image, root) = fresh(32);
    let a = image.create(root, "a", NewKind::File, 0o644, TIME, file(1)).unwrap();
    image.write_at(a, 0, outline(1_000)).unwrap();
    image.sync().unwrap();
    let (bytes, table) = (image.bytes().to_vec(), *image.table());
    let opened = |bytes: &[u8]| {
        let mut image = mine(Image::untrusted(bytes).unwrap());
        let root = image.root().unwrap();
        let a = image.find(root, "a").unwrap();
        (image, a)
    };
    // not there: what looks for it sticks, and what has nothing to do does not look
    let mut lost = bytes.clone();
    for block in lost.chunks_exact_mut(BLOCK).filter(|b| b[1] == 1 && b[4..20] == file(1).0) {
        block[4] ^= 255;
        damage::seal(block);
    }
    let mut image = mine(Image::from_parts(lost, table));
    for (mode, from, length) in [
        (Allocate { keep_size: false }, 0, 1_001),
        (PunchHoleKeepSize, 0, 1),
        (ZeroRange, 0, 1),
        (CollapseRange, 0, 0),
        (InsertRange, 0, 0),
    ] {
        no(&mut image, Reason::Stuck, a, mode, from, length);
    }
    for (mode, from, length) in [
        (Allocate { keep_size: true }, 0, 1_001),
        (Allocate { keep_size: false }, 0, 1_000),
        (PunchHoleKeepSize, 1_000, 9),
        (ZeroRangeKeepSize, 7, 0),
        (ZeroRange, 1_000, 0),
    ] {
        image.fallocate(a, mode, from, length).unwrap();
    }
    no(&mut image, Reason::InvalidParam, a, InsertRange, 1_024, 0);
    // shorter: a piece reads short
    let mut short = bytes.clone();
    damage::set_length(&mut short, Some(file(1)), 700);
    damage::take_block(&mut short, Some(file(1)), 2);
    damage::write(&mut short, Some(file(1)), 700, &[0; 260]);
    let (mut image, a) = opened(&short);
    no(&mut image, Reason::Stuck, a, InsertRange, 128, 128);
    no(&mut image, Reason::Stuck, a, CollapseRange, 128, 128);
    image.collapse_range(a, 0, 0).unwrap();
    has(&image, a, &[outline(700), vec![0; 300]].concat());
    // longer: it is cut
    let mut long = bytes.clone();
    record(&mut long, 3, damage::SIZE, &900u64.to_le_bytes());
    let (mut image, a) = opened(&long);
    image.insert_range(a, 0, 128).unwrap();
    has(&image, a, &[vec![0; 128], outline(900)].concat());
    // a size past the limit
    let mut big = bytes;
    record(&mut big, 3, damage::SIZE, &u64::MAX.to_le_bytes());
    let (mut image, a) = opened(&big);
    no(&mut image, Reason::FileTooBig, a, InsertRange, 0, 0);
    no(&mut image, Reason::NoDeviceSpace, a, CollapseRange, 0, 0);
    no(&mut image, Reason::Stuck, a, CollapseRange, 0, 128);
    // a type that is none
    for (kind, reason) in [(0, Reason::NotFile), (4, Reason::NotFile)] {
        record(&mut big, 3, damage::TYPE, &[kind]);
        let (mut image, a) = opened(&big);
        no(&mut image, reason, a, ZeroRange, u64::MAX, 1);
    }
}
