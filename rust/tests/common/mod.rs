//! What several tests use.
#![allow(dead_code)]
pub mod damage;
pub mod script;

use std::ops::{Deref, DerefMut};
use std::sync::atomic::{AtomicU64, Ordering};

use dzomrelig::{Editor, FallocateMode, FileName, Handle, Image, NewKind, Owner, Reason, Time};
use script::{way, TESTED};

/// The first owner with an image of his own.
pub type Mine = Editor<Box<Image>>;

pub fn mine(image: Image) -> Mine {
    Editor::new(Box::new(image), Owner::One)
}

/// The time of every call that takes one; before 1970, so that signs are tried too.
pub const TIME: Time = Time::new(-5, 6);
/// The root's file name.
pub const ROOT_FILE: FileName = FileName([200; 16]);

/// A file name for each number.
pub fn file(number: u64) -> FileName {
    let mut name = [7; 16];
    name[..8].copy_from_slice(&number.to_le_bytes());
    FileName(name)
}

/// A fresh image and a handle on its root.
pub fn fresh(blocks: usize) -> (Mine, Handle) {
    let mut image = mine(way(&Image::format(blocks, TIME, ROOT_FILE).unwrap()));
    assert_ne!(image.is_trusted(), TESTED);
    let root = image.root().unwrap();
    (image, root)
}

/// A new node, its file's name new in every call.
pub fn create<I: DerefMut<Target = Image>>(editor: &mut Editor<I>, folder: Handle, name: &str, kind: NewKind) -> Result<Handle, Reason> {
    static NEXT: AtomicU64 = AtomicU64::new(1 << 32);
    editor.create(folder, name, kind, 0o644, TIME, file(NEXT.fetch_add(1, Ordering::Relaxed)))
}

/// The names of a folder.
pub fn names<I: Deref<Target = Image>>(editor: &Editor<I>, folder: Handle) -> Vec<String> {
    editor.entries(folder).map(|entry| entry.unwrap().name_str().unwrap().to_owned()).collect()
}

/// The modes of ranges, in the order of their numbers.
pub const MODES: [FallocateMode; 7] = [
    FallocateMode::Allocate { keep_size: false },
    FallocateMode::Allocate { keep_size: true },
    FallocateMode::PunchHoleKeepSize,
    FallocateMode::ZeroRange,
    FallocateMode::ZeroRangeKeepSize,
    FallocateMode::CollapseRange,
    FallocateMode::InsertRange,
];

/// A mode: mostly one that moves bytes.
pub fn mode_by_chance(n: &mut Numbers) -> FallocateMode {
    match n.below(4) {
        0 => FallocateMode::CollapseRange,
        1 => FallocateMode::InsertRange,
        _ => MODES[n.below(7) as usize],
    }
}

/// What a file's bytes become by a call on a range of it, where that is done.
pub fn ranged(text: &mut Vec<u8>, mode: FallocateMode, from: usize, length: usize) {
    let (size, end) = (text.len(), from + length);
    match mode {
        FallocateMode::Allocate { keep_size: true } => {}
        FallocateMode::Allocate { keep_size: false } => text.resize(size.max(end), 0),
        FallocateMode::PunchHoleKeepSize | FallocateMode::ZeroRangeKeepSize => text[from.min(size)..end.min(size)].fill(0),
        FallocateMode::ZeroRange => {
            text.resize(size.max(end), 0);
            text[from..end].fill(0);
        }
        FallocateMode::CollapseRange => drop(text.drain(from..end)),
        FallocateMode::InsertRange => drop(text.splice(from..from, vec![0; length])),
    }
}

/// A row of numbers that is the same in every run.
pub struct Numbers(pub u64);

impl Numbers {
    pub fn next(&mut self) -> u64 {
        self.0 ^= self.0 << 13;
        self.0 ^= self.0 >> 7;
        self.0 ^= self.0 << 17;
        self.0
    }

    pub fn below(&mut self, end: u64) -> u64 {
        self.next() % end
    }
}
