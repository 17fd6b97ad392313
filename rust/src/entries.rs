//! A folder's slots.
use alloc::vec;
use alloc::vec::Vec;
use core::iter::FusedIterator;
use core::{fmt, str};

use crate::{Editor, Handle, Image, Kind, Reason, NAME_LONGEST, SLOT};

/// What a slot of a folder says. Slots 0 and 1 are `.` and `..`.
#[derive(Clone, PartialEq, Eq, Hash, Debug)]
pub struct Entry {
    /// The node's number.
    pub id: u32,
    /// The name, without the zero that ends it.
    pub name: Vec<u8>,
    /// What the slot says that the node is; none where it says no such type, which the checker's rule 6 rules out.
    pub kind: Option<Kind>,
}

impl Entry {
    /// Reads one slot, the first [`SLOT`] bytes of what [`Editor::list`] or [`Editor::entry_into`] wrote; none where there are fewer.
    pub fn of_slot(slot: &[u8]) -> Option<Entry> {
        let (id, rest) = slot.split_first_chunk::<4>()?;
        let (name, rest) = rest.split_first_chunk::<{ NAME_LONGEST + 1 }>()?;
        let (kind, _) = rest.split_first_chunk::<4>()?;
        Some(Entry {
            id: u32::from_le_bytes(*id),
            name: name.iter().copied().take_while(|&b| b != 0).collect(),
            kind: Kind::try_from(u32::from_le_bytes(*kind)).ok(),
        })
    }

    /// The name as text. A name that a call gives is UTF-8.
    pub fn name_str(&self) -> Option<&str> {
        str::from_utf8(&self.name).ok()
    }

    /// Whether the name is `.` or `..`.
    pub fn is_dots(&self) -> bool {
        matches!(self.name.as_slice(), b"." | b"..")
    }
}

/// Where a listing stands: a folder, the slot to go on with, and whether `.` and `..` are asked for. [`Editor::list`] moves it on.
///
/// Without the dots a listing begins at slot 2: a place below is read as that.
///
/// A place says where to go on, not which name comes next: a removal in the folder moves its last slot into the hole, so begin again after one.
#[derive(Clone, Copy, PartialEq, Eq, Hash, Debug)]
pub struct Place {
    /// The folder.
    pub folder: Handle,
    /// The slot to go on with.
    pub next: u64,
    /// Whether slots 0 and 1, `.` and `..`, are asked for.
    pub dots: bool,
}

impl Place {
    /// The beginning of a folder, without the dots.
    pub const fn new(folder: Handle) -> Place {
        Place { folder, next: 0, dots: false }
    }

    /// The beginning of a folder, `.` and `..` first.
    pub const fn with_dots(folder: Handle) -> Place {
        Place { folder, next: 0, dots: true }
    }

    /// The slot that a listing starts with from here.
    pub(crate) fn start(&self) -> u64 {
        if self.dots {
            self.next
        } else {
            self.next.max(2)
        }
    }
}

/// How many slots are read at once.
const AT_ONCE: usize = 32;

/// The entries of a folder in the order of their slots, as [`Editor::entries`] gives them.
///
/// It borrows the image, so no slot can move while it is in use. Between two iterators one can: a removal, or a move out of the folder, drops the
/// folder's last slot into the hole. Who wants to remove names while walking takes a [snapshot](Editor::snapshot) first, and goes by the names in it.
///
/// A refusal is the last item. The entries before it have been given.
#[derive(Clone)]
pub struct Entries<'a> {
    editor: Editor<&'a Image>,
    place: Place,
    read: Vec<u8>,
    /// How many slots of `read` were given, and how many there are.
    given: usize,
    filled: usize,
    ended: bool,
}

impl<'a> Entries<'a> {
    pub(crate) fn new(editor: Editor<&'a Image>, place: Place) -> Entries<'a> {
        Entries { editor, place, read: vec![0; SLOT.saturating_mul(AT_ONCE)], given: 0, filled: 0, ended: false }
    }

    /// The next slots: how many there are. Where one of them can't be read, the first alone.
    fn fill(&mut self) -> Result<usize, Reason> {
        let (editor, place) = (self.editor, &mut self.place);
        editor.list(place, &mut self.read).or_else(|_| editor.list(place, self.read.get_mut(..SLOT).unwrap_or_default()))
    }
}

impl Iterator for Entries<'_> {
    type Item = Result<Entry, Reason>;

    fn next(&mut self) -> Option<Result<Entry, Reason>> {
        if self.given == self.filled && !self.ended {
            self.given = 0;
            self.filled = 0;
            match self.fill() {
                Ok(n) => self.filled = n,
                Err(reason) => {
                    self.ended = true;
                    return Some(Err(reason));
                }
            }
            self.ended = self.filled == 0;
        }
        if self.given == self.filled {
            return None;
        }
        let entry = self.read.chunks_exact(SLOT).nth(self.given).and_then(Entry::of_slot);
        self.given = self.given.saturating_add(1);
        entry.map(Ok)
    }
}

impl FusedIterator for Entries<'_> {}

impl fmt::Debug for Entries<'_> {
    fn fmt(&self, f: &mut fmt::Formatter<'_>) -> fmt::Result {
        f.debug_struct("Entries").field("editor", &self.editor).field("place", &self.place).finish_non_exhaustive()
    }
}
