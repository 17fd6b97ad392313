//! Who asks, and the calls that take or make a handle.
use alloc::vec;
use alloc::vec::Vec;
use core::fmt;
use core::ops::{Deref, DerefMut};

use crate::{
    Attributes, Entries, Entry, FallocateMode, FileName, Handle, Image, Kind, Metadata, NewKind, Owner, Place, Reason, Time, FILE_LONGEST,
    PATH_LONGEST, SLOT,
};

/// One of the four who share an image, at work on it: every call that takes or makes a handle says who asks.
///
/// A handle works only for the owner who got it, and each owner may have [`OWN_HOLDS`](crate::OWN_HOLDS) of them, whatever the others have. The nodes
/// behind them are shared: two owners may hold one node, and it stays until the last of them is closed.
///
/// An editor works through anything that leads to an [`Image`]: `&mut Image`, as [`Image::editor`] gives it; a guard, as of `std::sync::Mutex`; a
/// `Box`. Through `&Image`, as [`Image::reader`] gives it, it makes the calls that change nothing. It leads to the image itself, too: `editor.sync()`.
///
/// # Reasons
///
/// As for the calls of an [`Image`]: a call that is refused has changed nothing (but for the link buffer of [`walk`](Editor::walk)), and says one [`Reason`]. Where `BadHandle` is among them, it comes for
/// another owner's handle as well. `TableFull` depends on this owner's own handles, and on the stamps, alone.
#[derive(Clone, Copy)]
pub struct Editor<I> {
    image: I,
    who: u8,
}

impl<I> Editor<I> {
    /// An editor who works through this.
    pub fn new(image: I, owner: Owner) -> Editor<I> {
        Editor { image, who: owner.number() }
    }

    /// [`new`](Editor::new) with the owner's number, as it comes from elsewhere.
    ///
    /// Where it is not 1 to 4, each of its calls says `InvalidParam`, right after `BadArena`, `Damaged` and `BadTable`.
    pub fn numbered(image: I, owner: u8) -> Editor<I> {
        Editor { image, who: owner }
    }

    /// What the editor worked through. Its handles stay open.
    pub fn into_inner(self) -> I {
        self.image
    }

    /// The owner's number.
    pub fn who(&self) -> u8 {
        self.who
    }
}

impl<I: Deref<Target = Image>> Deref for Editor<I> {
    type Target = Image;

    fn deref(&self) -> &Image {
        &self.image
    }
}

impl<I: DerefMut<Target = Image>> DerefMut for Editor<I> {
    fn deref_mut(&mut self) -> &mut Image {
        &mut self.image
    }
}

// ---- holds

impl<I: DerefMut<Target = Image>> Editor<I> {
    /// A hold on the root folder.
    ///
    /// Reasons: `TableFull`; `Stuck`.
    pub fn root(&mut self) -> Result<Handle, Reason> {
        self.image.pair.root(self.who)
    }

    /// A hold on the node that `name` names in the folder. The empty name and `.` are the folder itself.
    ///
    /// Reasons: `BadHandle`, `BadName`, `NotDir`, `NameTooLong`, `DirRemoved` (only for `..`), `EntryNotFound`, `TableFull`; `Stuck`.
    pub fn find(&mut self, folder: Handle, name: impl AsRef<[u8]>) -> Result<Handle, Reason> {
        self.image.pair.find(self.who, folder, name.as_ref())
    }

    /// A hold on the node that a path leads to, from the folder: parts split by single slashes, each looked up as [`find`](Editor::find) does. A leading
    /// slash starts at root, and a lone one is root.
    ///
    /// Symlinks are followed, the last part's too, up to [`LINKS_MOST`](crate::LINKS_MOST) in all. What is written in one is its target: a path from the
    /// folder that the symlink was met in, or from root. After it the rest of the text in which it was met goes on.
    ///
    /// `links` takes the targets, one after another as they are met; its other bytes stay. It is the one thing that a refused call has changed: the
    /// targets that were read before stand there.
    ///
    /// Reasons: `BadHandle`; `BadName` (the path, or a target: also one that is empty or has an empty part) before its first part; at a part `NotDir`,
    /// `NameTooLong`, `DirRemoved` (only for `..`), `EntryNotFound`; at a symlink `SymLoop` (the ninth), `OutFull` (the target does not fit what is left of
    /// `links`); at the end `TableFull`; `Stuck`.
    pub fn walk(&mut self, folder: Handle, path: impl AsRef<[u8]>, links: &mut [u8]) -> Result<Handle, Reason> {
        self.image.pair.walk(self.who, folder, path.as_ref(), links)
    }

    /// Gives a hold up. The last one of a node stores its record if that changed, and frees a node that no folder names any more.
    ///
    /// Reasons: `BadHandle`; `NoDeviceSpace`, `Stuck`.
    pub fn close(&mut self, handle: Handle) -> Result<(), Reason> {
        self.image.pair.close(self.who, handle)
    }
}

// ---- names

impl<I: DerefMut<Target = Image>> Editor<I> {
    /// A new node in the folder, and a hold on it. `file` is the name of its own file, which no other node has.
    ///
    /// Reasons: `BadHandle`, `BadName` (a slash too), `NotDir`, `DirRemoved`, `NameTooLong`, `EntryExist`, `FileTaken`, `TooManyLinks`, `TableFull`;
    /// `NoDeviceSpace`, `Stuck`.
    pub fn create(
        &mut self,
        folder: Handle,
        name: impl AsRef<[u8]>,
        kind: NewKind,
        mode: u16,
        time: Time,
        file: FileName,
    ) -> Result<Handle, Reason> {
        self.create_numbered(folder, name, Kind::from(kind).number(), mode, time, file)
    }

    /// [`create`](Editor::create) with the type's number, as it comes from elsewhere.
    ///
    /// Reasons: as `create`, and `InvalidParam` (not 1 to 3: 4, a socket, is not made any more) right after `BadName`.
    pub fn create_numbered(
        &mut self,
        folder: Handle,
        name: impl AsRef<[u8]>,
        kind: u32,
        mode: u16,
        time: Time,
        file: FileName,
    ) -> Result<Handle, Reason> {
        self.image.pair.create(self.who, folder, name.as_ref(), kind, mode, time, file)
    }

    /// Another name for a node that is no folder.
    ///
    /// Reasons: `BadHandle` (folder, then node), `BadName` (a slash too), `NotDir`, `DirRemoved`, `NameTooLong`, `EntryExist`, `IsDir`,
    /// `TooManyLinks`; `NoDeviceSpace`, `Stuck`.
    pub fn link(&mut self, folder: Handle, name: impl AsRef<[u8]>, node: Handle) -> Result<(), Reason> {
        self.image.pair.link(self.who, folder, name.as_ref(), node)
    }

    /// Takes the name of a file, symlink or socket away. The folder's last slot drops into the hole, so slot numbers change.
    ///
    /// A node that is open stays, and so does its number, until its last handle is closed.
    ///
    /// Reasons: `BadHandle`, `BadName`, `NotDir`, `DirRemoved`, `IsDir` (`.`, `..`, empty), `NameTooLong`, `EntryNotFound`, `IsDir` (a folder);
    /// `NoDeviceSpace`, `Stuck`.
    pub fn remove_file(&mut self, folder: Handle, name: impl AsRef<[u8]>) -> Result<(), Reason> {
        self.image.pair.remove_file(self.who, folder, name.as_ref())
    }

    /// Takes the name of an empty folder away; all else as in [`remove_file`](Editor::remove_file).
    ///
    /// Reasons: `BadHandle`, `BadName`, `NotDir`, `DirRemoved`, `IsDir` (`.`, `..`, empty), `NameTooLong`, `EntryNotFound`, `NotDir` (no folder),
    /// `DirNotEmpty`; `NoDeviceSpace`, `Stuck`.
    pub fn remove_folder(&mut self, folder: Handle, name: impl AsRef<[u8]>) -> Result<(), Reason> {
        self.image.pair.remove_folder(self.who, folder, name.as_ref())
    }

    /// The node `old` of a folder becomes `new` of the folder `to`, which may be the same. A node of that name is replaced; where it is the same node,
    /// nothing changes.
    ///
    /// The `..` of a folder that goes to another folder leads there from then on. A folder can't go into itself or below.
    ///
    /// Reasons: `BadHandle` (source, then target), `BadName` (old, then new; a slash in the new one too), `NotDir`, `DirRemoved` (source), `IsDir`
    /// (either name `.`, `..`, empty), `NameTooLong`, `NotDir`, `DirRemoved` (target), `EntryNotFound`; where the new name is there, `NotDir` (a folder
    /// onto another kind), `IsDir` (another kind onto a folder), `DirNotEmpty`; `InvalidParam` (a folder into itself or below); `TooManyLinks`;
    /// `NoDeviceSpace`, `Stuck`.
    pub fn rename(&mut self, folder: Handle, old: impl AsRef<[u8]>, to: Handle, new: impl AsRef<[u8]>) -> Result<(), Reason> {
        self.image.pair.rename(self.who, folder, old.as_ref(), to, new.as_ref())
    }
}

// ---- metadata

impl<I: Deref<Target = Image>> Editor<I> {
    /// What is known of a node.
    ///
    /// Reasons: `BadHandle`; `Stuck`.
    pub fn metadata(&self, handle: Handle) -> Result<Metadata, Reason> {
        self.image.pair.metadata(self.who, handle)
    }
}

impl<I: DerefMut<Target = Image>> Editor<I> {
    /// Sets mode, uid, gid and times of a node in the table; [`close`](Editor::close) and [`sync`](Image::sync) store them.
    ///
    /// Reasons: `BadHandle`.
    pub fn set_metadata(&mut self, handle: Handle, attributes: &Attributes) -> Result<(), Reason> {
        self.image.pair.set_metadata(self.who, handle, attributes)
    }
}

// ---- contents

impl<I: Deref<Target = Image>> Editor<I> {
    /// Reads the bytes of a file, symlink or socket from a place on: as many as there are below its size and the output has room for. How many were
    /// read; the output's bytes after them stay. At the size and beyond there are none.
    ///
    /// Bytes that were never written are zeros. A node that was removed can be read while it is open.
    ///
    /// Reasons: `BadHandle`, `NotFile`; `Stuck`.
    pub fn read_at(&self, handle: Handle, place: u64, out: &mut [u8]) -> Result<usize, Reason> {
        Ok(usize::try_from(self.image.pair.read(self.who, handle, place, out)?).unwrap_or(0))
    }

    /// All bytes of a file, symlink or socket.
    ///
    /// A file takes no block for bytes that were never written, so it may have up to [`FILE_LONGEST`] of them, and all are given.
    ///
    /// Reasons: as [`read_at`](Editor::read_at); `FileTooBig` (a damaged size beyond the longest file), `OutFull` (no memory for so many bytes).
    pub fn read_to_vec(&self, handle: Handle) -> Result<Vec<u8>, Reason> {
        self.read_at(handle, 0, &mut [])?;
        let size = self.metadata(handle)?.size;
        if size > FILE_LONGEST {
            return Err(Reason::FileTooBig);
        }
        let (size, mut out) = (usize::try_from(size).map_err(|_| Reason::OutFull)?, Vec::new());
        out.try_reserve_exact(size).map_err(|_| Reason::OutFull)?;
        out.resize(size, 0);
        let count = self.read_at(handle, 0, &mut out)?;
        out.truncate(count);
        Ok(out)
    }
}

impl<I: DerefMut<Target = Image>> Editor<I> {
    /// Writes bytes into a file, symlink or socket from a place on: all of them, or none where it is refused. Past the size, file and size grow, and
    /// what lies between reads as zeros. No bytes at a place past the size make it grow as well, unlike in POSIX.
    ///
    /// The size stands in the table; [`close`](Editor::close) and [`sync`](Image::sync) store it. No time changes.
    ///
    /// Reasons: `BadHandle`, `NotFile`, `FileTooBig` (the end is past [`FILE_LONGEST`]); `Stuck`, `NoDeviceSpace`.
    pub fn write_at(&mut self, handle: Handle, place: u64, data: impl AsRef<[u8]>) -> Result<(), Reason> {
        self.image.pair.write(self.who, handle, place, data.as_ref())
    }

    /// Makes a file, symlink or socket shorter or longer. What is cut off is gone: where it grows again there are zeros. A longer file takes no block.
    ///
    /// The size stands in the table; [`close`](Editor::close) and [`sync`](Image::sync) store it. No time changes.
    ///
    /// Reasons: `BadHandle`, `NotFile`, `FileTooBig` (past [`FILE_LONGEST`]); `Stuck`.
    pub fn resize(&mut self, handle: Handle, length: u64) -> Result<(), Reason> {
        self.image.pair.resize(self.who, handle, length)
    }
}

// ---- ranges of a file

impl<I: DerefMut<Target = Image>> Editor<I> {
    /// Inserts, collapses, clears or allocates a range of a file: `length` bytes from `from` on. [`FallocateMode`] says what becomes of them.
    ///
    /// Zeros are written, and so are bytes that move: they take blocks where there were none. An empty range is allowed. The size stands in the table;
    /// [`close`](Editor::close) and [`sync`](Image::sync) store it. No time changes.
    ///
    /// Reasons: `BadHandle`, `NotFile` (a symlink or socket, too), `FileTooBig` (the range ends past [`FILE_LONGEST`]), `InvalidParam` (insert: `from` is at
    /// the size or past it; collapse: the range's end is; both: `from` or `length` is no multiple of [`RANGE_UNIT`](crate::RANGE_UNIT)), `FileTooBig` (insert:
    /// the file would grow past [`FILE_LONGEST`]); `NoDeviceSpace`, `Stuck`.
    ///
    /// ```
    /// use dzomrelig::{FallocateMode, FileName, Image, NewKind, Owner, Time};
    /// # fn main() -> Result<(), dzomrelig::Reason> {
    /// # let now = Time::new(1_700_000_000, 0);
    /// # let mut image = Image::format(64, now, FileName([0; 16]))?;
    /// # let mut anna = image.editor(Owner::One);
    /// # let root = anna.root()?;
    /// let log = anna.create(root, "log", NewKind::File, 0o644, now, FileName([1; 16]))?;
    /// anna.write_at(log, 0, [b'a'; 128])?;
    /// anna.write_at(log, 128, "the rest")?;
    /// anna.insert_range(log, 128, 256)?; // room in the middle, for two outlines of 128 bytes
    /// assert_eq!(anna.read_to_vec(log)?, [&[b'a'; 128][..], &[0; 256], b"the rest"].concat());
    /// anna.fallocate(log, FallocateMode::CollapseRange, 0, 128)?; // the first is taken out
    /// assert_eq!(anna.read_to_vec(log)?, [&[0; 256][..], b"the rest"].concat());
    /// # Ok(())
    /// # }
    /// ```
    pub fn fallocate(&mut self, handle: Handle, mode: FallocateMode, from: u64, length: u64) -> Result<(), Reason> {
        self.fallocate_numbered(handle, mode.number(), mode.flags(), from, length)
    }

    /// [`fallocate`](Editor::fallocate) with the mode's number, as it comes from elsewhere. Of `flags` bit 0 alone is read, and with mode 0 alone.
    ///
    /// Reasons: as `fallocate`, and `InvalidParam` (a mode that is not 0 to 5) right after the first `FileTooBig`.
    pub fn fallocate_numbered(&mut self, handle: Handle, mode: u8, flags: u8, from: u64, length: u64) -> Result<(), Reason> {
        self.image.pair.fallocate(self.who, handle, mode, flags, from, length)
    }

    /// [`FallocateMode::InsertRange`]: what lies from `from` on moves up by `length`, and the range reads as zeros.
    pub fn insert_range(&mut self, handle: Handle, from: u64, length: u64) -> Result<(), Reason> {
        self.fallocate(handle, FallocateMode::InsertRange, from, length)
    }

    /// [`FallocateMode::CollapseRange`]: the range goes, and what lies after it moves down to `from`.
    pub fn collapse_range(&mut self, handle: Handle, from: u64, length: u64) -> Result<(), Reason> {
        self.fallocate(handle, FallocateMode::CollapseRange, from, length)
    }

    /// [`FallocateMode::PunchHoleKeepSize`]: zeros over the range, as far as the file goes.
    pub fn punch_hole(&mut self, handle: Handle, from: u64, length: u64) -> Result<(), Reason> {
        self.fallocate(handle, FallocateMode::PunchHoleKeepSize, from, length)
    }

    /// [`FallocateMode::ZeroRange`]: zeros over the range, and the file grows to its end.
    pub fn zero_range(&mut self, handle: Handle, from: u64, length: u64) -> Result<(), Reason> {
        self.fallocate(handle, FallocateMode::ZeroRange, from, length)
    }

    /// [`FallocateMode::Allocate`]: the file grows to the range's end.
    pub fn allocate(&mut self, handle: Handle, from: u64, length: u64) -> Result<(), Reason> {
        self.fallocate(handle, FallocateMode::Allocate { keep_size: false }, from, length)
    }
}

// ---- slots

impl<I: Deref<Target = Image>> Editor<I> {
    /// One slot of a folder. Slots 0 and 1 are `.` and `..`. A number does not stay with its name: see [`remove_file`](Editor::remove_file).
    ///
    /// Reasons: `BadHandle`, `NotDir`, `EntryNotFound` (no such slot); `Stuck`.
    pub fn entry(&self, folder: Handle, slot: u64) -> Result<Entry, Reason> {
        let mut out = [0; SLOT];
        self.entry_into(folder, slot, &mut out)?;
        Entry::of_slot(&out).ok_or(Reason::OutFull)
    }

    /// One slot of a folder as it is stored, at the output's start: [`SLOT`] bytes, which [`Entry::of_slot`] reads.
    ///
    /// Reasons: `BadHandle`, `NotDir`, `EntryNotFound` (no such slot), `OutFull`; `Stuck`.
    pub fn entry_into(&self, folder: Handle, slot: u64, out: &mut [u8]) -> Result<(), Reason> {
        self.image.pair.entry(self.who, folder, slot, out)
    }

    /// A folder's slots from a place on, as they are stored: as many as are left and the output has room for. How many were written; the place moves on
    /// behind them. None: the folder has no more. Without the dots asked for, slots 0 and 1 are left out.
    ///
    /// Reasons: `BadHandle`, `NotDir`, `OutFull`; `Stuck`.
    pub fn list(&self, place: &mut Place, out: &mut [u8]) -> Result<usize, Reason> {
        let after = self.image.pair.list(self.who, place.folder, place.next, place.dots, out)?;
        let written = after.saturating_sub(place.start());
        place.next = after;
        Ok(usize::try_from(written).unwrap_or(0))
    }

    /// The entries of a folder, without `.` and `..`: [`entries_from`](Editor::entries_from) a [`Place::with_dots`] has them too. What a removal does to
    /// a folder's slots is told at [`Entries`].
    ///
    /// Reasons, as the last item: `BadHandle`, `NotDir`; `Stuck`.
    pub fn entries(&self, folder: Handle) -> Entries<'_> {
        self.entries_from(Place::new(folder))
    }

    /// The entries of a folder from a place on, with the dots where it asks for them.
    ///
    /// Reasons: as [`entries`](Editor::entries).
    pub fn entries_from(&self, place: Place) -> Entries<'_> {
        Entries::new(Editor::numbered(self, self.who), place)
    }

    /// All entries of a folder as they are now, without `.` and `..`. It stays as it is, whatever is removed after it.
    ///
    /// Reasons: as [`entries`](Editor::entries).
    pub fn snapshot(&self, folder: Handle) -> Result<Vec<Entry>, Reason> {
        self.entries(folder).collect()
    }
}

// ---- a folder's path

impl<I: Deref<Target = Image>> Editor<I> {
    /// A folder's path from root: a slash before each name, the name of each folder before those in it; of root one slash. It is what a title bar shows, where
    /// two folders have the same last name.
    ///
    /// The bytes are as they are stored. A new name has no slash, but one from before may have one, and then its path reads like another's.
    /// Of an image that passes the check, where no name on the path has a slash, two folders have two paths (`PathsApart`, crate `titles`), and
    /// [`walk`](Editor::walk) by the path opens the same folder, if a hold and a stamp are free (`WalksBack`, crate `titles`).
    ///
    /// The call is made with a buffer of 256 bytes, which is mostly enough, and again with one twice as long while it is refused for its length, up to
    /// [`PATH_LONGEST`].
    ///
    /// Reasons: `BadHandle`, `Stuck` (a type that there is not), `NotDir`, `DirRemoved`, `Stuck` (on the way up: over 4,096 folders, one that is none, or no
    /// name for the one below). Of an image that passes the check `Stuck` does not come (`PathAnswers`, crate `titles`).
    ///
    /// ```
    /// use dzomrelig::{FileName, Image, NewKind, Owner, Time};
    /// # fn main() -> Result<(), dzomrelig::Reason> {
    /// # let now = Time::new(1_700_000_000, 0);
    /// # let mut image = Image::format(64, now, FileName([0; 16]))?;
    /// # let mut anna = image.editor(Owner::One);
    /// # let root = anna.root()?;
    /// let light = anna.create(root, "light", NewKind::Folder, 0o755, now, FileName([1; 16]))?;
    /// let a = anna.create(light, "a", NewKind::Folder, 0o755, now, FileName([2; 16]))?;
    /// assert_eq!(anna.path(a)?, b"/light/a");
    /// assert_eq!(anna.path(root)?, b"/");
    /// let again = anna.walk(root, anna.path(a)?, &mut [])?;
    /// assert_eq!(anna.metadata(again)?.inode, anna.metadata(a)?.inode);
    /// # Ok(())
    /// # }
    /// ```
    pub fn path(&self, folder: Handle) -> Result<Vec<u8>, Reason> {
        let mut out = vec![0; 256];
        loop {
            match self.path_into(folder, &mut out) {
                Ok(length) => {
                    out.truncate(length);
                    return Ok(out);
                }
                Err(Reason::OutFull) if out.len() < PATH_LONGEST => out = vec![0; out.len().saturating_mul(2)],
                Err(reason) => return Err(reason),
            }
        }
    }

    /// Writes a folder's [path](Editor::path) at the output's start: how many bytes it has. The output's bytes after it stay, and a refusal keeps all.
    ///
    /// Reasons: as `path`, and last `OutFull` (the path does not fit; an output of its own length does).
    pub fn path_into(&self, folder: Handle, out: &mut [u8]) -> Result<usize, Reason> {
        Ok(usize::try_from(self.image.pair.path(self.who, folder, out)?).unwrap_or(0))
    }
}

impl<I: Deref<Target = Image>> fmt::Debug for Editor<I> {
    fn fmt(&self, f: &mut fmt::Formatter<'_>) -> fmt::Result {
        f.debug_struct("Editor").field("image", &**self).field("who", &self.who).finish()
    }
}
