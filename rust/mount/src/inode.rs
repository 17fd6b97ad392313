//! A node that is out of a mount.
use alloc::string::String;
use alloc::sync::Arc;
use alloc::vec::Vec;
use core::any::Any;
use dzomrelig::{Attributes, Editor, Entry, FallocateMode, Handle, Image, Kind, NewKind, Place, Reason, Time, NAME_LONGEST};
use rcore_fs::vfs::{self, AllocFlags, DirentVisitor, FileSystem, FileType, FsError, INode, Metadata, Timespec};

use crate::fs_error;
use crate::share::Share;

/// The block size that SEFS tells of each node.
pub(crate) const BLOCK_SIZE: usize = 128;

/// How many slots of a folder are read under one lock.
const AT_ONCE: usize = 32;

/// A node of a mounted image: an `INode`. Its hold is closed when it is dropped.
pub struct Inode {
    share: Arc<Share>,
    id: u32,
    /// A root folder that could not be had has the reason instead.
    hold: Result<Handle, Reason>,
}

impl Inode {
    pub(crate) fn new(share: Arc<Share>, id: u32, hold: Result<Handle, Reason>) -> Inode {
        Inode { share, id, hold }
    }

    fn look<T>(&self, call: impl FnOnce(Editor<&Image>, Handle) -> Result<T, Reason>) -> vfs::Result<T> {
        self.share.look(|editor| call(editor, self.hold?))
    }

    fn change<T>(&self, call: impl FnOnce(&mut Editor<&mut Image>, Handle) -> Result<T, Reason>) -> vfs::Result<T> {
        self.share.change(|editor| call(editor, self.hold?))
    }

    /// The other node of a call, where it is of this mount.
    fn same_fs<'a>(&self, other: &'a Arc<dyn INode>) -> Option<&'a Inode> {
        other.downcast_ref::<Inode>().filter(|other| Arc::ptr_eq(&self.share, &other.share))
    }

    /// What a move asks before it looks at its target.
    fn ready_to_move(&self, names: [&str; 2]) -> vfs::Result<()> {
        let folder = self.metadata()?;
        match folder.type_ {
            FileType::Dir if folder.nlinks == 0 => Err(FsError::DirRemoved),
            FileType::Dir if names.iter().any(|name| matches!(*name, "" | "." | "..")) => Err(FsError::IsDir),
            FileType::Dir if names.iter().any(|name| name.len() > NAME_LONGEST) => Err(FsError::NameTooLong),
            FileType::Dir => Ok(()),
            _ => Err(FsError::NotDir),
        }
    }

    /// The slots from `next` on, each told to the visitor with no lock held; `next` goes along.
    fn visit(&self, next: &mut usize, visitor: &mut dyn DirentVisitor) -> vfs::Result<()> {
        loop {
            let slots: Vec<_> = self.look(|editor, folder| {
                let place = Place { folder, next: number(*next), dots: true };
                Ok(editor.entries_from(place).take(AT_ONCE).collect())
            })?;
            if slots.is_empty() {
                return Ok(());
            }
            for slot in slots {
                let slot: Entry = slot.map_err(fs_error)?;
                let kind = slot.kind.ok_or_else(|| fs_error(Reason::Stuck))?;
                visitor.visit_entry(text(&slot)?, slot.id.into(), type_of(kind), *next)?;
                *next = next.saturating_add(1);
            }
        }
    }
}

impl INode for Inode {
    fn read_at(&self, offset: usize, buf: &mut [u8]) -> vfs::Result<usize> {
        self.look(|editor, node| editor.read_at(node, number(offset), buf))
    }

    fn write_at(&self, offset: usize, buf: &[u8]) -> vfs::Result<usize> {
        self.change(|editor, node| editor.write_at(node, number(offset), buf)).map(|()| buf.len())
    }

    fn metadata(&self) -> vfs::Result<Metadata> {
        self.look(|editor, node| editor.metadata(node)).map(told)
    }

    fn set_metadata(&self, metadata: &Metadata) -> vfs::Result<()> {
        let attributes = Attributes {
            mode: metadata.mode,
            uid: number(metadata.uid),
            gid: number(metadata.gid),
            atime: time(metadata.atime),
            mtime: time(metadata.mtime),
            ctime: time(metadata.ctime),
        };
        self.change(|editor, node| editor.set_metadata(node, &attributes))
    }

    /// The records of all open nodes are stored, and the image is kept: there is no call for one node.
    fn sync_all(&self) -> vfs::Result<()> {
        self.share.disk.sync()
    }

    /// As `sync_all`: contents without the size that goes with them would be of no use.
    fn sync_data(&self) -> vfs::Result<()> {
        self.share.disk.sync()
    }

    fn resize(&self, len: usize) -> vfs::Result<()> {
        self.change(|editor, node| editor.resize(node, number(len)))
    }

    /// Of the flags of an allocation `KEEP_SIZE` alone is looked at, as in SEFS.
    fn fallocate(&self, mode: &vfs::FallocateMode, offset: usize, len: usize) -> vfs::Result<()> {
        self.change(|editor, node| editor.fallocate(node, mode_of(mode), number(offset), number(len)))
    }

    fn create(&self, name: &str, type_: FileType, mode: u16) -> vfs::Result<Arc<dyn INode>> {
        let kind = match type_ {
            FileType::File => NewKind::File,
            FileType::Dir => NewKind::Folder,
            FileType::SymLink => NewKind::Symlink,
            _ => return Err(FsError::InvalidParam),
        };
        let (now, file) = (self.share.disk.now(), self.share.disk.names.file_name());
        let node = self.change(|editor, folder| {
            let handle = editor.create(folder, name, kind, mode, now, file)?;
            self.share.settle(editor, handle)
        })?;
        Ok(node)
    }

    fn link(&self, name: &str, other: &Arc<dyn INode>) -> vfs::Result<()> {
        match self.same_fs(other) {
            Some(node) => self.change(|editor, folder| editor.link(folder, name, node.hold?)),
            // All that comes before a look at the other node is asked with the folder in its stead, which is refused then as a folder.
            None => match self.change(|editor, folder| editor.link(folder, name, folder)) {
                Err(FsError::IsDir) => Err(FsError::NotSameFs),
                refused => refused,
            },
        }
    }

    /// By the call for the kind of node that has the name.
    fn unlink(&self, name: &str) -> vfs::Result<()> {
        self.change(|editor, folder| match editor.remove_file(folder, name) {
            Err(Reason::IsDir) => editor.remove_folder(folder, name),
            done => done,
        })
    }

    fn move_(&self, old_name: &str, target: &Arc<dyn INode>, new_name: &str) -> vfs::Result<()> {
        let Some(target) = self.same_fs(target) else {
            self.ready_to_move([old_name, new_name])?;
            return Err(FsError::NotSameFs);
        };
        self.change(|editor, folder| editor.rename(folder, old_name, target.hold?, new_name))
    }

    fn find(&self, name: &str) -> vfs::Result<Arc<dyn INode>> {
        let node = self.change(|editor, folder| self.share.find(editor, folder, name))?;
        Ok(node)
    }

    fn get_entry(&self, id: usize) -> vfs::Result<String> {
        let slot = self.look(|editor, folder| editor.entry(folder, number(id)))?;
        text(&slot).map(String::from)
    }

    fn iterate_entries(&self, offset: usize, visitor: &mut dyn DirentVisitor) -> vfs::Result<usize> {
        let mut next = offset;
        match self.visit(&mut next, visitor) {
            Err(error) if next == offset => Err(error),
            _ => Ok(next.saturating_sub(offset)),
        }
    }

    fn fs(&self) -> Arc<dyn FileSystem> {
        self.share.mount()
    }

    fn as_any_ref(&self) -> &dyn Any {
        self
    }
}

impl Drop for Inode {
    fn drop(&mut self) {
        if let Ok(handle) = self.hold {
            self.share.give_up(self.id, handle);
        }
    }
}

// ---- the same things in both worlds

/// A count has at most 64 bits.
fn number(n: usize) -> u64 {
    u64::try_from(n).unwrap_or(u64::MAX)
}

fn count(n: u64) -> usize {
    usize::try_from(n).unwrap_or(usize::MAX)
}

fn time(t: Timespec) -> Time {
    Time::new(t.sec, t.nsec)
}

fn timespec(t: Time) -> Timespec {
    Timespec { sec: t.sec, nsec: t.nsec }
}

fn mode_of(mode: &vfs::FallocateMode) -> FallocateMode {
    match mode {
        vfs::FallocateMode::Allocate(flags) => FallocateMode::Allocate { keep_size: flags.contains(AllocFlags::KEEP_SIZE) },
        vfs::FallocateMode::PunchHoleKeepSize => FallocateMode::PunchHoleKeepSize,
        vfs::FallocateMode::ZeroRange => FallocateMode::ZeroRange,
        vfs::FallocateMode::ZeroRangeKeepSize => FallocateMode::ZeroRangeKeepSize,
        vfs::FallocateMode::CollapseRange => FallocateMode::CollapseRange,
        vfs::FallocateMode::InsertRange => FallocateMode::InsertRange,
    }
}

fn type_of(kind: Kind) -> FileType {
    match kind {
        Kind::File => FileType::File,
        Kind::Folder => FileType::Dir,
        Kind::Symlink => FileType::SymLink,
        Kind::Socket => FileType::Socket,
    }
}

/// A slot's name. One that is not UTF-8 was stored from outside.
fn text(slot: &Entry) -> vfs::Result<&str> {
    slot.name_str().ok_or_else(|| fs_error(Reason::Stuck))
}

/// As SEFS tells it: device and raw device are 0.
fn told(metadata: dzomrelig::Metadata) -> Metadata {
    Metadata {
        dev: 0,
        inode: count(metadata.inode.into()),
        size: count(metadata.size),
        blk_size: BLOCK_SIZE,
        blocks: count(metadata.blocks.into()),
        atime: timespec(metadata.atime),
        mtime: timespec(metadata.mtime),
        ctime: timespec(metadata.ctime),
        type_: type_of(metadata.kind),
        mode: metadata.mode,
        nlinks: metadata.links.into(),
        uid: count(metadata.uid.into()),
        gid: count(metadata.gid.into()),
        rdev: 0,
    }
}
