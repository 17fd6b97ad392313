//! An image that several owners share, and one owner's share in it.
use alloc::boxed::Box;
use alloc::collections::BTreeMap;
use alloc::sync::{Arc, Weak};
use dzomrelig::{Editor, Handle, Image, Owner, Place, Reason, Time};
use rcore_fs::dev::TimeProvider;
use rcore_fs::vfs;
use spin::RwLock;

use crate::{fs_error, Device, FileNames, Inode, Mount};

/// The root folder's number.
const ROOT: u32 = 2;

/// An image behind its lock, and what its calls ask the enclave for.
///
/// Of the locks here this one is taken first. No `Arc` of a node is dropped under it: the drop would wait for it.
pub(crate) struct Disk {
    pub(crate) image: RwLock<Image>,
    pub(crate) device: Box<dyn Device>,
    pub(crate) clock: &'static dyn TimeProvider,
    pub(crate) names: &'static dyn FileNames,
}

impl Disk {
    pub(crate) fn now(&self) -> Time {
        let now = self.clock.current_time();
        Time::new(now.sec, now.nsec)
    }

    /// Stores what stands in the table only, and has the bytes kept.
    pub(crate) fn sync(&self) -> vfs::Result<()> {
        let mut image = self.image.write();
        image.sync().map_err(fs_error)?;
        Ok(self.device.keep(image.bytes())?)
    }

    /// Where nobody can be told.
    pub(crate) fn tell(&self, done: vfs::Result<()>) {
        if let Err(error) = done {
            self.device.report(error);
        }
    }
}

/// What one owner has of an image: the nodes that are out.
pub(crate) struct Share {
    pub(crate) disk: Arc<Disk>,
    pub(crate) owner: Owner,
    /// A node that is out has one hold, however many `Arc`s of it there are.
    live: RwLock<BTreeMap<u32, Weak<Inode>>>,
    mount: RwLock<Weak<Mount>>,
}

impl Share {
    pub(crate) fn new(disk: Arc<Disk>, owner: Owner) -> Arc<Share> {
        Arc::new(Share { disk, owner, live: RwLock::new(BTreeMap::new()), mount: RwLock::new(Weak::new()) })
    }

    /// The share as a file system: always the same one while somebody has it.
    pub(crate) fn mount(self: &Arc<Share>) -> Arc<Mount> {
        let mut kept = self.mount.write();
        kept.upgrade().unwrap_or_else(|| {
            let mount = Arc::new(Mount::of(Arc::clone(self)));
            *kept = Arc::downgrade(&mount);
            mount
        })
    }

    /// A call that changes nothing. Such calls run side by side.
    pub(crate) fn look<T>(&self, call: impl FnOnce(Editor<&Image>) -> Result<T, Reason>) -> vfs::Result<T> {
        call(self.disk.image.read().reader(self.owner)).map_err(fs_error)
    }

    /// Any call.
    pub(crate) fn change<T>(&self, call: impl FnOnce(&mut Editor<&mut Image>) -> Result<T, Reason>) -> vfs::Result<T> {
        call(&mut self.disk.image.write().editor(self.owner)).map_err(fs_error)
    }

    fn out(&self, id: u32) -> Option<Arc<Inode>> {
        self.live.read().get(&id).and_then(Weak::upgrade)
    }

    /// The node of a new handle. Where it is out already, the handle is given up: the node stays open by its own.
    pub(crate) fn settle(self: &Arc<Share>, editor: &mut Editor<&mut Image>, handle: Handle) -> Result<Arc<Inode>, Reason> {
        let id = editor.metadata(handle).map(|metadata| metadata.inode);
        let known = id.ok().and_then(|id| self.out(id));
        if id.is_err() || known.is_some() {
            self.disk.tell(editor.close(handle).map_err(fs_error));
        }
        match (id, known) {
            (Err(reason), _) => Err(reason),
            (Ok(_), Some(node)) => Ok(node),
            (Ok(id), None) => {
                let node = Arc::new(Inode::new(Arc::clone(self), id, Ok(handle)));
                self.live.write().insert(id, Arc::downgrade(&node));
                Ok(node)
            }
        }
    }

    /// The node of a name. With no place left for a handle of its own, it is found if it is out already.
    pub(crate) fn find(self: &Arc<Share>, editor: &mut Editor<&mut Image>, folder: Handle, name: &str) -> Result<Arc<Inode>, Reason> {
        match editor.find(folder, name) {
            Ok(handle) => self.settle(editor, handle),
            Err(Reason::TableFull) => {
                let name = if name.is_empty() { "." } else { name };
                let mut slots = editor.entries_from(Place::with_dots(folder)).filter_map(Result::ok);
                let slot = slots.find(|slot| slot.name == name.as_bytes());
                slot.and_then(|slot| self.out(slot.id)).ok_or(Reason::TableFull)
            }
            Err(reason) => Err(reason),
        }
    }

    /// The root folder. One that can't be had answers each call with the reason.
    pub(crate) fn root(self: &Arc<Share>) -> Arc<Inode> {
        let mut image = self.disk.image.write();
        let editor = &mut image.editor(self.owner);
        let root = match editor.root() {
            Ok(handle) => self.settle(editor, handle),
            Err(reason) => self.out(ROOT).ok_or(reason),
        };
        root.unwrap_or_else(|reason| Arc::new(Inode::new(Arc::clone(self), ROOT, Err(reason))))
    }

    /// A node whose last `Arc` goes: its hold is closed, which stores its record or frees it.
    pub(crate) fn give_up(&self, id: u32, handle: Handle) {
        let closed = self.change(|editor| editor.close(handle));
        let mut live = self.live.write();
        // another thread may have got the node anew, with a hold of its own
        if live.get(&id).is_some_and(|node| node.strong_count() == 0) {
            live.remove(&id);
        }
        drop(live);
        self.disk.tell(closed);
    }
}

impl Drop for Share {
    /// As SEFS does: what is not stored is, when the file system goes.
    fn drop(&mut self) {
        self.disk.tell(self.disk.sync());
    }
}
