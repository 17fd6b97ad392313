//! What the traits have and the sequences have no call for: asked of both sides now and then, between two calls.
use crate::along::Along;
use crate::device::{Device, Disk};
use crate::gen::Dice;
use crate::image::Mounted;
use crate::script::{Call, Handle};
use crate::table::OWN_HOLDS;
use crate::world::{feed, World, FED};
use rcore_fs::vfs::{FileSystem, FileType, FsError, INode, Timespec, PATH_MAX};
use rcore_fs_sefs::SEFS;
use std::fmt::Debug;
use std::sync::Arc;

/// A file whose whole contents are asked for is no longer than this.
const WHOLE: u64 = 50_000;
/// With this many free blocks nothing runs out of room.
const ROOM: usize = 20;

pub struct Besides {
    dice: Dice,
    /// A folder of another file system, on each side.
    strangers: (Arc<dyn INode>, Arc<dyn INode>),
}

/// The same question to both sides, and their answers where they differ.
fn both<T: PartialEq + Debug>(nodes: &[Arc<dyn INode>; 2], ask: impl Fn(&Arc<dyn INode>) -> T) -> Result<(), String> {
    let [other, mine] = [0, 1].map(|side| ask(&nodes[side]));
    if other == mine {
        Ok(())
    } else {
        Err(format!("000 says {other:?}, the mount {mine:?}"))
    }
}

/// Whether a symlink in this folder or below has a target with a zero byte inside.
fn zero_in_a_target(folder: &Arc<dyn INode>) -> bool {
    let names = folder.list().unwrap_or_default();
    let nodes = names.iter().skip(2).filter_map(|name| folder.find(name).ok());
    nodes.into_iter().any(|node| match node.metadata().map(|metadata| metadata.type_) {
        Ok(FileType::Dir) => zero_in_a_target(&node),
        Ok(FileType::SymLink) => {
            let mut target = [1; PATH_MAX];
            node.read_at(0, &mut target).is_ok_and(|count| target[..count].contains(&0))
        }
        _ => false,
    })
}

impl Besides {
    pub fn new(seed: u64) -> Besides {
        feed(Timespec { sec: 0, nsec: 0 }, [1; 16]);
        let other = SEFS::create(Box::new(Device::new(Disk::zeros(16 * 512))), &FED, &FED).expect("a fresh image");
        let mine = Mounted::create(16 * 512).expect("a fresh image");
        let strangers = (other.root_inode(), mine.of(1).root_inode());
        Besides { dice: Dice(seed ^ 0x6d6f_756e_74), strangers }
    }

    pub fn ask(&mut self, along: &mut Along, who: u8, call: &Call, world: &mut World) {
        let answer = match call {
            Call::Sync => self.syncs(along, who, world),
            _ if self.dice.once(6) => self.one(along, who, world),
            _ => return,
        };
        match answer {
            Some((what, Ok(()))) => along.counts.besides(what),
            Some((what, Err(text))) => along.difference(format!("{what}: {text}")),
            None => (),
        }
        along.compare_bytes(call, world);
    }

    /// A node that who asks has open, on both sides.
    fn open(&mut self, along: &Along, who: u8, world: &World) -> Option<(Handle, [Arc<dyn INode>; 2])> {
        let own = world.table.own(who);
        if own.is_empty() {
            return None;
        }
        let h = self.dice.of(&own);
        Some((h, [world.table.node(h)?.clone(), along.holds.get(&(h.hold, h.stamp))?.clone()]))
    }

    /// Right after a sync there is nothing to store, so that a node's own syncs leave both sides as they are.
    fn syncs(&mut self, along: &Along, who: u8, world: &World) -> Option<(&'static str, Result<(), String>)> {
        let (_, nodes) = self.open(along, who, world)?;
        Some(("sync_all and sync_data", both(&nodes, |node| (node.sync_all(), node.sync_data()))))
    }

    fn one(&mut self, along: &Along, who: u8, world: &mut World) -> Option<(&'static str, Result<(), String>)> {
        let (h, nodes) = self.open(along, who, world)?;
        let row = *world.table.row(h)?;
        let folder = row.kind() == 2;
        Some(match self.dice.below(10) {
            0 => {
                let told = [world.fs()?.info(), along.mounted.as_ref()?.of(who).info()].map(|info| format!("{info:?}"));
                ("info", if told[0] == told[1] { Ok(()) } else { Err(format!("{told:?}")) })
            }
            1 => ("list", both(&nodes, |node| node.list())),
            2 | 3 if row.links() > 0 => return self.lookup(&nodes, h, who, world),
            4 if row.kind() == 3 && world.free_blocks() > ROOM => {
                let target = self.path(h, world);
                ("a symlink's target", world.freely(|_| both(&nodes, |node| (node.resize(0), node.write_at(0, target.as_bytes())))))
            }
            5 if folder || row.size() < WHOLE => ("read_as_vec", world.freely(|_| both(&nodes, |node| node.read_as_vec()))),
            6 if folder || row.size() < WHOLE => {
                ("read_elf64_lazy_as_vec", world.freely(|_| both(&nodes, |node| node.read_elf64_lazy_as_vec())))
            }
            7 => {
                let name = self.name(h, world);
                let strangers = [&self.strangers.0, &self.strangers.1];
                let asked = [0, 1].map(|side| nodes[side].link(&name, strangers[side]));
                if name.contains('/') && asked[1] == Err(FsError::InvalidParam) {
                    return Some(("link of another file system's node, slash", Ok(())));
                }
                ("link of another file system's node", if asked[0] == asked[1] { Ok(()) } else { Err(format!("{name:?} {asked:?}")) })
            }
            8 => {
                let names = [self.name(h, world), self.name(h, world)];
                let strangers = [&self.strangers.0, &self.strangers.1];
                let asked = [0, 1].map(|side| nodes[side].move_(&names[0], strangers[side], &names[1]));
                ("move to another file system", if asked[0] == asked[1] { Ok(()) } else { Err(format!("{names:?} {asked:?}")) })
            }
            9 => ("poll and io_control", both(&nodes, |node| (format!("{:?}", node.poll()), node.io_control(1, 2)))),
            _ => return None,
        })
    }

    /// A lookup has up to three nodes more open (a folder, a symlink in it, and root for its target): it may meet the end of the owner's places.
    fn lookup(&mut self, nodes: &[Arc<dyn INode>; 2], h: Handle, who: u8, world: &mut World) -> Option<(&'static str, Result<(), String>)> {
        let path = self.path(h, world);
        let follows = self.dice.of(&[0, 0, 1, 2, 8]);
        let look = |node: &Arc<dyn INode>| node.lookup_follow(&path, follows).and_then(|found| found.metadata());
        let [other, mine] = [0, 1].map(|side| world.freely(|_| look(&nodes[side])));
        let own = world.table.own(who).len();
        Some(match (other, mine) {
            (other, mine) if other == mine => ("lookup_follow", Ok(())),
            (_, Err(FsError::Busy)) if own + 3 > OWN_HOLDS => ("lookup_follow, Busy", Ok(())),
            // A zero byte in a name comes first of all here, and 000 takes it as any other.
            (Err(FsError::EntryNotFound | FsError::NameTooLong), Err(FsError::InvalidParam))
                if follows > 0 && world.freely(|world| world.fs().is_some_and(|fs| zero_in_a_target(&fs.root_inode()))) =>
            {
                ("lookup_follow, a zero byte in a target", Ok(()))
            }
            (other, mine) => ("lookup_follow", Err(format!("{path:?} with {follows}: 000 says {other:?}, the mount {mine:?}"))),
        })
    }

    fn name(&mut self, h: Handle, world: &World) -> String {
        let names: Vec<String> = world.slots(h).into_iter().filter_map(|slot| String::from_utf8(slot.name).ok()).collect();
        match self.dice.below(6) {
            0 => self.dice.of(&["", ".", "..", "new", "a/b"]).to_string(),
            1 => "n".repeat(255 + self.dice.below(3)),
            2 => "new".to_string(),
            _ if names.is_empty() => "none".to_string(),
            _ => self.dice.of(&names),
        }
    }

    /// A path of a few parts, mostly names that are there; now and then with slashes in a row, at its end, or too long.
    fn path(&mut self, h: Handle, world: &World) -> String {
        let mut path = self.dice.of(&["", "", "", "/", "//"]).to_string();
        let holds = world.table.handles();
        for part in 0..1 + self.dice.below(4) {
            let at = if part == 0 { h } else { self.dice.of(&holds) };
            let name = if self.dice.once(4) { self.dice.of(&[".", "..", ".."]).to_string() } else { self.name(at, world) };
            path += &name;
            path += self.dice.of(&["/", "/", "/", "//"]);
        }
        if self.dice.once(300) {
            path = "./".repeat(2100);
        }
        if self.dice.once(5) {
            path
        } else {
            path.trim_end_matches('/').to_string()
        }
    }
}
