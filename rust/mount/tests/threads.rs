//! Four threads on one mount, and on four mounts of one image.
#[allow(dead_code)]
mod common;

use std::sync::Arc;

use common::fresh;
use dzomrelig::Owner;
use dzomrelig_mount::Mount;
use rcore_fs::vfs::{FileSystem, FileType, FsError, INode, Result};

const ROUNDS: u64 = 3000;
const NAMES: usize = 6;

/// splitmix64.
struct Dice(u64);

impl Dice {
    fn below(&mut self, n: usize) -> usize {
        self.0 = self.0.wrapping_add(0x9e37_79b9_7f4a_7c15);
        let z = (self.0 ^ self.0 >> 30).wrapping_mul(0xbf58_476d_1ce4_e5b9);
        let z = (z ^ z >> 27).wrapping_mul(0x94d0_49bb_1331_11eb);
        ((z ^ z >> 31) % n as u64) as usize
    }

    fn name(&mut self) -> String {
        format!("name {}", self.below(NAMES))
    }
}

/// A folder: the root, or one in it that is there.
fn folder(root: &Arc<dyn INode>, dice: &mut Dice) -> Arc<dyn INode> {
    match root.find(&dice.name()) {
        Ok(node) if matches!(node.metadata().map(|m| m.type_), Ok(FileType::Dir)) => node,
        _ => root.clone(),
    }
}

/// One call or two. Now and then a node is kept for a while.
fn one(root: &Arc<dyn INode>, dice: &mut Dice, me: u8, kept: &mut Vec<Arc<dyn INode>>) -> Result<()> {
    let at = folder(root, dice);
    match dice.below(10) {
        8 => {
            kept.push(at.find(&dice.name())?);
            Ok(())
        }
        9 => {
            kept.truncate(dice.below(3));
            kept.iter().try_for_each(|node| node.metadata().map(|_| ()))
        }
        0 | 1 => at.create(&dice.name(), FileType::File, 0o644)?.write_at(dice.below(700), &[me; 100]).map(|_| ()),
        2 => at.create(&dice.name(), FileType::Dir, 0o755).map(|_| ()),
        3 => at.unlink(&dice.name()),
        4 => at.move_(&dice.name(), &folder(root, dice), &dice.name()),
        5 => at.link(&dice.name(), &root.find(&dice.name())?),
        6 => {
            let names = at.list()?;
            assert!(names.iter().take(2).eq([".", ".."].iter()), "{names:?}");
            Ok(())
        }
        _ => {
            // A read gives the bytes of whole writes.
            let bytes = at.find(&dice.name())?.read_as_vec()?;
            assert!(bytes.iter().all(|b| *b <= 4), "{bytes:?}");
            Ok(())
        }
    }
}

/// The errors that calls of several at once may give.
fn is_expected(error: &FsError) -> bool {
    use FsError::*;
    matches!(error, EntryNotFound | EntryExist | DirNotEmpty | IsDir | NotDir | NotFile | DirRemoved | InvalidParam | NoDeviceSpace | Busy)
}

fn all(mounts: [Arc<Mount>; 4], seed: u64) -> [u64; 2] {
    let work = |(me, mount): (u8, Arc<Mount>)| {
        std::thread::spawn(move || {
            let mut dice = Dice(seed + me as u64);
            let (mut done, mut busy, mut kept) = (0, 0, vec![]);
            for _ in 0..ROUNDS {
                kept.truncate(2);
                match one(&mount.root_inode(), &mut dice, me, &mut kept) {
                    Ok(()) => done += 1,
                    Err(FsError::Busy) => busy += 1,
                    Err(error) => assert!(is_expected(&error), "{error:?}"),
                }
            }
            [done, busy]
        })
    };
    let threads: Vec<_> = (1..).zip(mounts).map(work).collect();
    let counts = threads.into_iter().map(|thread| thread.join().unwrap());
    counts.fold([0, 0], |all, one| [all[0] + one[0], all[1] + one[1]])
}

/// Nothing is out any more: the image passes, now and where it is opened again, and nobody had to be told of a drop.
fn passes(memory: &common::Memory, mount: &Arc<Mount>) {
    mount.sync().unwrap();
    let counts = mount.check().unwrap();
    let bytes = memory.see(|kept| {
        assert_eq!(kept.reports, []);
        kept.bytes.clone()
    });
    let (_, again) = common::open(bytes).unwrap();
    assert_eq!(again.check(), Ok(counts));
}

#[test]
fn four_threads_on_one_mount() {
    let (memory, mount) = fresh(2048);
    let [done, busy] = all([(); 4].map(|()| mount.clone()), 10);
    println!("done {done}, busy {busy}");
    assert!(done > ROUNDS);
    passes(&memory, &mount);
}

#[test]
fn four_owners_on_one_image() {
    let (memory, mount) = fresh(2048);
    let [done, busy] = all(Owner::ALL.map(|owner| mount.for_owner(owner)), 20);
    println!("done {done}, busy {busy}");
    assert!(done > ROUNDS);
    assert_eq!(busy, 0);
    passes(&memory, &mount);
}

/// A node that many hold at once is one hold, closed once.
#[test]
fn one_node_in_many_hands() {
    let (memory, mount) = fresh(64);
    mount.root_inode().create("a", FileType::File, 0o644).unwrap();
    let threads: Vec<_> = (0..4)
        .map(|_| {
            let mount = mount.clone();
            std::thread::spawn(move || {
                for _ in 0..ROUNDS {
                    let a = mount.root_inode().find("a").unwrap();
                    assert_eq!(a.metadata().unwrap().inode, 3);
                }
            })
        })
        .collect();
    threads.into_iter().for_each(|thread| thread.join().unwrap());
    passes(&memory, &mount);
}
