//! The host goes down between two calls: what it leaves is mended, and every name and every byte is what the calls had answered.
mod common;

use std::collections::{BTreeMap, BTreeSet};

use common::damage::{self, record, superblock};
use common::script::way;
use common::{create, fresh, mine, Mine, Numbers, ROOT_FILE, TIME};
use dzomrelig::{Attributes, Counts, FailedRule, Handle, Image, Kind, NewKind, Owner, Reason, BLOCK, OWN_HOLDS, SLOT, TABLE};

type Path = Vec<String>;

/// What the calls have answered so far: which node each path leads to, and what is in each that is no folder.
#[derive(Default, Clone, PartialEq)]
struct Told {
    names: BTreeMap<Path, u32>,
    contents: BTreeMap<u32, (Kind, Vec<u8>)>,
}

impl Told {
    fn is_folder(&self, id: u32) -> bool {
        !self.contents.contains_key(&id)
    }

    /// The path of a folder that has one; the root's is empty.
    fn path(&self, folder: u32) -> Option<Path> {
        match folder {
            2 => Some(vec![]),
            _ => self.names.iter().find(|(_, &id)| id == folder).map(|(path, _)| path.clone()),
        }
    }

    /// How many folders this one names.
    fn folders_in(&self, path: &Path) -> usize {
        let inside = |(other, &id): (&Path, &u32)| other.len() == path.len() + 1 && other.starts_with(path) && self.is_folder(id);
        self.names.iter().filter(|&entry| inside(entry)).count()
    }

    /// The name goes to another path, with all that is below it; what was there is replaced.
    fn moved(&mut self, old: &Path, new: &Path) {
        if self.names[old] == *self.names.get(new).unwrap_or(&0) {
            return;
        }
        self.names.remove(new);
        let below: Vec<_> = self.names.keys().filter(|path| path.starts_with(old)).cloned().collect();
        for path in below {
            let id = self.names.remove(&path).unwrap();
            self.names.insert([&new[..], &path[old.len()..]].concat(), id);
        }
    }

    /// A node that no name leads to goes with its last handle, or with the host.
    fn without_the_lost(mut self) -> Told {
        let named: BTreeSet<_> = self.names.values().copied().collect();
        self.contents.retain(|id, _| named.contains(id));
        self
    }
}

/// A handle, whose it is, and the node.
#[derive(Clone, Copy)]
struct Open {
    owner: Owner,
    handle: Handle,
    id: u32,
}

/// An image at work, and what it has told.
struct World {
    image: Image,
    told: Told,
    open: Vec<Open>,
    file: u64,
}

fn name(n: &mut Numbers) -> String {
    ["a", "b", "c", "d", "Ж", "read me"][n.below(6) as usize].to_string()
}

impl World {
    fn new(blocks: usize) -> World {
        let image = way(&Image::format(blocks, TIME, ROOT_FILE).unwrap());
        World { image, told: Told::default(), open: vec![], file: 0 }
    }

    fn held(&mut self, owner: Owner, handle: Handle) -> u32 {
        let id = self.image.reader(owner).metadata(handle).unwrap().inode;
        self.open.push(Open { owner, handle, id });
        id
    }

    /// An open node by chance, for which this is so.
    fn any(&self, n: &mut Numbers, so: impl Fn(&Open) -> bool) -> Option<Open> {
        let fit: Vec<_> = self.open.iter().filter(|open| so(open)).collect();
        (!fit.is_empty()).then(|| *fit[n.below(fit.len() as u64) as usize])
    }

    /// An open folder by chance that has a path, and it.
    fn folder(&self, n: &mut Numbers) -> Option<(Open, Path)> {
        let at = self.any(n, |open| self.told.is_folder(open.id) && self.told.path(open.id).is_some())?;
        self.told.path(at.id).map(|path| (at, path))
    }

    fn create(&mut self, n: &mut Numbers, at: Open, path: Path) -> Result<(), Reason> {
        self.file += 1;
        let kind = [NewKind::File, NewKind::File, NewKind::Folder, NewKind::Symlink][n.below(4) as usize];
        let made = self.image.editor(at.owner).create(at.handle, path.last().unwrap(), kind, 0o644, TIME, common::file(self.file))?;
        let id = self.held(at.owner, made);
        self.told.names.insert(path, id);
        // the number may have been another node's
        self.told.contents.remove(&id);
        if kind != NewKind::Folder {
            self.told.contents.insert(id, (kind.into(), vec![]));
        }
        Ok(())
    }

    fn rename(&mut self, n: &mut Numbers, at: Open, old: Path) -> Result<(), Reason> {
        let Some((to, mut new)) = self.folder(n).filter(|(to, _)| to.owner == at.owner) else { return Ok(()) };
        new.push(name(n));
        self.image.editor(at.owner).rename(at.handle, old.last().unwrap(), to.handle, new.last().unwrap())?;
        self.told.moved(&old, &new);
        Ok(())
    }

    /// A name that the folder has, where it has one.
    fn any_name(&self, n: &mut Numbers, folder: &Path) -> String {
        let inside: Vec<_> = self.told.names.keys().filter(|path| path.len() == folder.len() + 1 && path.starts_with(folder)).collect();
        match inside.len() {
            0 => name(n),
            count => inside[n.below(count as u64) as usize].last().unwrap().clone(),
        }
    }

    /// A call with a name in an open folder.
    fn named(&mut self, n: &mut Numbers) -> Result<(), Reason> {
        let Some((at, mut path)) = self.folder(n) else { return Ok(()) };
        let what = n.below(10);
        let last = if what < 5 { name(n) } else { self.any_name(n, &path) };
        path.push(last.clone());
        let mut editor = self.image.editor(at.owner);
        match what {
            0..=3 => return self.create(n, at, path),
            4 => {
                let Some(node) = self.any(n, |open| open.owner == at.owner && !self.told.is_folder(open.id)) else { return Ok(()) };
                self.image.editor(at.owner).link(at.handle, &last, node.handle)?;
                self.told.names.insert(path, node.id);
            }
            5 | 6 => {
                editor.remove_file(at.handle, &last).or_else(|_| editor.remove_folder(at.handle, &last))?;
                self.told.names.remove(&path);
            }
            7 => return self.rename(n, at, path),
            _ => {
                let found = editor.find(at.handle, &last)?;
                assert_eq!(self.held(at.owner, found), self.told.names[&path]);
            }
        }
        Ok(())
    }

    /// A call on an open node that is no folder.
    fn contents(&mut self, n: &mut Numbers) -> Result<(), Reason> {
        let Some(at) = self.any(n, |open| !self.told.is_folder(open.id)) else { return Ok(()) };
        let bytes = &mut self.told.contents.get_mut(&at.id).unwrap().1;
        let (place, mut editor) = (n.below(1_500) as usize, self.image.editor(at.owner));
        match n.below(6) {
            0 => {
                editor.resize(at.handle, place as u64)?;
                bytes.resize(place, 0);
                return Ok(());
            }
            1 => {
                let (mode, from, length) = (common::mode_by_chance(n), place / 128 * 128, n.below(6) as usize * 128);
                editor.fallocate(at.handle, mode, from as u64, length as u64)?;
                common::ranged(bytes, mode, from, length);
                return Ok(());
            }
            _ => {}
        }
        let data: Vec<_> = (0..n.below(600)).map(|k| (k + n.below(3)) as u8).collect();
        editor.write_at(at.handle, place as u64, &data)?;
        bytes.resize(bytes.len().max(place + data.len()), 0);
        bytes[place..place + data.len()].copy_from_slice(&data);
        Ok(())
    }

    /// One call by chance. A refusal has changed nothing, and what was told stays.
    fn call(&mut self, n: &mut Numbers) {
        let owner = Owner::ALL[n.below(4) as usize];
        let done = match n.below(20) {
            0..=2 => self.image.editor(owner).root().map(|root| assert_eq!(self.held(owner, root), 2)),
            3..=11 => self.named(n),
            12..=16 => self.contents(n),
            17 if n.below(3) == 0 => self.image.sync(),
            18 => self.any(n, |_| true).map_or(Ok(()), |at| {
                let attributes = Attributes { mode: n.next() as u16, ..Attributes::default() };
                self.image.editor(at.owner).set_metadata(at.handle, &attributes)
            }),
            _ if !self.open.is_empty() => {
                let at = self.open.swap_remove(n.below(self.open.len() as u64) as usize);
                self.image.editor(at.owner).close(at.handle)
            }
            _ => Ok(()),
        };
        assert!(!matches!(done, Err(Reason::Stuck | Reason::BadHandle | Reason::BadTable | Reason::Damaged)), "{done:?}");
    }
}

/// What a walk through all folders finds; each count of links is the number of names, and each handle is closed again.
fn found(image: &mut Mine, path: &mut Path, told: &mut Told) {
    let folder = open(image, path);
    let (entries, known) = (image.snapshot(folder).unwrap(), image.metadata(folder).unwrap());
    image.close(folder).unwrap();
    for entry in entries {
        path.push(entry.name_str().unwrap().to_string());
        let node = open(image, path);
        let known = image.metadata(node).unwrap();
        assert_eq!((known.inode, Some(known.kind)), (entry.id, entry.kind));
        told.names.insert(path.clone(), known.inode);
        if known.kind == Kind::Folder {
            found(image, path, told);
        } else {
            let bytes = image.read_to_vec(node).unwrap();
            assert_eq!(known.size, bytes.len() as u64);
            told.contents.insert(known.inode, (known.kind, bytes));
        }
        image.close(node).unwrap();
        path.pop();
    }
    assert_eq!(usize::from(known.links), 2 + told.folders_in(path));
}

/// A handle on what a path leads to.
fn open(image: &mut Mine, path: &Path) -> Handle {
    let mut at = image.root().unwrap();
    for name in path {
        let next = image.find(at, name).unwrap();
        image.close(at).unwrap();
        at = next;
    }
    at
}

/// The bytes that a host leaves are recovered, and pass; a second mending changes nothing; all names and bytes are as told, and nothing else is there.
fn recovers(bytes: &[u8], told: &Told) -> Image {
    let image = Image::recovered(bytes).unwrap();
    assert!(image.is_trusted());
    assert_eq!(Image::checked(image.bytes()).unwrap().check(), image.check());
    let again = Image::recovered(image.bytes()).unwrap();
    assert!(again.bytes() == image.bytes() && again.table() == image.table());
    let mut image = mine(way(&image));
    let mut now = Told::default();
    found(&mut image, &mut vec![], &mut now);
    assert!(now == told.clone().without_the_lost(), "{:?}, was {:?}", now.names, told.names);
    let nodes: BTreeSet<_> = now.names.values().collect();
    assert_eq!(image.check().unwrap().nodes as usize, 1 + nodes.len());
    for (&id, _) in now.contents.iter() {
        let path = now.names.iter().find(|(_, &other)| other == id).unwrap().0;
        let node = open(&mut image, path);
        let names = now.names.values().filter(|&&other| other == id).count();
        assert_eq!(usize::from(image.metadata(node).unwrap().links), names);
        image.close(node).unwrap();
    }
    again
}

/// The host dies after every call of every sequence; now and then the one at work itself, and it goes on with what was recovered.
#[test]
fn the_host_dies_between_two_calls() {
    let n = &mut Numbers(0xA076_1D64_78BD_642F);
    let (mut deaths, mut lost, mut unlike) = (0, 0, 0);
    for round in 0..200 {
        let mut world = World::new(24 + round % 60);
        for _ in 0..60 {
            world.call(n);
            let bytes = world.image.bytes();
            let recovered = recovers(bytes, &world.told);
            deaths += 1;
            unlike += usize::from(recovered.bytes() != bytes);
            lost += usize::from(world.image.check().unwrap().nodes > recovered.check().unwrap().nodes);
            if n.below(20) == 0 {
                world = World { image: way(&recovered), told: world.told.without_the_lost(), open: vec![], file: world.file };
            }
        }
    }
    assert!(deaths == 12_000 && lost > 1_000 && unlike > 3_000, "{deaths} deaths, {lost} with lost nodes, {unlike} with something to mend");
}

/// As many as can be: each owner's eight handles are on nodes that were removed, 32 in all.
#[test]
fn every_hold_on_a_lost_node() {
    let (mut image, root) = fresh(128);
    let kept = create(&mut image, root, "kept", NewKind::File).unwrap();
    image.write_at(kept, 1_000, "outline").unwrap();
    image.close(kept).unwrap();
    image.close(root).unwrap();
    let fresh = image.check().unwrap();
    let mut image = image.into_inner();
    for owner in Owner::ALL {
        let mut editor = image.editor(owner);
        let root = editor.root().unwrap();
        for k in 1..OWN_HOLDS {
            let kind = [NewKind::File, NewKind::Folder, NewKind::Symlink][k % 3];
            let made = create(&mut editor, root, "gone", kind).unwrap();
            if kind == NewKind::Folder {
                editor.remove_folder(root, "gone").unwrap();
            } else {
                editor.write_at(made, 0, vec![k as u8; 700]).unwrap();
                editor.remove_file(root, "gone").unwrap();
            }
        }
    }
    assert_eq!(image.check().unwrap().nodes, fresh.nodes + 28);
    assert_eq!(image.mend(), Err(Reason::InUse));
    let image = Image::recovered(image.into_bytes()).unwrap();
    // the metadata file keeps the 7 blocks that came with their records
    assert_eq!(image.check(), Ok(Counts { free: fresh.free - 7, ..fresh }));
}

/// `InUse` for any handle, whoever's; without one an image that passes is left as it is, and so is its table.
#[test]
fn in_use() {
    let (mut image, root) = fresh(32);
    let a = create(&mut image, root, "a", NewKind::File).unwrap();
    let before = image.clone();
    assert_eq!(image.mend(), Err(Reason::InUse));
    image.close(root).unwrap();
    let other = image.editor(Owner::Four).root().unwrap();
    image.close(a).unwrap();
    assert_eq!(image.mend(), Err(Reason::InUse));
    assert_eq!(image.is_trusted(), before.is_trusted());
    image.editor(Owner::Four).close(other).unwrap();
    let before = image.clone();
    assert_eq!(image.mend(), Ok(()));
    assert!(image.bytes() == before.bytes() && image.table() == before.table() && image.is_trusted());
    // its next stamp goes on: a closed handle stays one
    assert_eq!(image.metadata(a), Err(Reason::BadHandle));
    assert!(image.root().unwrap().stamp > other.stamp);
}

/// Folders d (3) with e (4) and a file of two names (5), a symlink (6), and n (7), empty: nothing is open.
fn family() -> Vec<u8> {
    let (mut image, root) = fresh(48);
    let d = image.create(root, "d", NewKind::Folder, 0, TIME, common::file(3)).unwrap();
    image.create(d, "e", NewKind::Folder, 0, TIME, common::file(4)).unwrap();
    let f = image.create(d, "f", NewKind::File, 0, TIME, common::file(5)).unwrap();
    let s = image.create(root, "s", NewKind::Symlink, 0, TIME, common::file(6)).unwrap();
    image.create(root, "n", NewKind::Folder, 0, TIME, common::file(7)).unwrap();
    image.link(root, "g", f).unwrap();
    image.write_at(f, 470, "across two blocks").unwrap();
    image.write_at(s, 0, "d/f").unwrap();
    image.sync().unwrap();
    let bytes = image.into_inner().into_bytes();
    assert!(Image::checked(&*bytes).is_ok());
    bytes
}

const COUNTS: Counts = Counts { nodes: 6, unused: 1016, free: 24 };

/// Slot k of a folder names another node.
fn names(bytes: &mut [u8], folder: u64, k: usize, id: u8, kind: Kind) {
    let file = if folder == 2 { ROOT_FILE } else { common::file(folder) };
    damage::write(bytes, Some(file), SLOT * k, &[id]);
    damage::write(bytes, Some(file), SLOT * k + 260, &[kind.number() as u8]);
}

/// The first bytes of the map, and the unused ids by them.
fn bits(bytes: &mut [u8], map: [u8; 2], unused: u32) {
    damage::write(bytes, None, 128, &map);
    superblock(bytes, damage::UNUSED, unused);
}

type Wrong = fn(&mut Vec<u8>);

/// One thing is wrong of all that the mender asks for, by the rule that fails.
const WRONGS: [(FailedRule, Wrong); 36] = [
    (FailedRule::Superblock, |b| superblock(b, damage::UNUSED, 1015)),
    (FailedRule::Superblock, |b| superblock(b, damage::UNUSED, 1017)),
    (FailedRule::Superblock, |b| superblock(b, 4, 2048)),
    (FailedRule::Superblock, |b| superblock(b, damage::GROUPS, 2)),
    (FailedRule::Superblock, |b| damage::set_length(b, None, 131_073)),
    (FailedRule::Maps, |b| bits(b, [1, 255], 1017)),
    (FailedRule::Maps, |b| bits(b, [2, 255], 1017)),
    (FailedRule::Maps, |b| bits(b, [4, 255], 1017)),
    (FailedRule::Nodes, |b| bits(b, [0, 254], 1015)),
    (FailedRule::Nodes, |b| bits(b, [64, 255], 1017)),
    (FailedRule::Nodes, |b| record(b, 5, damage::TYPE, &[0])),
    (FailedRule::Nodes, |b| record(b, 5, damage::TYPE, &[5])),
    (FailedRule::Nodes, |b| record(b, 2, damage::TYPE, &[1])),
    (FailedRule::Nodes, |b| record(b, 6, damage::FILE, &ROOT_FILE.0)),
    (FailedRule::Nodes, |b| record(b, 6, damage::FILE, &[9; 16])),
    (FailedRule::Folders, |b| record(b, 3, damage::BLOCKS, &[5])),
    (FailedRule::Folders, |b| record(b, 4, damage::BLOCKS, &[1])),
    (FailedRule::Folders, |b| damage::set_length(b, Some(common::file(3)), 4 * SLOT as u32 + 1)),
    (FailedRule::Folders, |b| names(b, 3, 0, 2, Kind::Folder)),
    (FailedRule::Folders, |b| damage::write(b, Some(common::file(3)), 4, b",")),
    (FailedRule::Folders, |b| damage::write(b, Some(common::file(3)), SLOT + 6, b",")),
    (FailedRule::Folders, |b| names(b, 3, 1, 2, Kind::File)),
    (FailedRule::Folders, |b| names(b, 3, 3, 5, Kind::Symlink)),
    (FailedRule::Folders, |b| names(b, 3, 3, 99, Kind::File)),
    (FailedRule::Folders, |b| names(b, 3, 3, 1, Kind::Folder)),
    (FailedRule::Folders, |b| damage::write(b, Some(common::file(3)), 3 * SLOT + 4, b"e")),
    (FailedRule::Folders, |b| damage::write(b, Some(common::file(3)), 3 * SLOT + 4, b".")),
    (FailedRule::Folders, |b| damage::write(b, Some(common::file(3)), 3 * SLOT + 4, &[255])),
    // n is named by none then, which would do: it is empty. But the root is named, e is named twice, or d, which is not empty, is named by none
    (FailedRule::Links, |b| names(b, 2, 4, 2, Kind::Folder)),
    (FailedRule::Links, |b| names(b, 2, 4, 4, Kind::Folder)),
    (FailedRule::Links, |b| names(b, 2, 2, 5, Kind::File)),
    // `..` of the root, of e, of d leads elsewhere
    (FailedRule::Parents, |b| names(b, 2, 1, 3, Kind::Folder)),
    (FailedRule::Parents, |b| names(b, 4, 1, 2, Kind::Folder)),
    (FailedRule::Parents, |b| names(b, 4, 1, 99, Kind::Folder)),
    (FailedRule::Parents, |b| names(b, 3, 1, 4, Kind::Folder)),
    // d names itself, and so does its `..`; e is the root's
    (FailedRule::Parents, |b| {
        for (folder, k, id) in [(3, 2, 3), (3, 1, 3), (2, 2, 4), (4, 1, 2)] {
            names(b, folder, k, id, Kind::Folder);
        }
    }),
];

#[test]
fn what_can_not_be_mended() {
    for (k, (rule, wrong)) in WRONGS.into_iter().enumerate() {
        let mut bytes = family();
        wrong(&mut bytes);
        let mut image = Image::from_parts(&*bytes, damage::table(1));
        assert_eq!(image.check(), Err(rule), "{k}");
        assert_eq!(image.mend(), Err(Reason::WrongFs), "{k}");
        assert!(image.bytes() == bytes && !image.is_trusted(), "{k}");
        let opened = Image::untrusted(&*bytes).err();
        assert_eq!(Image::recovered(bytes).unwrap_err(), opened.unwrap_or(Reason::WrongFs), "{k}");
    }
    let mut bytes = family();
    superblock(&mut bytes, damage::MAGIC, 1);
    assert_eq!(Image::recovered(&*bytes).unwrap_err(), Reason::WrongFs);
    assert_eq!(Image::from_parts(bytes, damage::table(1)).mend(), Err(Reason::WrongFs));
    // no metadata file: an opening is stuck there
    assert_eq!(Image::recovered(vec![0; 16 * BLOCK]).unwrap_err(), Reason::Stuck);
    assert_eq!(Image::from_parts(vec![0; 16 * BLOCK], damage::table(1)).mend(), Err(Reason::WrongFs));
}

/// Link counts and sizes alone, each by itself and all together: the image is again what it was. A folder's size is not looked at.
#[test]
fn links_and_sizes() {
    let right = family();
    let wrongs: [Wrong; 9] = [
        |b| record(b, 2, damage::LINKS, &[0, 0]),
        |b| record(b, 2, damage::LINKS, &[255, 255]),
        |b| record(b, 3, damage::LINKS, &[2]),
        |b| record(b, 5, damage::LINKS, &[0]),
        |b| record(b, 5, damage::LINKS, &[1]),
        |b| record(b, 6, damage::LINKS, &[2]),
        |b| record(b, 5, damage::SIZE, &[0; 8]),
        |b| record(b, 5, damage::SIZE, &[255; 8]),
        |b| record(b, 6, damage::SIZE, &[4]),
    ];
    let mut all = right.clone();
    for wrong in wrongs {
        let mut bytes = right.clone();
        wrong(&mut bytes);
        wrong(&mut all);
        assert!(Image::checked(&*bytes).is_err());
        assert!(Image::recovered(bytes).unwrap().bytes() == right);
    }
    let image = Image::recovered(all).unwrap();
    assert!(image.bytes() == right);
    assert_eq!(image.check(), Ok(COUNTS));
    let mut bytes = right;
    record(&mut bytes, 7, damage::SIZE, &[99]);
    assert!(Image::recovered(&*bytes).unwrap().bytes() == bytes);
}

/// An empty folder that no name leads to goes, wherever its `..` leads, and whatever its links are.
#[test]
fn an_empty_folder_without_a_name() {
    for up in [2, 3, 7, 99] {
        let mut bytes = family();
        names(&mut bytes, 2, 4, 5, Kind::File);
        names(&mut bytes, 7, 1, up, Kind::Folder);
        record(&mut bytes, 7, damage::LINKS, &[up]);
        let image = Image::recovered(bytes).unwrap();
        assert_eq!(image.inventory().unwrap(), b"3 2 3 /d\n4 2 2 /d/e\n5 1 3 /d/f\n6 3 1 /s\n5 1 3 /n\n5 1 3 /g\n");
        assert_eq!(image.check().unwrap().nodes, COUNTS.nodes - 1);
    }
}

/// A table without holds is as good as an empty one, and stays.
#[test]
fn a_table_that_was_used() {
    let mut bytes = family();
    record(&mut bytes, 3, damage::LINKS, &[9]);
    for next in [1, 77, u64::MAX] {
        let mut image = Image::from_parts(&*bytes, damage::table(next));
        image.mend().unwrap();
        assert!(image.bytes() == family() && *image.table() == damage::table(next));
        assert_eq!(image.check(), Ok(COUNTS));
    }
    assert_eq!(Image::from_parts(bytes, [0; TABLE]).mend(), Err(Reason::BadTable));
}

/// `NoDeviceSpace` only where a record has a block that is not there, as no call leaves it: record 3 ends, with zeros, in the metadata file's second block.
#[test]
fn a_record_without_its_block() {
    for left in 0..3 {
        let (mut image, root) = fresh(24);
        create(&mut image, root, "a", NewKind::File).unwrap();
        let mut bytes = image.into_inner().into_bytes();
        damage::take_block(&mut bytes, None, 1);
        let mut image = mine(Image::untrusted(bytes).unwrap());
        let root = image.root().unwrap();
        let (a, free) = (image.find(root, "a").unwrap(), image.check().unwrap().free);
        for k in left..free {
            image.write_at(a, 480 * u64::from(k), "x").unwrap();
        }
        let bytes = image.into_inner().into_bytes();
        match left {
            0 => assert_eq!(Image::recovered(bytes).unwrap_err(), Reason::NoDeviceSpace),
            _ => assert_eq!(Image::recovered(bytes).unwrap().check().unwrap().free, left - 1),
        }
    }
}
