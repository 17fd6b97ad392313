//! The traits' methods on a mounted image, and what is a mount's own: places, owners, drops, and errors where SEFS breaks off.
mod common;

use std::sync::Arc;

use common::{fresh, no, open, root, NOW};
use dzomrelig::{FailedRule, Owner, OWN_HOLDS};
use dzomrelig_mount::{Device, Inode, Mount, EEXIST};
use rcore_fs::dev::{DevResult, EIO};
use rcore_fs::vfs::{AllocFlags, FallocateMode, FileSystem, FileType, FsError, INode, Metadata};

fn file(folder: &Arc<dyn INode>, name: &str) -> Arc<dyn INode> {
    folder.create(name, FileType::File, 0o644).unwrap()
}

fn folder(of: &Arc<dyn INode>, name: &str) -> Arc<dyn INode> {
    of.create(name, FileType::Dir, 0o755).unwrap()
}

fn free(mount: &Arc<Mount>) -> u32 {
    mount.check().unwrap().free
}

// ---- the methods

#[test]
fn a_file_through_the_traits() {
    let (memory, mount) = fresh(64);
    let fs: Arc<dyn FileSystem> = mount.clone();
    let a = file(&fs.root_inode(), "a");
    assert_eq!(a.write_at(1000, b"outline"), Ok(7));
    let told = a.metadata().unwrap();
    let made = Metadata {
        dev: 0,
        inode: 3,
        size: 1007,
        blk_size: 128,
        blocks: 0,
        atime: NOW,
        mtime: NOW,
        ctime: NOW,
        type_: FileType::File,
        mode: 0o644,
        nlinks: 1,
        uid: 0,
        gid: 0,
        rdev: 0,
    };
    assert_eq!(told, made);
    a.set_metadata(&Metadata { mode: 0o600, uid: 7, gid: (1 << 32) + 8, size: 1, nlinks: 9, ..told }).unwrap();
    assert_eq!(a.metadata().unwrap(), Metadata { mode: 0o600, uid: 7, gid: 8, ..made });
    let mut out = [9; 10];
    assert_eq!(a.read_at(1003, &mut out), Ok(4));
    assert_eq!(&out, b"line\x09\x09\x09\x09\x09\x09");
    a.resize(1003).unwrap();
    assert_eq!(a.read_as_vec().unwrap()[1000..], *b"out");
    fs.sync().unwrap();
    let (_, again) = open(memory.see(|kept| kept.bytes.clone())).unwrap();
    assert_eq!(again.root_inode().find("a").unwrap().read_as_vec(), a.read_as_vec());
}

#[test]
fn folders_through_the_traits() {
    let (_, mount) = fresh(128);
    let root = root(&mount);
    let (a, b) = (folder(&root, "a"), folder(&root, "b"));
    let g = file(&a, "g");
    assert_eq!(no(a.create("g", FileType::File, 0)), FsError::EntryExist);
    b.link("h", &g).unwrap();
    assert_eq!(b.link("c", &a), Err(FsError::IsDir));
    a.move_("g", &b, "i").unwrap();
    assert_eq!(b.list().unwrap(), [".", "..", "h", "i"]);
    assert_eq!(b.get_entry(3).unwrap(), "i");
    assert_eq!(b.get_entry(4), Err(FsError::EntryNotFound));
    let mut names: Vec<String> = Vec::new();
    assert_eq!(b.iterate_entries(1, &mut names), Ok(3));
    assert_eq!(names, ["..", "h", "i"]);
    assert_eq!(b.iterate_entries(77, &mut names), Ok(0));
    assert_eq!(g.iterate_entries(0, &mut names), Err(FsError::NotDir));
    assert_eq!(root.unlink("b"), Err(FsError::DirNotEmpty));
    b.unlink("h").unwrap();
    b.unlink("i").unwrap();
    assert_eq!(b.unlink("i"), Err(FsError::EntryNotFound));
    root.unlink("b").unwrap();
    for name in [".", "..", ""] {
        assert_eq!(root.unlink(name), Err(FsError::IsDir));
    }
    assert_eq!(no(b.create("x", FileType::File, 0)), FsError::DirRemoved);
    assert_eq!(no(g.find("x")), FsError::NotDir);
    assert_eq!(a.metadata().unwrap().nlinks, 2);
    assert_eq!(mount.info().namemax, 255);
    assert_eq!([mount.info().blocks, mount.info().ffree], [1024, 1024 - 2 - 4]);
}

#[test]
fn a_listing_of_many_names() {
    let (_, mount) = fresh(1000);
    let root = root(&mount);
    for n in 0..100 {
        file(&root, &format!("glyph {n}"));
    }
    let mut names: Vec<String> = Vec::new();
    assert_eq!(root.iterate_entries(2, &mut names), Ok(100));
    assert!((0..100).all(|n| names[n] == format!("glyph {n}")));
    assert_eq!(root.list().unwrap().len(), 102);
}

#[test]
fn a_path_through_a_symlink() {
    let (_, mount) = fresh(64);
    let root = root(&mount);
    let g = file(&folder(&root, "a"), "g");
    let link = root.create("link", FileType::SymLink, 0o777).unwrap();
    link.write_at(0, b"/a/g").unwrap();
    let found = root.lookup_follow("//link", 1).unwrap();
    assert!(Arc::ptr_eq(&found, &g));
    assert_eq!(root.lookup("link").unwrap().metadata().unwrap().type_, FileType::SymLink);
    assert_eq!(no(root.lookup_follow("link/", 1)), FsError::NotDir);
    link.write_at(0, b"link").unwrap();
    assert_eq!(no(root.lookup_follow("link", 8)), FsError::SymLoop);
}

/// Each mode on a file of 300 bytes, the last 172 of which move in the last two.
#[test]
fn a_range_of_a_file() {
    let (_, mount) = fresh(64);
    let root = root(&mount);
    let text: Vec<u8> = (1..=300).map(|i| (i % 251) as u8 + 1).collect();
    let zeros = |n: usize| vec![0; n];
    let of = |mode: FallocateMode, at: usize, len: usize| {
        let a = file(&root, "a");
        a.write_at(0, &text).unwrap();
        a.fallocate(&mode, at, len).unwrap();
        root.unlink("a").unwrap();
        a.read_as_vec().unwrap()
    };
    assert_eq!(of(FallocateMode::Allocate(AllocFlags::KEEP_SIZE), 128, 256), text);
    assert_eq!(of(FallocateMode::Allocate(AllocFlags::UNSHARE_RANGE), 128, 256), [text.clone(), zeros(84)].concat());
    for mode in [FallocateMode::PunchHoleKeepSize, FallocateMode::ZeroRangeKeepSize] {
        assert_eq!(of(mode, 100, 256), [text[..100].to_vec(), zeros(200)].concat());
    }
    assert_eq!(of(FallocateMode::ZeroRange, 100, 256), [text[..100].to_vec(), zeros(256)].concat());
    assert_eq!(of(FallocateMode::CollapseRange, 0, 128), text[128..]);
    assert_eq!(of(FallocateMode::InsertRange, 128, 256), [&text[..128], &zeros(256), &text[128..]].concat());
    // what refuses them
    let a = file(&root, "a");
    a.write_at(0, &text).unwrap();
    for mode in [FallocateMode::CollapseRange, FallocateMode::InsertRange] {
        assert_eq!(root.fallocate(&mode, 0, 128), Err(FsError::NotFile));
        assert_eq!(a.fallocate(&mode, 1, 128), Err(FsError::InvalidParam));
        assert_eq!(a.fallocate(&mode, 384, 128), Err(FsError::InvalidParam));
        assert_eq!(a.fallocate(&mode, usize::MAX, 128), Err(FsError::FileTooBig));
    }
    assert_eq!(a.fallocate(&FallocateMode::InsertRange, 0, 4_294_967_168), Err(FsError::FileTooBig));
    assert_eq!(a.fallocate(&FallocateMode::InsertRange, 0, 480 * 64), Err(FsError::NoDeviceSpace));
    assert_eq!(a.read_as_vec().unwrap(), text);
    assert!(mount.check().is_ok());
}

#[test]
fn what_there_is_not() {
    let (_, mount) = fresh(64);
    let root = root(&mount);
    let a = file(&root, "a");
    assert_eq!(a.io_control(1, 2), Err(FsError::NotSupported));
    assert_eq!(mount.root_mac(), [0; 16]);
    assert!(a.ext().is_none());
    for kind in [FileType::CharDevice, FileType::BlockDevice, FileType::NamedPipe, FileType::Socket] {
        assert_eq!(no(root.create("b", kind, 0)), FsError::InvalidParam);
        assert_eq!(no(a.create("b", kind, 0)), FsError::InvalidParam);
    }
    assert!(root.create2("b", FileType::File, 0o644, 77).is_ok());
}

#[test]
fn a_slash_in_a_new_name() {
    let (_, mount) = fresh(64);
    let root = root(&mount);
    let a = file(&root, "a");
    assert_eq!(no(root.create("x/y", FileType::File, 0)), FsError::InvalidParam);
    assert_eq!(root.link("x/y", &a), Err(FsError::InvalidParam));
    assert_eq!(root.move_("a", &root, "x/y"), Err(FsError::InvalidParam));
    assert_eq!(no(root.create("x\0y", FileType::File, 0)), FsError::InvalidParam);
    assert_eq!(no(root.find("x/y")), FsError::EntryNotFound);
}

#[test]
fn a_folder_moves() {
    let (_, mount) = fresh(128);
    let root = root(&mount);
    let (a, b) = (folder(&root, "a"), folder(&root, "b"));
    let c = folder(&a, "c");
    a.move_("c", &b, "c").unwrap();
    assert!(Arc::ptr_eq(&c.find("..").unwrap(), &b));
    assert_eq!(root.move_("b", &c, "b"), Err(FsError::InvalidParam));
    assert_eq!(root.move_("b", &b, "b"), Err(FsError::InvalidParam));
}

// ---- holds, owners and drops

#[test]
fn as_many_arcs_as_one_likes() {
    let (_, mount) = fresh(64);
    let root = root(&mount);
    let a = file(&root, "a");
    let many: Vec<_> = (0..100).map(|_| root.find("a").unwrap()).collect();
    assert!(many.iter().all(|node| Arc::ptr_eq(node, &a)));
    assert!(Arc::ptr_eq(&root, &a.fs().root_inode()));
    assert!(a.downcast_ref::<Inode>().is_some());
}

#[test]
fn as_many_nodes_as_there_are_places() {
    let (_, mount) = fresh(256);
    let first = root(&mount);
    let mut out: Vec<_> = (0..OWN_HOLDS - 1).map(|n| file(&first, &n.to_string())).collect();
    assert_eq!(no(first.create("one more", FileType::File, 0)), FsError::Busy);
    assert_eq!(no(first.find("one more")), FsError::EntryNotFound);
    // What is out is found all the same.
    for name in ["", ".", "..", "3"] {
        assert!(first.find(name).is_ok(), "{name}");
    }
    assert!(Arc::ptr_eq(&root(&mount), &first));
    // A place for another; then root has none, and says so.
    out.pop();
    let last = folder(&first, "last");
    drop(first);
    out.push(file(&last, "x"));
    let none = root(&mount);
    assert_eq!(no(none.find("last")), FsError::Busy);
    assert_eq!(none.metadata(), Err(FsError::Busy));
    assert_eq!(last.link("y", &none), Err(FsError::Busy));
    assert_eq!(none.sync_all(), Ok(()));
    out.pop();
    assert_eq!(no(none.find("last")), FsError::Busy, "it is asked for once");
    let second = root(&mount);
    assert!(Arc::ptr_eq(&second.find("last").unwrap(), &last));
    assert_eq!(no(last.find("x")), FsError::Busy, "root has the place");
    drop(second);
    assert!(last.find("x").is_ok());
}

#[test]
fn owners_have_places_of_their_own() {
    let (_, mount) = fresh(512);
    let first = root(&mount);
    let out: Vec<_> = (0..OWN_HOLDS - 1).map(|n| file(&first, &n.to_string())).collect();
    assert_eq!(mount.owner(), Owner::One);
    let two = mount.for_owner(Owner::Two);
    assert_eq!(two.owner(), Owner::Two);
    let root2 = root(&two);
    let b = file(&root2, "b");
    out[0].write_at(0, b"shared").unwrap();
    assert_eq!(root2.find("0").unwrap().read_as_vec().unwrap(), b"shared");
    // One file system each, as far as the traits go.
    assert_eq!(root2.link("c", &out[0]), Err(FsError::NotSameFs));
    assert_eq!(root2.link("b", &out[0]), Err(FsError::EntryExist));
    assert_eq!(b.link("c", &out[0]), Err(FsError::NotDir));
    assert_eq!(root2.move_("b", &first, "c"), Err(FsError::NotSameFs));
    assert_eq!(root2.move_(".", &first, "c"), Err(FsError::IsDir));
    assert_eq!(root2.move_("b", &first, &"c".repeat(256)), Err(FsError::NameTooLong));
    assert_eq!(b.move_("b", &first, "c"), Err(FsError::NotDir));
    // A node stays until the last of them gives it up.
    let (used, shared) = (free(&mount), root2.find("0").unwrap());
    root2.unlink("0").unwrap();
    drop(out);
    assert_eq!(shared.read_as_vec().unwrap(), b"shared");
    drop(shared);
    assert!(free(&mount) > used);
}

#[test]
fn a_removed_node_goes_with_its_last_arc() {
    let (_, mount) = fresh(64);
    let root = root(&mount);
    file(&root, "a");
    root.unlink("a").unwrap();
    let before = free(&mount);
    let a = file(&root, "a");
    a.write_at(0, &[1; 1000]).unwrap();
    let again = a.clone();
    root.unlink("a").unwrap();
    drop(a);
    assert_eq!(again.read_as_vec().unwrap(), [1; 1000]);
    root.link("b", &again).unwrap();
    root.unlink("b").unwrap();
    drop(again);
    assert_eq!(free(&mount), before);
}

#[test]
fn the_file_system_may_go_first() {
    let (memory, mount) = fresh(64);
    let root = root(&mount);
    assert!(Arc::ptr_eq(&root.fs(), &(mount.clone() as Arc<dyn FileSystem>)));
    drop(mount);
    let a = file(&root, "a");
    a.set_metadata(&Metadata { mode: 0o600, ..a.metadata().unwrap() }).unwrap();
    let (fs, same) = (root.fs(), a.fs());
    assert!(Arc::ptr_eq(&fs, &same));
    let kept = memory.see(|kept| kept.times);
    drop((fs, same, root, a));
    assert_eq!(memory.see(|kept| kept.times), kept + 1);
    let (_, again) = open(memory.see(|kept| kept.bytes.clone())).unwrap();
    assert_eq!(again.root_inode().find("a").unwrap().metadata().unwrap().mode, 0o600);
}

#[test]
fn errors_of_drops_are_told() {
    let (memory, mount) = fresh(64);
    memory.see(|kept| kept.broken = true);
    assert_eq!(mount.sync(), Err(FsError::DeviceError(28)));
    assert_eq!(root(&mount).sync_data(), Err(FsError::DeviceError(28)));
    assert_eq!(memory.see(|kept| kept.reports.len()), 0);
    drop(mount);
    assert_eq!(memory.see(|kept| std::mem::take(&mut kept.reports)), [FsError::DeviceError(28)]);
}

// ---- where SEFS breaks off

#[test]
fn the_parent_of_a_removed_folder() {
    let (_, mount) = fresh(64);
    let root = root(&mount);
    let a = folder(&root, "a");
    root.unlink("a").unwrap();
    assert_eq!(no(a.find("..")), FsError::DirRemoved);
    assert_eq!(no(a.lookup("../b")), FsError::DirRemoved);
    assert!(Arc::ptr_eq(&a.find(".").unwrap(), &a));
}

#[test]
fn no_room() {
    let (memory, mount) = fresh(20);
    let root = root(&mount);
    let a = file(&root, "a");
    let made = (0..).take_while(|n| root.create(&n.to_string(), FileType::Dir, 0).is_ok()).count();
    assert!((1..5).contains(&made));
    assert_eq!(no(root.create("z", FileType::Dir, 0)), FsError::NoDeviceSpace);
    assert_eq!(a.write_at(0, &[1; 9000]), Err(FsError::NoDeviceSpace));
    assert_eq!(a.metadata().unwrap().size, 0);
    drop((root, a));
    assert!(mount.check().is_ok());
    assert_eq!(memory.see(|kept| kept.reports.len()), 0);
}

#[test]
fn places_at_the_end_of_numbers() {
    let (_, mount) = fresh(64);
    let a = file(&root(&mount), "a");
    assert_eq!(a.write_at(usize::MAX, b"x"), Err(FsError::FileTooBig));
    assert_eq!(a.write_at(4_294_967_295, b"x"), Err(FsError::FileTooBig));
    assert_eq!(a.resize(usize::MAX), Err(FsError::FileTooBig));
    assert_eq!(a.resize(4_294_967_295), Ok(()));
    assert_eq!(a.read_at(usize::MAX, &mut [0; 10]), Ok(0));
}

fn always_the_same() -> [u8; 16] {
    [7; 16]
}

#[test]
fn a_file_name_that_is_taken() {
    let mount = Mount::create(Box::new(common::Memory::default()), 64, &common::Clock, &always_the_same).unwrap();
    assert_eq!(no(root(&mount).create("a", FileType::File, 0)), FsError::DeviceError(EEXIST));
    assert!(mount.check().is_ok());
}

struct Nothing;

impl Device for Nothing {
    fn load(&self) -> DevResult<Vec<u8>> {
        Err(rcore_fs::dev::DevError(2))
    }

    fn keep(&self, _: &[u8]) -> DevResult<()> {
        Ok(())
    }
}

#[test]
fn what_is_no_image() {
    let opened = |bytes| open(bytes).map(|_| ()).unwrap_err();
    assert_eq!(opened(vec![]), FsError::WrongFs);
    assert_eq!(opened(vec![1; 8192]), FsError::WrongFs);
    assert_eq!(opened(vec![0; 8192]), FsError::DeviceError(EIO));
    let no_device = Mount::open(Box::new(Nothing), &common::Clock, &common::file_name).map(|_| ()).unwrap_err();
    assert_eq!(no_device, FsError::DeviceError(2));
    let recovered = |device: Box<dyn Device>| Mount::recover(device, &common::Clock, &common::file_name).map(|_| ()).unwrap_err();
    assert_eq!(recovered(Box::new(Nothing)), FsError::DeviceError(2));
    assert_eq!(recovered(Box::new(common::Memory::of(vec![1; 8192]))), FsError::WrongFs);
    let too_small = Mount::create(Box::new(Nothing), 15, &common::Clock, &common::file_name).map(|_| ()).unwrap_err();
    assert_eq!(too_small, FsError::WrongFs);
}

/// A node was out, and removed, when the image was kept last: recovered, its number and its room are free again, and all else is there.
#[test]
fn after_the_enclave_went_down() {
    let (memory, mount) = fresh(64);
    let root = root(&mount);
    file(&root, "a").write_at(0, b"outline").unwrap();
    mount.sync().unwrap();
    let free = free(&mount);
    let out = file(&root, "b");
    out.write_at(0, &[1; 2000]).unwrap();
    root.unlink("b").unwrap();
    mount.sync().unwrap();
    let bytes = memory.see(|kept| kept.bytes.clone());

    let (_, opened) = open(bytes.clone()).unwrap();
    assert_eq!(opened.check(), Err(FailedRule::Links));
    let memory = common::Memory::of(bytes);
    let recovered = Mount::recover(Box::new(memory.clone()), &common::Clock, &common::file_name).unwrap();
    assert!(recovered.image(|image| image.is_trusted()));
    assert_eq!(recovered.check().map(|counts| (counts.nodes, counts.free)), Ok((2, free)));
    assert_eq!(recovered.root_inode().find("a").unwrap().read_as_vec().unwrap(), b"outline");
    assert_eq!(no(recovered.root_inode().find("b")), FsError::EntryNotFound);
    // it was kept, and there is nothing left to mend
    let kept = memory.see(|kept| kept.bytes.clone());
    assert!(open(kept.clone()).unwrap().1.check().is_ok());
    drop(recovered);
    assert_eq!(memory.see(|kept| kept.bytes.clone()), kept);
}

/// Changes some bytes of a block's payload, and its check with them.
fn changed(mut bytes: Vec<u8>, block: impl Fn(&[u8]) -> bool, at: usize, to: &[u8]) -> Vec<u8> {
    let block = bytes.chunks_exact_mut(512).find(|b| block(b)).unwrap();
    block[24 + at..][..to.len()].copy_from_slice(to);
    let check: u32 = block[..508].iter().zip(1..).map(|(b, i)| i * u32::from(*b)).sum();
    block[508..].copy_from_slice(&check.to_le_bytes());
    bytes
}

/// The metadata file's first block: superblock, map, and the first half of the root's record.
fn first_block(block: &[u8]) -> bool {
    block[..2] == [2, 0] && block[20..24] == [0; 4]
}

#[test]
fn a_damaged_image_is_mounted() {
    let (memory, mount) = fresh(64);
    file(&root(&mount), "a");
    mount.sync().unwrap();
    let bytes = memory.see(|kept| kept.bytes.clone());
    // The number of node 3 is free: SEFS asserts when the name is looked up.
    let (_, hurt) = open(changed(bytes.clone(), first_block, 128, &[248])).unwrap();
    assert_eq!(hurt.check(), Err(FailedRule::Superblock));
    assert_eq!(no(root(&hurt).find("a")), FsError::DeviceError(EIO));
    // So is the root's: there is none, and each call of it says so.
    let (memory, hurt) = open(changed(bytes.clone(), first_block, 128, &[252])).unwrap();
    assert_eq!(root(&hurt).metadata(), Err(FsError::DeviceError(EIO)));
    assert_eq!(no(root(&hurt).find("a")), FsError::DeviceError(EIO));
    drop(hurt);
    assert_eq!(memory.see(|kept| kept.reports.len()), 0);
    // Another magic.
    assert_eq!(open(changed(bytes, first_block, 0, &[0])).map(|_| ()).unwrap_err(), FsError::WrongFs);
}
