//! Each reason through the Rust types. A refusal leaves every byte of image and table.
mod common;

use common::damage::{self, record, superblock, table};
use common::{create, file, fresh, mine, names, Mine, ROOT_FILE, TIME};
use dzomrelig::{
    Attributes, Editor, FailedRule, Handle, Image, Kind, NewKind, NoReason, Place, Reason, Unfit, BLOCK, FILE_LONGEST, LINKS_MOST,
    NAME_LONGEST, OWN_HOLDS, SLOT, TABLE,
};

type Call = fn(&mut Mine, Handle, &[u8]) -> Option<Reason>;

/// The calls that take a table: those with no handle, those with one (of any node, with contents, of a folder), and those with a name beside it.
const CALLS: [Call; 25] = [
    |i, _, _| i.root().err(),
    |i, _, _| i.sync().err(),
    |i, _, _| i.mend().err(),
    |i, h, _| i.metadata(h).err(),
    |i, h, _| i.set_metadata(h, &Attributes::default()).err(),
    |i, h, _| i.close(h).err(),
    |i, h, _| i.read_at(h, 0, &mut [0; 8]).err(),
    |i, h, _| i.read_to_vec(h).err(),
    |i, h, _| i.write_at(h, 0, "a").err(),
    |i, h, _| i.resize(h, 1).err(),
    |i, h, _| i.zero_range(h, 0, 1).err(),
    |i, h, _| i.entry(h, 0).err(),
    |i, h, _| i.entry_into(h, 0, &mut [0; SLOT]).err(),
    |i, h, _| i.list(&mut Place::new(h), &mut [0; SLOT]).err(),
    |i, h, _| i.snapshot(h).err(),
    |i, h, _| i.path(h).err(),
    |i, h, _| i.path_into(h, &mut []).err(),
    |i, h, name| i.find(h, name).err(),
    |i, h, name| i.walk(h, name, &mut [0; 8]).err(),
    |i, h, name| i.create(h, name, NewKind::File, 0, TIME, file(1)).err(),
    |i, h, name| i.link(h, name, h).err(),
    |i, h, name| i.remove_file(h, name).err(),
    |i, h, name| i.remove_folder(h, name).err(),
    |i, h, name| i.rename(h, name, h, "b").err(),
    |i, h, name| i.rename(h, "b", h, name).err(),
];
const HANDLES: usize = 3;
const CONTENTS: usize = 6;
const FOLDERS: usize = 11;
const NAMES: usize = 17;

/// Where the table has its holds: row, stamp, owner.
const HOLD: usize = 34 * 117;

/// The call is refused for this reason, and nothing has changed.
fn no<T: std::fmt::Debug>(image: &mut Mine, reason: Reason, call: impl FnOnce(&mut Mine) -> Result<T, Reason>) {
    let before = image.clone();
    assert_eq!(call(image).unwrap_err(), reason);
    assert!(image.bytes() == before.bytes() && image.table() == before.table(), "{reason} changed something");
}

/// Each of these calls is refused for this reason.
fn each_no(image: &mut Mine, reason: Reason, h: Handle, name: &[u8], calls: &[Call]) {
    for call in calls {
        no(image, reason, |image| call(image, h, name).map_or(Ok(()), Err));
    }
}

/// Each of the calls from one on is refused for this reason.
fn all_no(image: &mut Mine, reason: Reason, h: Handle, name: &[u8], from: usize) {
    each_no(image, reason, h, name, &CALLS[from..]);
}

#[test]
fn bad_arena() {
    let (image, root) = fresh(16);
    for length in [0, 1, 15 * BLOCK, 16 * BLOCK + 1, 4097 * BLOCK] {
        let mut wrong = mine(Image::from_parts(vec![0; length], *image.table()));
        all_no(&mut wrong, Reason::BadArena, root, b"a", 0);
        no(&mut wrong, Reason::BadArena, |i| i.reformat(TIME, ROOT_FILE));
        no(&mut wrong, Reason::BadArena, |i| i.reopen());
        no(&mut wrong, Reason::BadArena, |i| i.inventory());
        assert_eq!(wrong.check(), Err(FailedRule::Arena));
        assert_eq!(Image::untrusted(vec![0; length]).unwrap_err(), Reason::BadArena);
        assert_eq!(Image::recovered(vec![0; length]).unwrap_err(), Reason::BadArena);
        assert_eq!(Image::checked(vec![0; length]).unwrap_err(), Unfit::Refused(Reason::BadArena));
    }
}

#[test]
fn damaged() {
    let (image, root) = fresh(16);
    let mut bytes = image.bytes().to_vec();
    bytes[15 * BLOCK + 100] ^= 1;
    let mut wrong = mine(Image::from_parts(bytes.clone(), *image.table()));
    all_no(&mut wrong, Reason::Damaged, root, b"a", 0);
    no(&mut wrong, Reason::Damaged, |i| i.reopen());
    no(&mut wrong, Reason::Damaged, |i| i.inventory());
    assert_eq!(wrong.check(), Err(FailedRule::Arena));
    assert_eq!(Image::recovered(&*bytes).unwrap_err(), Reason::Damaged);
    assert_eq!(Image::checked(bytes).unwrap_err(), Unfit::Refused(Reason::Damaged));
    wrong.reformat(TIME, ROOT_FILE).unwrap();
    assert!(wrong.check().is_ok());
}

#[test]
fn bad_table() {
    let (image, root) = fresh(16);
    // no next stamp; a row that nobody holds
    let mut held = *image.table();
    held[HOLD..HOLD + 13].fill(0);
    // owners that are none; a free hold with an owner; nine of one owner
    let owned = |owner: u8, hold: usize| {
        let mut table = *image.table();
        table[HOLD + 13 * hold + 12] = owner;
        table
    };
    let mut nine = *image.table();
    for hold in 0..9 {
        let at = HOLD + 13 * hold;
        nine[at + 4] = 1 + hold as u8;
        nine[at + 12] = 1;
    }
    nine[TABLE - 8] = 99;
    for table in [[0; TABLE], held, [255; TABLE], owned(0, 0), owned(5, 0), owned(1, 1), nine] {
        let mut wrong = mine(Image::from_parts(image.bytes(), table));
        all_no(&mut wrong, Reason::BadTable, root, b"a", 0);
        assert_eq!(wrong.check(), Err(FailedRule::Table));
        // the inventory is of what is stored
        assert_eq!(wrong.inventory(), Ok(vec![]));
        wrong.reopen().unwrap();
        assert!(wrong.check().is_ok());
    }
    nine[HOLD + 13 * 8 + 12] = 2;
    assert!(Image::from_parts(image.bytes(), nine).check().is_ok());
}

#[test]
fn bad_handle() {
    let (mut image, root) = fresh(16);
    let closed = create(&mut image, root, "a", NewKind::File).unwrap();
    image.close(closed).unwrap();
    let made_up = [(0, 0), (0, 2), (7, 7), (32, 1), (u32::MAX, u64::MAX)].map(|(hold, stamp)| Handle { hold, stamp });
    for h in made_up.into_iter().chain([closed]) {
        all_no(&mut image, Reason::BadHandle, h, b"\0", HANDLES);
    }
    no(&mut image, Reason::BadHandle, |i| i.link(root, "b", closed));
    no(&mut image, Reason::BadHandle, |i| i.rename(root, "a", closed, "b"));
}

/// Who asks: 6 for none of the four, right after 3; 4 for another's handle, either one.
#[test]
fn owners() {
    let (mut image, root) = fresh(16);
    let mut hers = Editor::numbered(&mut *image, 2);
    let her_root = hers.root().unwrap();
    for who in [0, 5, u8::MAX] {
        let mut nobody = Editor::numbered(image.clone().into_inner(), who);
        each_no(&mut nobody, Reason::InvalidParam, root, b"\0", &CALLS[..1]);
        all_no(&mut nobody, Reason::InvalidParam, root, b"\0", HANDLES);
        let mut wrong = Editor::numbered(Box::new(Image::from_parts(image.bytes(), [0; TABLE])), who);
        all_no(&mut wrong, Reason::BadTable, root, b"a", 0);
        nobody.sync().unwrap();
    }
    let mut other = Editor::numbered(image.clone().into_inner(), 3);
    all_no(&mut other, Reason::BadHandle, root, b"\0", HANDLES);
    all_no(&mut image, Reason::BadHandle, her_root, b"\0", HANDLES);
    no(&mut image, Reason::BadHandle, |i| i.link(root, "b", her_root));
    no(&mut image, Reason::BadHandle, |i| i.rename(root, "a", her_root, "b"));
}

#[test]
fn bad_name() {
    let (mut image, root) = fresh(16);
    let bad: [&[u8]; 8] = [b"\0", b"a\0b", b"\x80", b"a\xc3", b"\xc0\xaf", b"\xed\xa0\x80", b"\xf4\x90\x80\x80", b"\xff"];
    for name in bad {
        all_no(&mut image, Reason::BadName, root, name, NAMES);
    }
    // names of other scripts, and one of 255 bytes
    for name in ["é", "字", "𝒻", &"n".repeat(NAME_LONGEST)] {
        let made = create(&mut image, root, name, NewKind::File).unwrap();
        image.remove_file(root, name).unwrap();
        image.close(made).unwrap();
    }
}

/// A slash in a new name, before all that follows; stored ones are found, listed, renamed and removed.
#[test]
fn slashes() {
    let (mut image, root) = fresh(32);
    let i = &mut image;
    let a = create(i, root, "a", NewKind::File).unwrap();
    for name in ["/", "a/b", &"/".repeat(300)] {
        no(i, Reason::BadName, |i| create(i, root, name, NewKind::File));
        no(i, Reason::BadName, |i| i.create_numbered(a, name, 5, 0, TIME, file(1)));
        no(i, Reason::BadName, |i| i.link(root, name, a));
        no(i, Reason::BadName, |i| i.rename(root, "none", a, name));
    }
    for name in ["a/b", "/"] {
        no(i, Reason::EntryNotFound, |i| i.find(root, name));
        no(i, Reason::EntryNotFound, |i| i.remove_file(root, name));
        no(i, Reason::EntryNotFound, |i| i.remove_folder(root, name));
        no(i, Reason::EntryNotFound, |i| i.rename(root, name, root, "b"));
    }
    for name in ["c-d", "e-f"] {
        let made = create(i, root, name, NewKind::File).unwrap();
        i.close(made).unwrap();
    }
    // an older release stored these
    let mut bytes = i.bytes().to_vec();
    for slot in [3, 4] {
        damage::write(&mut bytes, Some(ROOT_FILE), SLOT * slot + 5, b"/");
    }
    let i = &mut mine(Image::from_parts(bytes, *i.table()));
    assert!(i.check().is_ok());
    assert_eq!(names(i, root), ["a", "c/d", "e/f"]);
    no(i, Reason::BadName, |i| i.rename(root, "c/d", root, "c/d"));
    let found = i.find(root, "c/d").unwrap();
    i.close(found).unwrap();
    i.rename(root, "c/d", root, "cd").unwrap();
    i.remove_file(root, "e/f").unwrap();
    assert_eq!(names(i, root), ["a", "cd"]);
    assert!(i.check().is_ok());
}

#[test]
fn invalid_param() {
    let (mut image, root) = fresh(16);
    for kind in [0, 5, u32::MAX] {
        assert_eq!(Kind::try_from(kind), Err(Reason::InvalidParam));
        no(&mut image, Reason::InvalidParam, |i| i.create_numbered(root, "a", kind, 0, TIME, file(1)));
        no(&mut image, Reason::BadName, |i| i.create_numbered(root, "\0", kind, 0, TIME, file(1)));
    }
    image.create_numbered(root, "a", 3, 0, TIME, file(1)).unwrap();
}

/// Type 4 in a create, in the place of a type that is none; stored sockets are found, read, written, linked, renamed and removed.
#[test]
fn sockets() {
    let (mut image, root) = fresh(32);
    let a = create(&mut image, root, "a", NewKind::File).unwrap();
    for (folder, name) in [(root, "s"), (root, "a"), (a, "s")] {
        no(&mut image, Reason::InvalidParam, |i| i.create_numbered(folder, name, Kind::Socket.number(), 0, TIME, file(1)));
    }
    no(&mut image, Reason::BadName, |i| i.create_numbered(root, "/", Kind::Socket.number(), 0, TIME, file(1)));
    image.close(a).unwrap();
    // an older release stored this
    let mut bytes = image.bytes().to_vec();
    damage::record(&mut bytes, 3, damage::TYPE, &[4]);
    damage::write(&mut bytes, Some(ROOT_FILE), SLOT * 2 + 260, &[4]);
    let i = &mut mine(Image::from_parts(bytes, *image.table()));
    assert!(i.check().is_ok());
    assert_eq!(i.entry(root, 2).unwrap().kind, Some(Kind::Socket));
    let s = i.find(root, "a").unwrap();
    assert_eq!(i.metadata(s).unwrap().kind, Kind::Socket);
    i.write_at(s, 1, "bytes").unwrap();
    assert_eq!(i.read_to_vec(s).unwrap(), b"\0bytes");
    i.link(root, "b", s).unwrap();
    i.rename(root, "a", root, "c").unwrap();
    i.remove_file(root, "b").unwrap();
    assert_eq!(names(i, root), ["c"]);
    i.close(s).unwrap();
    assert!(i.check().is_ok());
}

/// A folder into itself or below, after the reasons that names and types give. Where `..` goes round the call is stuck.
#[test]
fn below_itself() {
    let (mut image, root) = fresh(32);
    let i = &mut image;
    let a = i.create(root, "a", NewKind::Folder, 0, TIME, file(1)).unwrap();
    let b = i.create(a, "b", NewKind::Folder, 0, TIME, file(2)).unwrap();
    for (to, name) in [(a, "x"), (b, "x"), (a, "b")] {
        no(i, Reason::InvalidParam, |i| i.rename(root, "a", to, name));
    }
    create(i, b, "leaf", NewKind::File).unwrap();
    no(i, Reason::EntryNotFound, |i| i.rename(root, "x", b, "y"));
    no(i, Reason::NotDir, |i| i.rename(root, "a", b, "leaf"));
    no(i, Reason::DirNotEmpty, |i| i.rename(root, "a", a, "b"));
    create(i, root, "c", NewKind::Folder).unwrap();

    // slot 1 of a, node 3, names b, node 4
    let mut bytes = i.bytes().to_vec();
    damage::write(&mut bytes, Some(file(1)), SLOT, &[4]);
    let mut round = mine(Image::from_parts(bytes, *i.table()));
    no(&mut round, Reason::Stuck, |i| i.rename(root, "c", b, "c"));
    no(&mut round, Reason::InvalidParam, |i| i.rename(root, "a", b, "x"));
    round.rename(root, "c", root, "d").unwrap();
    round.rename(b, "leaf", a, "leaf").unwrap();
}

#[test]
fn by_call() {
    let (mut image, root) = fresh(32);
    let i = &mut image;
    let leaf = create(i, root, "leaf", NewKind::File).unwrap();
    let gone = create(i, root, "gone", NewKind::Folder).unwrap();
    let full = create(i, root, "full", NewKind::Folder).unwrap();
    create(i, full, "x", NewKind::File).unwrap();
    i.remove_folder(root, "gone").unwrap();

    all_no(i, Reason::NotDir, leaf, b"a", FOLDERS);
    no(i, Reason::NotDir, |i| i.rename(root, "leaf", leaf, "a"));
    no(i, Reason::NotDir, |i| i.rename(root, "full", root, "leaf"));

    all_no(i, Reason::DirRemoved, gone, b"a", NAMES + 2);
    no(i, Reason::DirRemoved, |i| i.find(gone, ".."));
    no(i, Reason::DirRemoved, |i| i.rename(root, "leaf", gone, "a"));

    for name in ["", ".", ".."] {
        no(i, Reason::IsDir, |i| i.remove_file(root, name));
        no(i, Reason::IsDir, |i| i.remove_folder(root, name));
        no(i, Reason::IsDir, |i| i.rename(root, name, root, "a"));
        no(i, Reason::IsDir, |i| i.rename(root, "leaf", root, name));
    }
    no(i, Reason::IsDir, |i| i.link(root, "a", full));
    no(i, Reason::IsDir, |i| i.rename(root, "leaf", root, "full"));

    all_no(i, Reason::NameTooLong, root, &[b'n'; NAME_LONGEST + 1], NAMES);

    no(i, Reason::EntryNotFound, |i| i.find(root, "a"));
    no(i, Reason::EntryNotFound, |i| i.remove_file(root, "a"));
    no(i, Reason::EntryNotFound, |i| i.remove_folder(root, "a"));
    no(i, Reason::EntryNotFound, |i| i.rename(root, "a", root, "b"));
    no(i, Reason::EntryNotFound, |i| i.entry(root, 4));
    no(i, Reason::EntryNotFound, |i| i.entry(root, u64::MAX));

    for name in ["leaf", "full", "", ".", ".."] {
        no(i, Reason::EntryExist, |i| create(i, root, name, NewKind::File));
        no(i, Reason::EntryExist, |i| i.link(root, name, leaf));
    }

    // the call for the other kind: after EntryNotFound, before DirNotEmpty
    no(i, Reason::IsDir, |i| i.remove_file(root, "full"));
    no(i, Reason::NotDir, |i| i.remove_folder(root, "leaf"));
    no(i, Reason::DirNotEmpty, |i| i.remove_folder(root, "full"));
    create(i, root, "other", NewKind::Folder).unwrap();
    no(i, Reason::DirNotEmpty, |i| i.rename(root, "other", root, "full"));

    no(i, Reason::FileTaken, |i| i.create(root, "a", NewKind::File, 0, TIME, ROOT_FILE));

    for room in [0, SLOT - 1] {
        no(i, Reason::OutFull, |i| i.entry_into(root, 0, &mut vec![0; room]));
        let mut place = Place::new(root);
        no(i, Reason::OutFull, |i| i.list(&mut place, &mut vec![0; room]));
        assert_eq!(place, Place::new(root));
    }
    assert_eq!(i.check().unwrap().nodes, 6);
}

/// The calls of order 1, with a place or length: 21, then 22; then 17, and 19.
#[test]
fn contents() {
    let (mut image, root) = fresh(16);
    let i = &mut image;
    let a = create(i, root, "a", NewKind::File).unwrap();
    each_no(i, Reason::NotFile, root, b"", &CALLS[CONTENTS..FOLDERS]);
    no(i, Reason::NotFile, |i| i.write_at(root, u64::MAX, "a"));
    no(i, Reason::NotFile, |i| i.resize(root, u64::MAX));
    for (place, data) in [(FILE_LONGEST, "a"), (FILE_LONGEST + 1, ""), (u64::MAX, ""), (u64::MAX, "ab")] {
        no(i, Reason::FileTooBig, |i| i.write_at(a, place, data));
    }
    for length in [FILE_LONGEST + 1, u64::MAX] {
        no(i, Reason::FileTooBig, |i| i.resize(a, length));
    }
    let free = i.check().unwrap().free as usize;
    for (place, length) in [(0, 480 * free + 1), (479, 480 * free)] {
        no(i, Reason::NoDeviceSpace, |i| i.write_at(a, place, vec![9; length]));
    }
    i.write_at(a, 480, vec![9; 480 * free]).unwrap();
    no(i, Reason::NoDeviceSpace, |i| i.write_at(a, 479, "ab"));
    i.resize(a, 480).unwrap();
    i.write_at(a, 479, "ab").unwrap();
    i.sync().unwrap();

    // the file is not there
    let mut bytes = i.bytes().to_vec();
    let table = *i.table();
    for block in bytes.chunks_exact_mut(BLOCK).filter(|b| b[1] == 1 && b[4..20] != ROOT_FILE.0) {
        block[4] ^= 255;
        damage::seal(block);
    }
    let mut lost = mine(Image::from_parts(bytes, table));
    each_no(&mut lost, Reason::Stuck, a, b"", &CALLS[CONTENTS..FOLDERS]);
    no(&mut lost, Reason::Stuck, |i| i.write_at(a, 0, ""));
    no(&mut lost, Reason::FileTooBig, |i| i.resize(a, u64::MAX));

    // a size that no file can have: the bytes past the file are zeros, and there is no vector for all of them
    let mut bytes = image.into_inner().into_bytes();
    record(&mut bytes, 3, damage::SIZE, &[255; 8]);
    let mut image = mine(Image::untrusted(bytes.clone()).unwrap());
    let root = image.root().unwrap();
    let a = image.find(root, "a").unwrap();
    let mut out = [238; 8];
    assert_eq!(image.read_at(a, u64::MAX - 4, &mut out), Ok(4));
    assert_eq!(out, [0, 0, 0, 0, 238, 238, 238, 238]);
    no(&mut image, Reason::FileTooBig, |i| i.read_to_vec(a));
    assert_eq!(image.check(), Err(FailedRule::Folders));

    // type 0
    record(&mut bytes, 3, damage::TYPE, &[0]);
    let mut image = mine(Image::untrusted(bytes).unwrap());
    let root = image.root().unwrap();
    let a = image.find(root, "a").unwrap();
    each_no(&mut image, Reason::NotFile, a, b"", &CALLS[CONTENTS..FOLDERS]);
}

/// What refuses a walk, and which targets stand in the link buffer then.
#[test]
fn walks() {
    let (mut image, root) = fresh(64);
    let i = &mut image;
    for (n, (name, target)) in (1..).zip([("a", "b/none"), ("here", "."), ("round", "round"), ("bad", "x//y"), ("empty", "")]) {
        let link = i.create(root, name, NewKind::Symlink, 0o777, TIME, file(n)).unwrap();
        i.write_at(link, 0, target).unwrap();
        i.close(link).unwrap();
    }
    let b = create(i, root, "b", NewKind::Folder).unwrap();
    let leaf = create(i, b, "leaf", NewKind::File).unwrap();
    let mut stops = |reason, h, path: &str, room, targets: &str| {
        let mut links = vec![238; room];
        no(i, reason, |i| i.walk(h, path, &mut links));
        assert_eq!(&links[..targets.len()], targets.as_bytes(), "{path}");
        assert!(links[targets.len()..].iter().all(|&byte| byte == 238), "{path}");
    };
    for path in ["", "//", "b/", "/b/", "b//leaf", "//b", "none//"] {
        stops(Reason::BadName, root, path, 9, "");
    }
    stops(Reason::BadName, root, "here/bad/x", 9, ".x//y");
    stops(Reason::BadName, root, "here/empty", 9, ".");
    stops(Reason::NotDir, root, "b/leaf/x", 9, "");
    stops(Reason::NotDir, leaf, "x", 9, "");
    stops(Reason::NameTooLong, root, &format!("b/{}/x", "n".repeat(NAME_LONGEST + 1)), 9, "");
    stops(Reason::EntryNotFound, root, "b/none/x", 9, "");
    stops(Reason::EntryNotFound, root, "here/a", 9, ".b/none");
    stops(Reason::OutFull, root, "a", 5, "");
    stops(Reason::OutFull, root, "here/a", 6, ".");
    stops(Reason::SymLoop, root, &["here"; LINKS_MOST + 1].join("/"), 8, "........");
    stops(Reason::SymLoop, root, "round", 40, &"round".repeat(LINKS_MOST));
    let folders: Vec<_> = (3..OWN_HOLDS).map(|_| i.root().unwrap()).collect();
    assert_eq!(folders.len(), 5);
    let mut links = [238; 8];
    no(i, Reason::TableFull, |i| i.walk(root, "here/b/leaf", &mut links));
    assert_eq!(links[0], b'.');
    no(i, Reason::EntryNotFound, |i| i.walk(root, "a", &mut links));
    i.remove_file(b, "leaf").unwrap();
    i.remove_folder(root, "b").unwrap();
    no(i, Reason::DirRemoved, |i| i.walk(b, "..", &mut []));
    i.close(folders[0]).unwrap();
    i.walk(b, "/here", &mut links).unwrap();
}

#[test]
fn too_many_links() {
    let (mut image, root) = fresh(32);
    create(&mut image, root, "a", NewKind::File).unwrap();
    create(&mut image, root, "c", NewKind::Folder).unwrap();
    create(&mut image, root, "d", NewKind::Folder).unwrap();
    let mut bytes = image.into_inner().into_bytes();
    record(&mut bytes, 3, damage::LINKS, &[255; 2]);
    record(&mut bytes, 4, damage::LINKS, &[255; 2]);
    assert_eq!(Image::checked(bytes.clone()).unwrap_err(), Unfit::Fails(FailedRule::Links));
    let mut image = mine(Image::untrusted(bytes).unwrap());
    let root = image.root().unwrap();
    let (a, c) = (image.find(root, "a").unwrap(), image.find(root, "c").unwrap());
    assert_eq!(image.metadata(a).unwrap().links, u16::MAX);
    no(&mut image, Reason::TooManyLinks, |i| i.link(root, "b", a));
    no(&mut image, Reason::TooManyLinks, |i| create(i, c, "e", NewKind::Folder));
    no(&mut image, Reason::TooManyLinks, |i| i.rename(root, "d", c, "e"));
    create(&mut image, c, "e", NewKind::File).unwrap();
}

#[test]
fn table_full() {
    let (mut image, root) = fresh(16);
    create(&mut image, root, "a", NewKind::File).unwrap();
    for _ in 2..OWN_HOLDS {
        image.root().unwrap();
    }
    no(&mut image, Reason::TableFull, |i| i.root());
    no(&mut image, Reason::TableFull, |i| i.find(root, "a"));
    no(&mut image, Reason::TableFull, |i| create(i, root, "b", NewKind::File));
    // the others still get theirs, and these alone
    for who in 2..=4 {
        let mut other = Editor::numbered(&mut *image, who);
        for _ in 0..OWN_HOLDS {
            other.root().unwrap();
        }
        assert_eq!(other.root(), Err(Reason::TableFull));
    }
    assert!(image.check().is_ok());
    image.close(root).unwrap();
    assert_eq!(Editor::numbered(&mut *image, 2).root(), Err(Reason::TableFull));
    image.root().unwrap();
    // the last stamp
    let mut image = mine(Image::from_parts(image.bytes(), table(u64::MAX - 1)));
    assert_eq!(image.root().unwrap(), Handle { hold: 0, stamp: u64::MAX - 1 });
    no(&mut image, Reason::TableFull, |i| i.root());
}

#[test]
fn no_device_space() {
    let (mut image, root) = fresh(16);
    let a = create(&mut image, root, "a", NewKind::File).unwrap();
    create(&mut image, root, "b", NewKind::File).unwrap();
    let c = create(&mut image, root, "c", NewKind::Folder).unwrap();
    create(&mut image, root, "d", NewKind::Folder).unwrap();
    image.link(root, "e", a).unwrap();
    no(&mut image, Reason::NoDeviceSpace, |i| i.link(root, "f", a));
    no(&mut image, Reason::NoDeviceSpace, |i| create(i, root, "f", NewKind::File));
    image.rename(root, "a", c, "a").unwrap();
    no(&mut image, Reason::NoDeviceSpace, |i| i.rename(root, "b", c, "b"));
    assert!(image.check().is_ok());
}

#[test]
fn wrong_fs() {
    for (field, value) in [(damage::MAGIC, 1), (damage::GROUPS, 0), (damage::GROUPS, 5)] {
        let (image, _) = fresh(16);
        let table = *image.table();
        let mut bytes = image.into_inner().into_bytes();
        superblock(&mut bytes, field, value);
        assert_eq!(Image::untrusted(bytes.clone()).unwrap_err(), Reason::WrongFs);
        assert_eq!(Image::checked(bytes.clone()).unwrap_err(), Unfit::Refused(Reason::WrongFs));
        let mut image = mine(Image::from_parts(bytes, table));
        no(&mut image, Reason::WrongFs, |i| i.reopen());
        no(&mut image, Reason::WrongFs, |i| i.inventory());
        assert_eq!(image.check(), Err(FailedRule::Superblock));
    }
}

#[test]
fn stuck() {
    let (mut image, root) = fresh(16);
    let a = create(&mut image, root, "a", NewKind::File).unwrap();
    image.close(a).unwrap();
    let mut bytes = image.into_inner().into_bytes();
    record(&mut bytes, 3, damage::TYPE, &[5]);
    let mut image = mine(Image::untrusted(bytes.clone()).unwrap());
    let root = image.root().unwrap();
    no(&mut image, Reason::Stuck, |i| i.find(root, "a"));
    no(&mut image, Reason::Stuck, |i| i.remove_file(root, "a"));
    no(&mut image, Reason::Stuck, |i| i.remove_folder(root, "a"));
    assert_eq!(image.check(), Err(FailedRule::Nodes));
    // type 0 can be found, and has no metadata
    record(&mut bytes, 3, damage::TYPE, &[0]);
    let mut image = mine(Image::untrusted(bytes.clone()).unwrap());
    let root = image.root().unwrap();
    let a = image.find(root, "a").unwrap();
    no(&mut image, Reason::Stuck, |i| i.metadata(a));
    no(&mut image, Reason::Stuck, |i| i.link(root, "b", a));
    // a slot of type 0 is given by its number, and listed never
    damage::write(&mut bytes, Some(ROOT_FILE), 2 * SLOT + 260, &[0]);
    let mut image = mine(Image::untrusted(bytes.clone()).unwrap());
    let root = image.root().unwrap();
    assert_eq!(image.entry(root, 2).unwrap().kind, None);
    no(&mut image, Reason::Stuck, |i| i.snapshot(root));
    // a name that is not UTF-8
    damage::write(&mut bytes, Some(ROOT_FILE), 2 * SLOT + 4, &[255]);
    let mut image = mine(Image::untrusted(bytes.clone()).unwrap());
    let root = image.root().unwrap();
    no(&mut image, Reason::Stuck, |i| i.entry(root, 2));
    // no root; no files at all
    superblock(&mut bytes, damage::UNUSED, 0);
    record(&mut bytes, 2, damage::FILE, &[9; 16]);
    let mut image = mine(Image::untrusted(bytes).unwrap());
    no(&mut image, Reason::Stuck, |i| i.root());
    assert_eq!(image.check(), Err(FailedRule::Superblock));
    assert_eq!(Image::untrusted(vec![0; 16 * BLOCK]).unwrap_err(), Reason::Stuck);
    assert_eq!(Image::checked(vec![0; 16 * BLOCK]).unwrap_err(), Unfit::Refused(Reason::Stuck));
}

/// Each rule that fails, but 1, 2 and 8, which stand above and in the calls' tests.
#[test]
fn failed_rules() {
    type Wrong = fn(&mut Vec<u8>);
    let wrongs: [(FailedRule, Wrong); 6] = [
        (FailedRule::Superblock, |b| superblock(b, damage::UNUSED, 7)),
        (FailedRule::Maps, |b| {
            damage::write(b, None, 128, &[0xF1]);
            superblock(b, damage::UNUSED, 1021);
        }),
        (FailedRule::Nodes, |b| record(b, 3, damage::FILE, &[9; 16])),
        (FailedRule::Folders, |b| damage::write(b, Some(ROOT_FILE), 2 * SLOT + 4, b".")),
        (FailedRule::Folders, |b| record(b, 3, damage::SIZE, &[1])),
        (FailedRule::Links, |b| record(b, 3, damage::LINKS, &[2])),
    ];
    for (rule, wrong) in wrongs {
        let (mut image, root) = fresh(16);
        create(&mut image, root, "a", NewKind::File).unwrap();
        let mut bytes = image.into_inner().into_bytes();
        wrong(&mut bytes);
        assert_eq!(Image::untrusted(bytes.clone()).unwrap().inventory(), Err(Reason::WrongFs));
        assert_eq!(Image::checked(bytes).unwrap_err(), Unfit::Fails(rule));
    }
}

#[test]
fn numbers_names_and_texts() {
    let names = [
        "BadArena",
        "Damaged",
        "BadTable",
        "BadHandle",
        "BadName",
        "InvalidParam",
        "NotDir",
        "DirRemoved",
        "IsDir",
        "NameTooLong",
        "EntryNotFound",
        "EntryExist",
        "DirNotEmpty",
        "FileTaken",
        "TooManyLinks",
        "TableFull",
        "NoDeviceSpace",
        "WrongFs",
        "Stuck",
        "OutFull",
        "NotFile",
        "FileTooBig",
        "SymLoop",
        "InUse",
    ];
    assert_eq!(Reason::all().map(Reason::name).collect::<Vec<_>>(), names);
    for (number, reason) in (1..).zip(Reason::all()) {
        assert_eq!((reason.number(), Reason::try_from(number)), (number, Ok(reason)));
        assert!(reason.to_string().starts_with(&format!("{} ({number}): ", reason.name())));
        assert_eq!(format!("{reason:?}"), reason.name());
    }
    for number in [0, 25, 255, u32::MAX] {
        assert_eq!(Reason::try_from(number), Err(NoReason(number)));
    }
    let unknown = Reason::Unknown(255);
    assert_eq!(
        (unknown.number(), unknown.name(), unknown.to_string().as_str()),
        (255, "Unknown", "Unknown (255): a number that no call gives")
    );
    assert_eq!(NoReason(25).to_string(), "25 is no reason's number");
    let errors: [Box<dyn std::error::Error>; 4] = [
        Box::new(Reason::NotDir),
        Box::new(FailedRule::Links),
        Box::new(Unfit::from(Reason::NotDir)),
        Box::new(Unfit::from(FailedRule::Links)),
    ];
    assert_eq!(errors[0].to_string(), "NotDir (7): not a folder");
    assert_eq!(errors[1].to_string(), "the image fails rule 7: each link count is the number of names");
    assert_eq!((errors[0].to_string(), errors[1].to_string()), (errors[2].to_string(), errors[3].to_string()));
    assert_eq!(FailedRule::Unknown(255).number(), 255);
}
