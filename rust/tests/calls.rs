//! Each call through the Rust types.
mod common;

use common::{create, damage, file, fresh, mine, names, Mine, ROOT_FILE, TIME};
use dzomrelig::{
    Attributes, Counts, Editor, Entry, FailedRule, Handle, Image, Kind, NewKind, Owner, Place, Reason, Time, Unfit, BLOCK, BLOCKS_MOST,
    FILE_LONGEST, OWN_HOLDS, SLOT, TABLE,
};

#[test]
fn format() {
    let image = Image::format(16, TIME, ROOT_FILE).unwrap();
    assert_eq!(image.blocks(), 16);
    assert_eq!(image.bytes().len(), 16 * BLOCK);
    assert_eq!(image.check(), Ok(Counts { nodes: 1, unused: 1021, free: 11 }));
    assert_eq!(format!("{image:?}"), "Image { blocks: 16, .. }");
    assert_eq!(Image::format(BLOCKS_MOST, TIME, ROOT_FILE).unwrap().check().unwrap().free, 4091);
    for blocks in [0, 15, BLOCKS_MOST + 1, usize::MAX] {
        assert_eq!(Image::format(blocks, TIME, ROOT_FILE).unwrap_err(), Reason::BadArena);
    }
}

#[test]
fn bytes_go_out_and_come_in() {
    let (mut image, root) = fresh(16);
    create(&mut image, root, "a", NewKind::File).unwrap();
    image.sync().unwrap();
    let bytes = image.bytes().to_vec();
    assert_eq!(image.clone().into_inner().into_bytes(), bytes);
    let mut again = mine(Image::checked(bytes.as_slice()).unwrap());
    assert_eq!(again.metadata(root), Err(Reason::BadHandle));
    let root = again.root().unwrap();
    assert_eq!(names(&again, root), ["a"]);
    assert_eq!(Image::untrusted(bytes).unwrap().check(), Ok(Counts { nodes: 2, unused: 1020, free: 9 }));
    let parts = mine(Image::from_parts(again.bytes(), *again.table()));
    assert_eq!(parts.metadata(root).unwrap().inode, 2);
}

#[test]
fn an_open_removed_node_is_closed_before_the_bytes_are_kept() {
    let (mut image, root) = fresh(16);
    let a = create(&mut image, root, "a", NewKind::File).unwrap();
    image.remove_file(root, "a").unwrap();
    image.sync().unwrap();
    assert!(image.check().is_ok());
    assert_eq!(Image::checked(image.bytes()).unwrap_err(), Unfit::Fails(FailedRule::Links));
    image.close(a).unwrap();
    assert_eq!(Image::checked(image.bytes()).unwrap().check(), Ok(Counts { nodes: 1, unused: 1021, free: 10 }));
}

#[test]
fn checked_says_what_is_wrong() {
    assert_eq!(Image::checked([0; 100]).unwrap_err(), Unfit::Refused(Reason::BadArena));
    let (mut image, root) = fresh(32);
    image.create(root, "a", NewKind::Folder, 0o755, TIME, file(1)).unwrap();
    create(&mut image, root, "b", NewKind::Folder).unwrap();
    // slot 1 of folder a, node 3, names b, node 4
    let mut bytes = image.into_inner().into_bytes();
    damage::write(&mut bytes, Some(file(1)), SLOT, &[4]);
    assert_eq!(Image::checked(bytes.clone()).unwrap_err(), Unfit::Fails(FailedRule::Parents));
    assert_eq!(Image::untrusted(bytes).unwrap().check(), Err(FailedRule::Parents));
}

#[test]
fn reformat_and_reopen() {
    let (mut image, root) = fresh(16);
    let a = create(&mut image, root, "a", NewKind::File).unwrap();
    // set metadata stands in the table until it is stored
    image.set_metadata(a, &Attributes { mode: 0o600, ..Attributes::default() }).unwrap();
    image.reopen().unwrap();
    assert_eq!(image.metadata(a), Err(Reason::BadHandle));
    let root = image.root().unwrap();
    let a = image.find(root, "a").unwrap();
    assert_eq!(image.metadata(a).unwrap().mode, 0o644);
    image.set_metadata(a, &Attributes { mode: 0o600, ..Attributes::default() }).unwrap();
    image.sync().unwrap();
    image.reopen().unwrap();
    let root = image.root().unwrap();
    let a = image.find(root, "a").unwrap();
    assert_eq!(image.metadata(a).unwrap().mode, 0o600);
    image.reformat(TIME, ROOT_FILE).unwrap();
    assert_eq!(image.bytes(), fresh(16).0.bytes());
    assert_eq!(image.metadata(root), Err(Reason::BadHandle));
}

#[test]
fn root_and_find() {
    let (mut image, root) = fresh(32);
    let again = image.root().unwrap();
    assert_ne!(root, again);
    assert_eq!(image.metadata(root), image.metadata(again));
    let a = create(&mut image, root, "a", NewKind::Folder).unwrap();
    let found = image.find(root, "a").unwrap();
    assert_ne!(a, found);
    assert_eq!(image.metadata(a), image.metadata(found));
    // text, bytes, owned and borrowed names
    for name in ["", ".", ".."] {
        let node = image.find(root, name).unwrap();
        assert_eq!(image.metadata(node).unwrap().inode, 2);
        image.close(node).unwrap();
    }
    let up = image.find(a, b"..").unwrap();
    assert_eq!(image.metadata(up).unwrap().inode, 2);
    let named = image.find(root, String::from("a")).unwrap();
    let bytes = image.find(root, vec![b'a']).unwrap();
    assert_eq!(image.metadata(named), image.metadata(bytes));
}

/// A master glyph that is linked into two folders, opened by path.
#[test]
fn walk_by_path() {
    let (mut image, root) = fresh(64);
    let masters = create(&mut image, root, "masters", NewKind::Folder).unwrap();
    let glyph = create(&mut image, masters, "a", NewKind::File).unwrap();
    for (n, (name, target)) in (1..).zip([("regular", "../masters/a"), ("bold", "/masters/a")]) {
        let folder = create(&mut image, root, name, NewKind::Folder).unwrap();
        let link = image.create(folder, "a", NewKind::Symlink, 0o777, TIME, file(n)).unwrap();
        image.write_at(link, 0, target).unwrap();
        let mut links = [238; 16];
        let found = image.walk(root, format!("{name}/a"), &mut links).unwrap();
        assert_eq!(image.metadata(found), image.metadata(glyph));
        assert_eq!(&links[..target.len()], target.as_bytes());
        assert!(links[target.len()..].iter().all(|&byte| byte == 238));
        for h in [folder, link, found] {
            image.close(h).unwrap();
        }
    }
    // a path alone needs no link buffer; from root the folder is not asked
    for (from, path, node) in [(root, "masters/a", glyph), (glyph, "/masters", masters), (masters, "..", root), (glyph, "/", root)] {
        let found = image.walk(from, path, &mut []).unwrap();
        assert_eq!(image.metadata(found), image.metadata(node));
        image.close(found).unwrap();
    }
    // the rest of a path goes on where a target runs out
    image.create(root, "m", NewKind::Symlink, 0o777, TIME, file(9)).and_then(|m| image.write_at(m, 0, "./masters")).unwrap();
    let found = image.walk(root, "m/../m/a", &mut [0; 18]).unwrap();
    assert_eq!(image.metadata(found), image.metadata(glyph));
    assert!(image.check().is_ok());
}

#[test]
fn create_each_kind() {
    let (mut image, root) = fresh(64);
    assert_eq!((Kind::Socket.number(), Kind::try_from(4)), (4, Ok(Kind::Socket)));
    for (number, new) in (1..).zip([NewKind::File, NewKind::Folder, NewKind::Symlink]) {
        let kind = Kind::from(new);
        assert_eq!((kind.number(), Kind::try_from(number)), (number, Ok(kind)));
        let name = format!("{kind:?}");
        let made = image.create(root, &name, new, 0o755, Time::new(i64::MIN, i64::MAX), file(number.into())).unwrap();
        let told = image.metadata(made).unwrap();
        let folder = kind == Kind::Folder;
        assert_eq!((told.inode, told.kind, told.mode, told.links), (2 + number, kind, 0o755, if folder { 2 } else { 1 }));
        assert_eq!((told.size, told.blocks), if folder { (2, 2) } else { (0, 0) });
        assert_eq!([told.atime, told.mtime, told.ctime], [Time::new(i64::MIN, i64::MAX); 3]);
        assert_eq!(image.entry(root, 1 + u64::from(number)), Ok(Entry { id: 2 + number, name: name.into(), kind: Some(kind) }));
    }
    assert_eq!(image.metadata(root).unwrap().links, 3);
    assert_eq!(image.check(), Ok(Counts { nodes: 4, unused: 1018, free: 52 }));
}

#[test]
fn link_remove_rename() {
    let (mut image, root) = fresh(32);
    let a = create(&mut image, root, "a", NewKind::File).unwrap();
    let d = create(&mut image, root, "d", NewKind::Folder).unwrap();
    image.link(root, "b", a).unwrap();
    assert_eq!(image.metadata(a).unwrap().links, 2);
    // another name of the same node: nothing changes
    let before = image.bytes().to_vec();
    image.rename(root, "a", root, "b").unwrap();
    assert_eq!(image.bytes(), before);
    image.rename(root, "b", root, "c").unwrap();
    assert_eq!(names(&image, root), ["a", "d", "c"]);
    image.rename(root, "c", d, "c").unwrap();
    assert_eq!((names(&image, root), names(&image, d)), (vec!["a".into(), "d".into()], vec!["c".into()]));
    image.remove_file(d, "c").unwrap();
    image.remove_folder(root, "d").unwrap();
    assert_eq!(image.metadata(d).unwrap().links, 0);
    image.close(d).unwrap();
    image.remove_file(root, "a").unwrap();
    // an open node without a name may get one again
    assert_eq!(image.metadata(a).unwrap().links, 0);
    image.link(root, "again", a).unwrap();
    image.close(a).unwrap();
    assert_eq!(names(&image, root), ["again"]);
    assert_eq!(image.check().unwrap().nodes, 2);
}

/// The number of the node that `..` of a folder leads to.
fn parent(image: &mut Mine, folder: Handle) -> u32 {
    let up = image.find(folder, "..").unwrap();
    let inode = image.metadata(up).unwrap().inode;
    image.close(up).unwrap();
    inode
}

#[test]
fn a_folder_goes_to_another_folder() {
    let (mut image, root) = fresh(64);
    let owned = image.is_trusted();
    let sans = create(&mut image, root, "Sans", NewKind::Folder).unwrap();
    let serif = create(&mut image, root, "Serif", NewKind::Folder).unwrap();
    let bold = create(&mut image, sans, "Bold", NewKind::Folder).unwrap();
    let glyphs = create(&mut image, bold, "glyphs", NewKind::Folder).unwrap();
    assert_eq!(parent(&mut image, bold), 3);
    image.rename(sans, "Bold", serif, "Bold").unwrap();
    assert_eq!((parent(&mut image, bold), parent(&mut image, glyphs)), (4, 5));
    assert_eq!([sans, serif, bold].map(|h| image.metadata(h).unwrap().links), [2, 3, 3]);
    assert_eq!((names(&image, sans), names(&image, serif)), (vec![], vec!["Bold".into()]));
    assert_eq!(image.check().unwrap().nodes, 5);
    // in the place of the family that it came from, which is empty and goes
    image.rename(serif, "Bold", root, "Sans").unwrap();
    image.close(sans).unwrap();
    assert_eq!(parent(&mut image, bold), 2);
    assert_eq!(names(&image, root), ["Sans", "Serif"]);
    assert_eq!(image.check().unwrap().nodes, 4);
    assert_eq!(image.is_trusted(), owned);
}

#[test]
fn metadata_is_set_and_read() {
    let (mut image, root) = fresh(16);
    let a = create(&mut image, root, "a", NewKind::File).unwrap();
    let set = Attributes {
        mode: u16::MAX,
        uid: (7 << 32) + 1,
        gid: u64::MAX,
        atime: Time::new(-1, i64::MIN),
        mtime: Time::new(i64::MAX, -1),
        ctime: Time::new(0, 1),
    };
    image.set_metadata(a, &set).unwrap();
    let told = image.metadata(a).unwrap();
    assert_eq!((told.mode, told.uid, told.gid), (u16::MAX, 1, u32::MAX));
    assert_eq!((told.atime, told.mtime, told.ctime), (set.atime, set.mtime, set.ctime));
    // read, change, set
    let mut mine = told.attributes();
    mine.mode = 0o600;
    image.set_metadata(a, &mine).unwrap();
    let after = image.metadata(a).unwrap();
    assert_eq!((after.mode, after.uid, after.gid, after.mtime), (0o600, 1, u32::MAX, set.mtime));
    image.close(a).unwrap();
    let a = image.find(root, "a").unwrap();
    assert_eq!(image.metadata(a), Ok(after));
}

/// So many bytes, none of them zero.
fn outline(length: usize) -> Vec<u8> {
    (0..length).map(|i| (i % 251) as u8 + 1).collect()
}

/// The bytes of a node are these: read whole, in pieces, and told by metadata.
fn has(image: &Mine, node: Handle, want: &[u8]) {
    assert_eq!(image.read_to_vec(node).unwrap(), want);
    assert_eq!(image.metadata(node).unwrap().size, want.len() as u64);
    for room in [7, 480, 10_000] {
        let (mut found, mut out) = (Vec::<u8>::new(), vec![238; room]);
        loop {
            let n = image.read_at(node, found.len() as u64, &mut out).unwrap();
            found.extend(&out[..n]);
            if n < room {
                break;
            }
        }
        assert_eq!(found, want);
    }
    assert!(image.check().is_ok());
}

#[test]
fn what_is_written_is_read() {
    let (mut image, root) = fresh(128);
    for (name, kind) in [("file", NewKind::File), ("link", NewKind::Symlink)] {
        let node = create(&mut image, root, name, kind).unwrap();
        has(&image, node, b"");
        let mut want = outline(1000);
        image.write_at(node, 0, &want).unwrap();
        has(&image, node, &want);
        // in the middle, across two blocks, and over the end
        for (at, data) in [(3, "abc"), (478, "border"), (998, "longer")] {
            image.write_at(node, at, data).unwrap();
            let at = at as usize;
            want.resize(want.len().max(at + data.len()), 0);
            want[at..at + data.len()].copy_from_slice(data.as_bytes());
            has(&image, node, &want);
        }
        // the output's rest stays
        let mut out = [238; 10];
        assert_eq!(image.read_at(node, 1000, &mut out), Ok(4));
        assert_eq!(&out, b"nger\xee\xee\xee\xee\xee\xee");
        for place in [1004, 1005, FILE_LONGEST, u64::MAX] {
            assert_eq!(image.read_at(node, place, &mut out), Ok(0));
        }
        assert_eq!(image.read_at(node, 0, &mut []), Ok(0));
        image.close(node).unwrap();
        let node = image.find(root, name).unwrap();
        has(&image, node, &want);
        image.close(node).unwrap();
    }
}

#[test]
fn holes_take_no_block() {
    let (mut image, root) = fresh(32);
    let a = create(&mut image, root, "a", NewKind::File).unwrap();
    let free = image.check().unwrap().free;
    image.write_at(a, 100_000, "far").unwrap();
    assert_eq!(image.check().unwrap().free, free - 1);
    has(&image, a, &[vec![0; 100_000], b"far".into()].concat());
    image.write_at(a, 50_000, "near").unwrap();
    assert_eq!(image.check().unwrap().free, free - 2);
    image.resize(a, 50_002).unwrap();
    assert_eq!(image.check().unwrap().free, free - 1);
    has(&image, a, &[vec![0; 50_000], b"ne".into()].concat());
    // as long as a file can be
    image.write_at(a, FILE_LONGEST - 1, "z").unwrap();
    let mut out = [238; 4];
    assert_eq!(image.read_at(a, FILE_LONGEST - 3, &mut out), Ok(3));
    assert_eq!(out, [0, 0, b'z', 238]);
    assert_eq!(image.metadata(a).unwrap().size, FILE_LONGEST);
}

#[test]
fn shrunk_and_grown() {
    let (mut image, root) = fresh(32);
    let a = create(&mut image, root, "a", NewKind::File).unwrap();
    image.write_at(a, 0, outline(2000)).unwrap();
    for length in [2000, 1500, 961, 960, 959, 481, 3] {
        image.resize(a, length).unwrap();
        has(&image, a, &outline(length as usize));
    }
    // the old tail stays away
    image.resize(a, 2000).unwrap();
    has(&image, a, &[outline(3), vec![0; 1997]].concat());
    image.resize(a, 0).unwrap();
    has(&image, a, b"");
    // no bytes: nothing, but beyond the size
    image.write_at(a, 0, "").unwrap();
    has(&image, a, b"");
    image.write_at(a, 700, "").unwrap();
    has(&image, a, &[0; 700]);
    image.write_at(a, 300, "").unwrap();
    has(&image, a, &[0; 700]);
}

#[test]
fn contents_of_a_removed_node() {
    let (mut image, root) = fresh(32);
    let a = create(&mut image, root, "a", NewKind::File).unwrap();
    let free = image.check().unwrap().free;
    image.write_at(a, 0, outline(100)).unwrap();
    image.remove_file(root, "a").unwrap();
    has(&image, a, &outline(100));
    image.write_at(a, 100, outline(900)).unwrap();
    image.resize(a, 90).unwrap();
    has(&image, a, &outline(90));
    image.close(a).unwrap();
    // the head's block comes back too
    assert_eq!(image.check().unwrap().free, free + 1);
}

#[test]
fn a_size_stands_in_the_table_until_it_is_stored() {
    let (mut image, root) = fresh(32);
    let a = create(&mut image, root, "a", NewKind::File).unwrap();
    image.write_at(a, 0, "outline").unwrap();
    // the host goes down: the file is longer than the stored size
    let lost = mine(Image::untrusted(image.bytes()).unwrap());
    assert_eq!(lost.check(), Err(FailedRule::Folders));
    image.sync().unwrap();
    let mut kept = mine(Image::checked(image.bytes()).unwrap());
    let root = kept.root().unwrap();
    let a = kept.find(root, "a").unwrap();
    has(&kept, a, b"outline");
}

#[test]
fn close_gives_up_one_hold() {
    let (mut image, root) = fresh(16);
    let mine = create(&mut image, root, "a", NewKind::File).unwrap();
    let hers = image.find(root, "a").unwrap();
    image.close(mine).unwrap();
    assert_eq!(image.close(mine), Err(Reason::BadHandle));
    assert_eq!(image.metadata(hers).unwrap().inode, 3);
    image.close(hers).unwrap();
    image.close(root).unwrap();
    assert_eq!(image.table()[..TABLE - 8], [0; TABLE - 8]);
    let all: Vec<_> = (0..OWN_HOLDS).map(|_| image.root().unwrap()).collect();
    assert_eq!(image.root(), Err(Reason::TableFull));
    all.into_iter().for_each(|h| image.close(h).unwrap());
}

#[test]
fn four_owners() {
    assert_eq!(Owner::ALL.map(Owner::number), [1, 2, 3, 4]);
    assert!(Owner::ALL.into_iter().all(|owner| Owner::try_from(owner.number()) == Ok(owner)));
    for number in [0, 5, u8::MAX] {
        assert_eq!(Owner::try_from(number), Err(Reason::InvalidParam));
    }
    let mut image = fresh(32).0.into_inner();
    image.reformat(TIME, ROOT_FILE).unwrap();
    // Anna draws, with as many tabs as she may have
    let mut anna = image.editor(Owner::One);
    assert_eq!(anna.who(), 1);
    let root = anna.root().unwrap();
    let a = create(&mut anna, root, "a", NewKind::File).unwrap();
    anna.write_at(a, 0, "outline").unwrap();
    let tabs: Vec<_> = (2..OWN_HOLDS).map(|_| anna.find(root, "a").unwrap()).collect();
    assert_eq!(anna.root(), Err(Reason::TableFull));
    // Ben gets his, on the same node; her handles are of no use to him
    let mut ben = image.editor(Owner::Two);
    assert_eq!(ben.metadata(a), Err(Reason::BadHandle));
    let his_root = ben.root().unwrap();
    let his = ben.find(his_root, "a").unwrap();
    assert_eq!(ben.read_to_vec(his).unwrap(), b"outline");
    assert_eq!(ben.link(his_root, "b", a), Err(Reason::BadHandle));
    ben.remove_file(his_root, "a").unwrap();
    assert_eq!(ben.close(a), Err(Reason::BadHandle));
    ben.close(his).unwrap();
    // a reader shares the image, and asks for its owner's handles
    let reader = image.reader(Owner::One);
    assert_eq!(reader.metadata(a).unwrap().links, 0);
    assert_eq!(reader.read_to_vec(tabs[0]).unwrap(), b"outline");
    assert_eq!(image.reader(Owner::Two).metadata(a), Err(Reason::BadHandle));
    assert_eq!(names(&image.reader(Owner::Two), his_root), [""; 0]);
    let mut anna = image.editor(Owner::One);
    for tab in tabs.into_iter().chain([a]) {
        anna.close(tab).unwrap();
    }
    assert!(anna.check().is_ok());
    // who is none of the four
    for number in [0, 5, u8::MAX] {
        assert_eq!(Editor::numbered(&mut *image, number).root(), Err(Reason::InvalidParam));
        assert_eq!(Editor::numbered(&*image, number).metadata(root), Err(Reason::InvalidParam));
    }
    assert_eq!(image.check().unwrap().nodes, 1);
}

#[test]
fn slots() {
    let (mut image, root) = fresh(128);
    let wanted: Vec<_> = (0..40).map(|i| format!("glyph{i}")).collect();
    for name in &wanted {
        let made = create(&mut image, root, name, NewKind::File).unwrap();
        image.close(made).unwrap();
    }
    // one at a time, all at once, and in pieces
    assert_eq!(image.entry(root, 0).unwrap(), Entry { id: 2, name: b".".into(), kind: Some(Kind::Folder) });
    assert!(image.entry(root, 1).unwrap().is_dots() && !image.entry(root, 2).unwrap().is_dots());
    assert_eq!(image.entry(root, 42), Err(Reason::EntryNotFound));
    let all: Vec<_> = image.entries_from(Place::with_dots(root)).map(Result::unwrap).collect();
    assert_eq!(all.len(), 42);
    assert_eq!(image.snapshot(root).unwrap(), all[2..]);
    assert_eq!(names(&image, root), wanted);
    assert!((0..42).all(|k| image.entry(root, k).unwrap() == all[k as usize]));
    for (room, start) in [SLOT, 3 * SLOT + 5, 100 * SLOT].into_iter().flat_map(|room| [(room, 0), (room, 2)]) {
        let (mut place, mut out, mut found) = (Place { dots: start == 0, ..Place::new(root) }, vec![0; room], Vec::new());
        loop {
            let n = image.list(&mut place, &mut out).unwrap();
            found.extend(out.chunks_exact(SLOT).take(n).map(|slot| Entry::of_slot(slot).unwrap()));
            if n == 0 {
                break;
            }
        }
        assert_eq!((found, place.next), (all[start..].to_vec(), 42));
    }
    for dots in [false, true] {
        let from: Vec<_> = image.entries_from(Place { folder: root, next: 40, dots }).map(Result::unwrap).collect();
        assert_eq!(from, all[40..]);
        assert_eq!(image.entries_from(Place { folder: root, next: u64::MAX, dots }).count(), 0);
    }
    assert_eq!(Entry::of_slot(&[0; SLOT - 1]), None);
    let mut entries = image.entries(root);
    assert_eq!(entries.by_ref().count(), 40);
    assert!(entries.next().is_none());
    assert!(format!("{entries:?}").starts_with("Entries { editor: Editor { image: Image { blocks: 128, .. }, who: 1 }, place: Place"));
}

#[test]
fn dots_are_asked_for() {
    let (mut image, root) = fresh(32);
    let empty = create(&mut image, root, "e", NewKind::Folder).unwrap();
    let mut out = [238; 4 * SLOT];
    // next, asked, room; slots written, next
    for (next, dots, room, count, after) in [
        (0, false, 4 * SLOT, 0, 2),
        (1, false, 0, 0, 2),
        (3, false, 0, 0, 3),
        (0, true, 4 * SLOT, 2, 2),
        (1, true, SLOT, 1, 2),
        (2, true, 0, 0, 2),
    ] {
        let mut place = Place { folder: empty, next, dots };
        assert_eq!(image.list(&mut place, &mut out[..room]), Ok(count));
        assert_eq!(place, Place { folder: empty, next: after, dots });
    }
    // a refusal keeps the place
    let mut place = Place::new(root);
    assert_eq!(image.list(&mut place, &mut out[..SLOT - 1]), Err(Reason::OutFull));
    assert_eq!(place, Place::new(root));
    assert_eq!(image.list(&mut place, &mut out), Ok(1));
    assert_eq!((place.next, Entry::of_slot(&out).unwrap().name), (3, b"e".into()));
    let all: Vec<_> = image.entries_from(Place::with_dots(empty)).map(|entry| entry.unwrap().name).collect();
    assert_eq!(all, [b".".to_vec(), b"..".to_vec()]);
    assert_eq!(image.entries(empty).count(), 0);
}

#[test]
fn removal_drops_the_last_slot_into_the_hole() {
    let (mut image, root) = fresh(32);
    for name in ["a", "b", "c"] {
        create(&mut image, root, name, NewKind::File).unwrap();
    }
    let before = image.snapshot(root).unwrap();
    image.remove_file(root, "a").unwrap();
    assert_eq!(names(&image, root), ["c", "b"]);
    assert_eq!(before.len(), 3);
    // by the names of a snapshot, all can be removed while walking
    for entry in image.snapshot(root).unwrap() {
        image.remove_file(root, &entry.name).unwrap();
    }
    assert_eq!(image.snapshot(root), Ok(vec![]));
}

#[test]
fn entries_end_at_a_refusal() {
    let (mut image, root) = fresh(32);
    let a = create(&mut image, root, "a", NewKind::File).unwrap();
    let mut entries = image.entries(a);
    assert_eq!(entries.next(), Some(Err(Reason::NotDir)));
    assert_eq!(entries.next(), None);
    assert_eq!(image.snapshot(a), Err(Reason::NotDir));
    // the folder says one slot more than there is: those that are there are given
    let mut bytes = image.into_inner().into_bytes();
    common::damage::record(&mut bytes, 2, common::damage::BLOCKS, &4u32.to_le_bytes());
    let mut image = mine(Image::untrusted(bytes).unwrap());
    let root = image.root().unwrap();
    let all: Vec<_> = image.entries(root).collect();
    assert_eq!(all.len(), 2);
    assert_eq!(all[0].as_ref().unwrap().name, b"a");
    assert_eq!(all[1], Err(Reason::Stuck));
    assert_eq!(image.entries_from(Place::with_dots(root)).count(), 4);
    assert_eq!(image.snapshot(root), Err(Reason::Stuck));
    assert_eq!(image.check(), Err(FailedRule::Folders));
}
