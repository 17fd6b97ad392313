//! Which images are tested once: what gives that, and what takes it away. An image of either kind answers the same, byte for byte.
mod common;

use common::{create, file, fresh, mode_by_chance, Numbers, ROOT_FILE, TIME};
use dzomrelig::{Attributes, Editor, FailedRule, Handle, Image, NewKind, Place, Reason, OWN_HOLDS};

#[test]
fn formatted_and_checked() {
    let (mut image, root) = fresh(32);
    assert!(image.is_trusted() && image.clone().is_trusted());
    create(&mut image, root, "a", NewKind::File).unwrap();
    image.sync().unwrap();
    assert!(Image::checked(image.bytes()).unwrap().is_trusted());
    let mut other = Image::untrusted(image.bytes()).unwrap();
    assert!(!other.is_trusted());
    assert_eq!(other.trust(), other.check());
    assert!(other.is_trusted());
    let mut parts = Image::from_parts(image.bytes(), *image.table());
    assert!(!parts.is_trusted() && parts.trust().is_ok() && parts.is_trusted());
}

#[test]
fn reopened_and_reformatted() {
    let (mut image, root) = fresh(16);
    let a = create(&mut image, root, "a", NewKind::File).unwrap();
    image.remove_file(root, "a").unwrap();
    image.reopen().unwrap();
    // the open node is lost: rule 7
    assert!(!image.is_trusted());
    assert_eq!(image.trust(), Err(FailedRule::Links));
    assert!(!image.is_trusted());
    assert_eq!(image.metadata(a), Err(Reason::BadHandle));
    image.reformat(TIME, ROOT_FILE).unwrap();
    assert!(image.is_trusted());
}

/// What is mended is tested once; a refusal leaves it as it was, of either kind.
#[test]
fn mended() {
    let (mut image, root) = fresh(16);
    assert_eq!(image.mend(), Err(Reason::InUse));
    assert!(image.is_trusted());
    let a = create(&mut image, root, "a", NewKind::File).unwrap();
    image.remove_file(root, "a").unwrap();
    image.write_at(a, 0, "outline").unwrap();
    image.reopen().unwrap();
    assert!(!image.is_trusted() && image.check().is_err());
    let held = image.root().unwrap();
    assert_eq!(image.mend(), Err(Reason::InUse));
    assert!(!image.is_trusted());
    image.close(held).unwrap();
    image.mend().unwrap();
    assert!(image.is_trusted() && image.check().is_ok());
    // the chains are those of the mended image
    let root = image.root().unwrap();
    let made = create(&mut image, root, "b", NewKind::File).unwrap();
    image.write_at(made, 1_000, "outline").unwrap();
    assert_eq!(image.read_to_vec(made).unwrap().len(), 1_007);
    assert!(Image::recovered(image.bytes()).unwrap().is_trusted());
}

#[test]
fn a_refused_open_or_format_changes_nothing() {
    let mut wrong = Image::from_parts([0; 100], [0; dzomrelig::TABLE]);
    assert_eq!(wrong.reformat(TIME, ROOT_FILE), Err(Reason::BadArena));
    assert_eq!(wrong.reopen(), Err(Reason::BadArena));
    assert!(!wrong.is_trusted() && wrong.trust().is_err() && !wrong.is_trusted());
}

#[test]
fn folders_that_are_moved() {
    let (mut image, root) = fresh(64);
    let a = create(&mut image, root, "a", NewKind::Folder).unwrap();
    let b = create(&mut image, root, "b", NewKind::Folder).unwrap();
    create(&mut image, a, "c", NewKind::Folder).unwrap();
    create(&mut image, a, "f", NewKind::File).unwrap();
    // a file to another folder, a folder within one, and moves that are refused
    image.rename(a, "f", b, "f").unwrap();
    image.rename(a, "c", a, "d").unwrap();
    let again = image.find(root, "a").unwrap();
    image.rename(a, "d", again, "c").unwrap();
    assert_eq!(image.rename(a, "c", b, "f"), Err(Reason::NotDir));
    assert_eq!(image.rename(a, "x", b, "x"), Err(Reason::EntryNotFound));
    assert!(image.is_trusted());
    // a folder to another folder keeps the trust, and rightly
    image.rename(a, "c", b, "c").unwrap();
    assert!(image.is_trusted() && image.check().is_ok());
    assert_eq!(image.rename(root, "b", b, "b"), Err(Reason::InvalidParam));
    assert!(image.is_trusted() && image.check().is_ok());
}

/// One call by chance on both images, mostly of the owner who has the handle; both answer the same.
fn both(trusted: &mut Image, tested: &mut Image, n: &mut Numbers, known: &mut Vec<(u8, Handle)>) {
    let ((owner, h), (_, g)) = (known[n.below(known.len() as u64) as usize], known[n.below(known.len() as u64) as usize]);
    let who = if n.below(10) == 0 { n.below(6) as u8 } else { owner };
    let names = ["a", "b", "c", "folder", "sub", "", ".", "..", "\u{e4}"].map(str::as_bytes);
    let (x, y) = (names[n.below(9) as usize], names[n.below(9) as usize]);
    let (kind, number, slot) = (n.below(6) as u32, n.below(60), n.below(6));
    let (what, mode, room) = (n.below(23), n.next() as u16, n.below(4) as usize * 300);
    let (place_in, long) = (n.below(3_000), n.below(2_000));
    let (range, unit) = (mode_by_chance(n), if n.below(4) == 0 { 1 } else { 128 });
    let call = |image: &mut Image| -> (Result<Option<Handle>, Reason>, Vec<u8>) {
        let mut image = Editor::numbered(image, who);
        let (mut out, mut place) = (vec![7; room], Place { folder: h, next: slot, dots: mode % 2 == 0 });
        let answer = match what {
            0 => image.root().map(Some),
            1 | 2 => image.find(h, x).map(Some),
            3 | 4 => image.create_numbered(h, x, kind, mode, TIME, file(number)).map(Some),
            5 => image.link(h, x, g).map(|()| None),
            6 if mode % 2 == 0 => image.remove_file(h, x).map(|()| None),
            6 => image.remove_folder(h, x).map(|()| None),
            7 => image.rename(h, x, g, y).map(|()| None),
            8 => image.metadata(h).map(|m| Some(Handle { hold: m.inode, stamp: m.size })),
            9 => image.set_metadata(h, &Attributes { mode, ..Attributes::default() }).map(|()| None),
            10 => image.entry_into(h, slot, &mut out).map(|()| None),
            11 => image.list(&mut place, &mut out).map(|n| Some(Handle { hold: n as u32, stamp: place.next })),
            12 => image.sync().map(|()| None),
            13 | 14 => image.write_at(h, place_in, vec![mode as u8; long as usize]).map(|()| None),
            15 => image.read_at(h, place_in, &mut out).map(|n| Some(Handle { hold: n as u32, stamp: 0 })),
            16 => image.resize(h, place_in).map(|()| None),
            17 => image.walk(h, [x, y].join(&b'/'), &mut out).map(Some),
            18..=20 => image.fallocate(h, range, place_in / unit * unit, long / unit * unit).map(|()| None),
            21 => image.path_into(h, &mut out).map(|n| Some(Handle { hold: n as u32, stamp: 0 })),
            _ => image.close(h).map(|()| None),
        };
        (answer, out)
    };
    let answer = call(trusted);
    assert_eq!(answer, call(tested));
    assert!(trusted.bytes() == tested.bytes() && trusted.table() == tested.table());
    if let (0..=4 | 17, Ok(Some(handle))) = (what, answer.0) {
        known.push((who, handle));
    }
}

#[test]
fn both_ways_answer_the_same() {
    let n = &mut Numbers(0x0DDB_1A5E_5BAD_5EED);
    for round in 0..60 {
        let (mut trusted, root) = fresh(16 + 8 * round);
        let mut tested = Image::from_parts(trusted.bytes(), *trusted.table());
        let mut known = vec![(1, root)];
        for _ in 0..200 {
            both(&mut trusted, &mut tested, n, &mut known);
            if known.len() > 4 * OWN_HOLDS {
                known.remove(1);
            }
            if !trusted.is_trusted() && trusted.trust().is_err() {
                break;
            }
            assert!(!tested.is_trusted());
        }
    }
}
