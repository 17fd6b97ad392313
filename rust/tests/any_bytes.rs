//! Nothing panics, whatever the bytes: every call on images and tables that were changed by chance. A refusal changes nothing, and a call that is
//! done leaves an image that can be asked again.
mod common;

use common::damage::seal;
use common::{create, file, fresh, mine, Mine, Numbers, TIME};
use dzomrelig::{Attributes, Editor, Handle, Image, NewKind, Place, BLOCK, FILE_LONGEST, SLOT, TABLE};

fn name(n: &mut Numbers) -> Vec<u8> {
    let fixed: [&[u8]; 10] = [b"", b".", b"..", b"a", b"b", b"c", b"folder", b"sub", b"\xff", b"a\0"];
    match n.below(12) {
        k @ 0..=9 => fixed[k as usize].to_vec(),
        10 => vec![b'n'; n.below(300) as usize],
        _ => n.next().to_le_bytes().to_vec(),
    }
}

fn handle(n: &mut Numbers, known: &[Handle]) -> Handle {
    match n.below(10) {
        0 => Handle { hold: n.below(40) as u32, stamp: n.below(10) },
        1 => Handle { hold: n.next() as u32, stamp: n.next() },
        _ => known[n.below(known.len() as u64) as usize],
    }
}

/// A place or a length: mostly small, and now and then at an end.
fn number(n: &mut Numbers) -> u64 {
    match n.below(8) {
        0 => u64::MAX - n.below(3),
        1 => FILE_LONGEST - 1 + n.below(3),
        _ => n.below(2000),
    }
}

/// Mostly the first owner, whose handles are known; now and then another, or none of the four.
fn who(n: &mut Numbers) -> u8 {
    match n.below(24) {
        0 => n.next() as u8,
        1 => 2 + n.below(3) as u8,
        _ => 1,
    }
}

/// One call by chance: whether it was done.
fn call(image: &mut Image, n: &mut Numbers, known: &mut Vec<Handle>) -> bool {
    let (h, g) = (handle(n, known), handle(n, known));
    let mut image = Editor::numbered(image, who(n));
    let mut out = vec![0; n.below(4) as usize * 200];
    let made = match n.below(26) {
        0 => image.root().map(Some),
        1..=3 => image.find(h, name(n)).map(Some),
        4 | 5 => image.create_numbered(h, name(n), n.below(6) as u32, n.next() as u16, TIME, file(n.below(50))).map(Some),
        6 => image.link(h, name(n), g).map(|()| None),
        7 if n.below(2) == 0 => image.remove_file(h, name(n)).map(|()| None),
        7 => image.remove_folder(h, name(n)).map(|()| None),
        8 => image.rename(h, name(n), g, name(n)).map(|()| None),
        9 => image.metadata(h).map(|_| None),
        10 => image.set_metadata(h, &Attributes { mode: n.next() as u16, ..Attributes::default() }).map(|()| None),
        11 => image.entry(h, n.below(8)).and(image.entry_into(h, n.next(), &mut out)).map(|()| None),
        12 => image.list(&mut Place { folder: h, next: n.below(4), dots: n.below(2) == 0 }, &mut out).map(|_| None),
        13 => image.snapshot(h).map(|_| None),
        14 => image.sync().map(|()| None),
        15 => image.read_at(h, number(n), &mut out).map(|_| None),
        16 | 17 => image.write_at(h, number(n), name(n)).map(|()| None),
        18 => image.resize(h, number(n)).map(|()| None),
        19 => image.walk(h, name(n), &mut out).map(Some),
        20 => image.inventory_into(&mut out).map(|_| None),
        21 => image.mend().map(|()| None),
        22 | 23 => image.fallocate_numbered(h, n.below(7) as u8, n.next() as u8, number(n) & !127, number(n) & !127).map(|()| None),
        24 => image.path(h).and_then(|path| image.path_into(h, &mut vec![0; path.len()])).map(|_| None),
        _ => image.close(h).map(|()| None),
    };
    if let Ok(Some(handle)) = made {
        known.push(handle);
    }
    made.is_ok()
}

/// Many calls on one image: how many were done.
fn calls(mut image: Image, n: &mut Numbers, known: &[Handle]) -> usize {
    let mut known = known.to_vec();
    let mut done = 0;
    for _ in 0..40 {
        let before = image.clone();
        if call(&mut image, n, &mut known) {
            done += 1;
        } else {
            assert!(image.bytes() == before.bytes() && image.table() == before.table());
        }
        let _ = image.check();
    }
    done
}

/// An image with something of everything, and handles on it.
fn grown() -> (Mine, Vec<Handle>) {
    let (mut image, root) = fresh(40);
    let folder = create(&mut image, root, "folder", NewKind::Folder).unwrap();
    let sub = create(&mut image, folder, "sub", NewKind::Folder).unwrap();
    let a = create(&mut image, root, "a", NewKind::File).unwrap();
    let b = create(&mut image, sub, "b", NewKind::Symlink).unwrap();
    image.link(folder, "c", a).unwrap();
    image.remove_file(root, "a").unwrap();
    image.write_at(a, 470, "outline of a glyph").unwrap();
    image.write_at(b, 0, "../c").unwrap();
    (image, vec![root, folder, sub, a, b])
}

#[test]
fn images_changed_in_few_bytes() {
    let n = &mut Numbers(0x9E37_79B9_7F4A_7C15);
    let (image, known) = grown();
    let mut done = 0;
    for _ in 0..400 {
        let (mut bytes, mut table) = (image.bytes().to_vec(), *image.table());
        for _ in 0..1 + n.below(3) {
            // mostly what a file has in a block, and the block's check mended
            let used: Vec<_> = (0..bytes.len() / BLOCK).filter(|k| bytes[BLOCK * k] == 2).collect();
            let k = used[n.below(used.len() as u64) as usize];
            let block = &mut bytes[BLOCK * k..BLOCK * (k + 1)];
            let set: Vec<_> = (24..504).filter(|&i| block[i] != 0).collect();
            let at = match set.get(n.below(1 + set.len() as u64) as usize) {
                Some(&at) => at,
                None => n.below(508) as usize,
            };
            block[at] = [0, 1, 2, 3, 4, 5, 255, n.next() as u8][n.below(8) as usize];
            if n.below(16) != 0 {
                seal(block);
            }
        }
        if n.below(3) == 0 {
            table[n.below(TABLE as u64) as usize] = n.next() as u8;
        }
        done += calls(Image::from_parts(bytes.clone(), table), n, &known);
        if let Ok(opened) = Image::untrusted(bytes) {
            done += calls(opened, n, &known);
        }
    }
    assert!(done > 3_500, "{done}");
}

#[test]
fn any_bytes_at_all() {
    let n = &mut Numbers(0x2545_F491_4F6C_DD1D);
    let (_, known) = grown();
    for round in 0..200 {
        let length = if round % 2 == 0 { BLOCK * (16 + n.below(8) as usize) } else { n.below(9000) as usize };
        let mut bytes: Vec<u8> = (0..length).map(|_| n.next() as u8).collect();
        for block in bytes.chunks_exact_mut(BLOCK) {
            // blocks that look like some
            block[0] = n.below(3) as u8;
            block[1] = n.below(2) as u8;
            block[2..4].fill(0);
            block[504..508].fill(0);
            if block[0] == 0 {
                block.fill(0);
            } else {
                if block[0] == 1 {
                    block[24..504].fill(0);
                }
                seal(block);
            }
        }
        let table: [u8; TABLE] = std::array::from_fn(|_| if n.below(4) == 0 { n.next() as u8 } else { 0 });
        calls(Image::from_parts(bytes.clone(), table), n, &known);
        if let Ok(opened) = Image::untrusted(bytes) {
            calls(opened, n, &known);
        }
    }
}

/// A folder that says it has four billion slots in a file of holes ends at the first hole.
#[test]
fn endless_folder() {
    let (mut image, root) = fresh(16);
    create(&mut image, root, "a", NewKind::File).unwrap();
    let mut bytes = image.into_inner().into_bytes();
    common::damage::record(&mut bytes, 2, common::damage::BLOCKS, &[255; 4]);
    common::damage::set_length(&mut bytes, Some(common::ROOT_FILE), u32::MAX);
    let mut image = mine(Image::untrusted(bytes).unwrap());
    let root = image.root().unwrap();
    let all: Vec<_> = image.entries_from(Place::with_dots(root)).collect();
    assert_eq!(all.iter().filter(|e| e.is_ok()).count(), 3);
    assert_eq!(image.entry(root, 1_000_000).unwrap().name, b"");
    assert!(all.len() == 4 && image.list(&mut Place { next: 3, ..Place::new(root) }, &mut [0; SLOT]).is_err());
}
