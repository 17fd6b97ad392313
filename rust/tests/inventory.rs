//! The foundry's inventory: read back by a parser of its own, and held against a walk through the crate.
mod common;

use common::{create, damage, fresh, Mine, Numbers, ROOT_FILE};
use dzomrelig::{Entry, Handle, Image, Kind, NewKind, Reason, SLOT};

/// What a line says: the node, and the names of its path from the root on.
#[derive(PartialEq, Debug)]
struct Line {
    id: u32,
    kind: Kind,
    links: u16,
    path: Vec<Vec<u8>>,
}

/// A name as a line has it. What has to be escaped is, and nothing else.
fn unescaped(text: &[u8]) -> Option<Vec<u8>> {
    let to_escape = |b: u8| b <= b' ' || b == b'\\' || b == 127;
    let mut name = vec![];
    let mut left = text.iter().copied();
    while let Some(b) = left.next() {
        let digits = if b == b'\\' { Some([left.next()?, left.next()?]) } else { None };
        let meant = match digits {
            Some(digits) if digits.iter().any(u8::is_ascii_uppercase) => return None,
            Some(digits) => u8::from_str_radix(std::str::from_utf8(&digits).ok()?, 16).ok()?,
            None => b,
        };
        if to_escape(meant) != digits.is_some() {
            return None;
        }
        name.push(meant);
    }
    Some(name)
}

/// A number without a sign or a zero before it.
fn number(text: &[u8]) -> Option<u32> {
    let n: u32 = std::str::from_utf8(text).ok()?.parse().ok()?;
    (n.to_string().as_bytes() == text).then_some(n)
}

fn line(text: &[u8]) -> Option<Line> {
    let [id, kind, links, path] = text.split(|&b| b == b' ').collect::<Vec<_>>().try_into().ok()?;
    let names = path.strip_prefix(b"/")?.split(|&b| b == b'/');
    Some(Line {
        id: number(id)?,
        kind: Kind::try_from(number(kind)?).ok()?,
        links: number(links)?.try_into().ok()?,
        path: names.map(unescaped).collect::<Option<_>>()?,
    })
}

/// The lines of a text, each of which ends in a newline.
fn read_back(text: &[u8]) -> Vec<Line> {
    let lines = text.split_inclusive(|&b| b == b'\n');
    lines.map(|text| text.strip_suffix(b"\n").and_then(line).unwrap_or_else(|| panic!("no line: {text:?}"))).collect()
}

/// A handle on what a path leads to, one name after another: one hold more, however long it is.
fn open(image: &mut Mine, path: &[Vec<u8>]) -> Handle {
    let mut at = image.root().unwrap();
    for name in path {
        let next = image.find(at, name).unwrap();
        image.close(at).unwrap();
        at = next;
    }
    at
}

/// A walk from a folder on: each entry, and right after a folder's what is in it.
fn walked(image: &mut Mine, path: &mut Vec<Vec<u8>>, lines: &mut Vec<Line>) {
    let folder = open(image, path);
    let entries = image.snapshot(folder).unwrap();
    image.close(folder).unwrap();
    for entry in entries {
        path.push(entry.name);
        let node = open(image, path);
        let known = image.metadata(node).unwrap();
        image.close(node).unwrap();
        assert_eq!((known.inode, Some(known.kind)), (entry.id, entry.kind));
        lines.push(Line { id: known.inode, kind: known.kind, links: known.links, path: path.clone() });
        if known.kind == Kind::Folder {
            walked(image, path, lines);
        }
        path.pop();
    }
}

/// The inventory says what a walk finds, in a buffer of its length too, and in one that is longer; how many lines there are.
fn compare(image: &mut Mine) -> usize {
    let mut found = vec![];
    walked(image, &mut vec![], &mut found);
    let text = image.inventory().unwrap();
    assert_eq!(read_back(&text), found);
    let mut out = vec![238; text.len() + 5];
    assert_eq!(image.inventory_into(&mut out), Ok(text.len()));
    assert_eq!(out, [&text[..], &[238; 5]].concat());
    assert_eq!(image.inventory_into(&mut out[..text.len()]), Ok(text.len()));
    if !text.is_empty() {
        out.fill(7);
        assert_eq!(image.inventory_into(&mut out[..text.len() - 1]), Err(Reason::OutFull));
        assert!(out.iter().all(|&b| b == 7));
    }
    found.len()
}

/// A name by chance, in which each kind of byte comes: escaped ones, digits, the last before 127, and more than one byte a letter.
fn name(n: &mut Numbers) -> String {
    const LETTERS: [char; 16] = ['a', 'Z', '0', '.', '!', '~', ' ', '\n', '\t', '\u{1}', '\u{1f}', '\u{7f}', '\\', '\u{80}', 'Ж', '🖋'];
    let length = if n.below(8) == 0 { 120 } else { 1 + n.below(6) };
    (0..length).map(|_| LETTERS[n.below(16) as usize]).collect()
}

/// An entry of a folder by chance.
fn any_entry(image: &Mine, folder: Handle, n: &mut Numbers) -> Option<Entry> {
    let mut entries = image.snapshot(folder).unwrap();
    let count = entries.len() as u64;
    (count > 0).then(|| entries.swap_remove(n.below(count) as usize))
}

/// A folder by chance: down from the root, as far as chance goes.
fn any_folder(image: &mut Mine, n: &mut Numbers) -> Handle {
    let mut at = image.root().unwrap();
    while n.below(3) > 0 {
        match any_entry(image, at, n) {
            Some(entry) if entry.kind == Some(Kind::Folder) => {
                let next = image.find(at, &entry.name).unwrap();
                image.close(at).unwrap();
                at = next;
            }
            _ => break,
        }
    }
    at
}

/// One change by chance, which may be refused; no handle stays.
fn change(image: &mut Mine, n: &mut Numbers) {
    let (from, to) = (any_folder(image, n), any_folder(image, n));
    let kind = [NewKind::File, NewKind::Folder, NewKind::Folder, NewKind::Symlink][n.below(4) as usize];
    let found = any_entry(image, from, n).map(|entry| (image.find(from, &entry.name).unwrap(), entry.name));
    let made = match (n.below(8), &found) {
        (0, Some((node, _))) => image.link(to, name(n), *node).map(|()| None),
        (1, Some((node, _))) => image.write_at(*node, n.below(900), name(n)).map(|()| None),
        (2, Some((_, old))) => image.remove_file(from, old).or_else(|_| image.remove_folder(from, old)).map(|()| None),
        (3, Some((_, old))) => image.rename(from, old, to, name(n)).map(|()| None),
        _ => create(image, from, &name(n), kind).map(Some),
    };
    let found = found.map(|(node, _)| node);
    for handle in made.ok().flatten().into_iter().chain(found).chain([from, to]) {
        image.close(handle).unwrap();
    }
}

#[test]
fn random_images() {
    let n = &mut Numbers(0x1234_5678_9ABC_DEF1);
    let (mut images, mut lines) = (0, 0);
    for round in 0..100 {
        let (mut image, root) = fresh(32 + 2 * round);
        image.close(root).unwrap();
        for _ in 0..2 {
            for _ in 0..30 {
                change(&mut image, n);
            }
            lines += compare(&mut image);
            images += 1;
        }
    }
    assert!(images == 200 && lines > 4_000, "{images} images, {lines} lines");
}

#[test]
fn fresh_images_have_no_line() {
    for blocks in [16, 128, 4096] {
        let (image, _) = fresh(blocks);
        assert_eq!(image.inventory(), Ok(vec![]));
        assert_eq!(image.inventory_into(&mut []), Ok(0));
    }
}

/// Folders in folders whose names are escaped from end to end: the text is longer than the image.
#[test]
fn long_paths() {
    let (mut image, root) = fresh(96);
    let mut at = root;
    for k in 1..=20u8 {
        let folder = create(&mut image, at, &char::from(k).to_string().repeat(255), NewKind::Folder).unwrap();
        image.close(at).unwrap();
        at = folder;
    }
    image.close(at).unwrap();
    assert!(image.inventory().unwrap().len() > 3 * image.bytes().len());
    assert_eq!(compare(&mut image), 20);
}

/// What only the table has is not stored: it fails until it is closed and synced.
#[test]
fn close_and_sync_first() {
    let (mut image, root) = fresh(32);
    let a = create(&mut image, root, "a", NewKind::File).unwrap();
    let folder = create(&mut image, root, "b", NewKind::Folder).unwrap();
    assert_eq!(image.inventory().unwrap(), b"3 1 1 /a\n4 2 2 /b\n");
    image.write_at(a, 0, "outline").unwrap();
    assert_eq!(image.inventory(), Err(Reason::WrongFs));
    assert_eq!(image.inventory_into(&mut []), Err(Reason::WrongFs));
    image.sync().unwrap();
    assert_eq!(image.inventory_into(&mut []), Err(Reason::OutFull));
    assert_eq!(image.inventory().unwrap(), b"3 1 1 /a\n4 2 2 /b\n");
    image.remove_file(root, "a").unwrap();
    assert_eq!(image.inventory(), Err(Reason::WrongFs));
    image.close(a).unwrap();
    assert_eq!(image.inventory().unwrap(), b"4 2 2 /b\n");
    image.remove_folder(root, "b").unwrap();
    assert_eq!(image.inventory(), Err(Reason::WrongFs));
    image.close(folder).unwrap();
    assert_eq!(image.inventory().unwrap(), b"");
}

/// Stored before orders 4 and 8: a slash is not escaped, so two lines read alike; a socket has a line as a file has.
#[test]
fn old_names() {
    let (mut image, root) = fresh(32);
    let folder = create(&mut image, root, "a", NewKind::Folder).unwrap();
    create(&mut image, folder, "b", NewKind::File).unwrap();
    create(&mut image, root, "a-b", NewKind::File).unwrap();
    let mut bytes = image.into_inner().into_bytes();
    damage::write(&mut bytes, Some(ROOT_FILE), 3 * SLOT + 5, b"/");
    damage::write(&mut bytes, Some(ROOT_FILE), 3 * SLOT + 260, &[4]);
    damage::record(&mut bytes, 5, damage::TYPE, &[4]);
    let image = Image::checked(bytes).unwrap();
    assert_eq!(image.inventory().unwrap(), b"3 2 2 /a\n4 1 1 /a/b\n5 4 1 /a/b\n");
}
