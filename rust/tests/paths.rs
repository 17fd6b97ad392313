//! The path of a folder: as deep as a tree can be, on a small stack; beside moves by chance; what refuses it, and what stays of the output.
mod common;

use std::collections::BTreeMap;
use std::thread;

use common::damage::{self, record, superblock};
use common::script::TESTED;
use common::{create, file, fresh, mine, Mine, Numbers, ROOT_FILE, TIME};
use dzomrelig::{Handle, Image, Kind, NewKind, Owner, Reason, BLOCKS_MOST, NAME_LONGEST, OWN_HOLDS, PATH_LONGEST, SLOT};

/// So many names below root fit the largest image: each folder, root too, takes three blocks, and the records take 336.
const DEEPEST: usize = 1_252;

/// The node behind a handle.
fn id(image: &Mine, h: Handle) -> u32 {
    image.metadata(h).unwrap().inode
}

/// The path is this one; the output's bytes after it stay, and the walk by it opens the same folder.
fn leads(image: &mut Mine, folder: Handle, want: &[u8]) {
    let mut out = vec![238; want.len() + 5];
    assert_eq!(image.path_into(folder, &mut out), Ok(want.len()));
    assert!(&out[..want.len()] == want && out[want.len()..] == [238; 5]);
    let again = image.walk(folder, out[..want.len()].to_vec(), &mut []).unwrap();
    assert_eq!(id(image, again), id(image, folder));
    image.close(again).unwrap();
}

/// And so it is in a vector, and in a buffer that is just as long; in a shorter one it does not fit.
fn is(image: &mut Mine, folder: Handle, want: &[u8]) {
    leads(image, folder, want);
    assert!(image.path(folder).unwrap() == want);
    let mut out = vec![7; want.len() + 5];
    assert_eq!(image.path_into(folder, &mut out[..want.len()]), Ok(want.len()));
    assert!(&out[..want.len()] == want && out[want.len()..] == [7; 5]);
    out.fill(9);
    assert_eq!(image.path_into(folder, &mut out[..want.len() - 1]), Err(Reason::OutFull));
    assert!(out.iter().all(|&b| b == 9));
}

/// The call is refused for this reason, and no byte has changed, of the output neither.
fn no(image: &Mine, reason: Reason, folder: Handle, room: usize) {
    let mut out = vec![238; room];
    assert_eq!(image.path_into(folder, &mut out), Err(reason));
    assert!(out.iter().all(|&b| b == 238));
    if reason != Reason::OutFull {
        assert_eq!(image.path(folder), Err(reason));
    }
}

// ---- deep trees

/// As an enclave's thread runs it, with a stack of 64 KB.
fn on_small_stack<T: Send>(run: impl FnOnce() -> T + Send) -> T {
    thread::scope(|scope| thread::Builder::new().stack_size(64 * 1024).spawn_scoped(scope, run).unwrap().join().unwrap())
}

/// One folder in the other until there is no room for another.
fn grow(image: &mut Mine, root: Handle, name: fn(usize) -> String) {
    let mut at = root;
    for depth in 0..DEEPEST {
        let made = create(image, at, &name(depth), NewKind::Folder).unwrap();
        if depth > 0 {
            image.close(at).unwrap();
        }
        at = made;
    }
    assert_eq!(create(image, at, "x", NewKind::Folder), Err(Reason::NoDeviceSpace));
    image.close(at).unwrap();
}

/// The path of each folder on the way down.
fn asked(image: &mut Mine, root: Handle, name: fn(usize) -> String) -> usize {
    let (mut at, mut path) = (image.find(root, ".").unwrap(), vec![]);
    is(image, at, b"/");
    for depth in 0..DEEPEST {
        let name = name(depth);
        let next = image.find(at, &name).unwrap();
        image.close(at).unwrap();
        path.push(b'/');
        path.extend(name.into_bytes());
        leads(image, next, &path);
        at = next;
    }
    is(image, at, &path);
    image.close(at).unwrap();
    path.len()
}

/// A letter of two bytes, and so many others that every length comes, from 2 to 255.
fn of_any_length(depth: usize) -> String {
    format!("é{}", "n".repeat(depth * 7 % (NAME_LONGEST - 1)))
}

fn of_the_longest(depth: usize) -> String {
    format!("{depth:0>NAME_LONGEST$}")
}

#[test]
fn deepest_tree() {
    // where each call tests the image, one tree is enough
    for name in [of_the_longest, of_any_length].into_iter().take(if TESTED { 1 } else { 2 }) {
        let (mut image, root) = fresh(BLOCKS_MOST);
        let length = on_small_stack(|| {
            grow(&mut image, root, name);
            asked(&mut image, root, name)
        });
        assert!(length <= 256 * (BLOCKS_MOST / 3));
        assert!(image.check().is_ok());
    }
}

// ---- beside moves by chance

const ROOT: u32 = 2;

/// Of each folder but root the one above it, and its name there.
type Tree = BTreeMap<u32, (u32, String)>;

fn path_in(tree: &Tree, mut at: u32) -> String {
    let mut path = String::new();
    while let Some((above, name)) = tree.get(&at) {
        path = format!("/{name}{path}");
        at = *above;
    }
    if path.is_empty() {
        "/".to_owned()
    } else {
        path
    }
}

/// A folder by chance, root among them.
fn any(tree: &Tree, n: &mut Numbers) -> u32 {
    tree.keys().copied().nth(n.below(1 + tree.len() as u64) as usize).unwrap_or(ROOT)
}

fn name(n: &mut Numbers) -> String {
    match n.below(9) {
        0 => "n".repeat(1 + n.below(255) as usize),
        k => ["a", "b", "c", "light", "bold", "é", "...", "a b"][k as usize - 1].to_owned(),
    }
}

/// One change by chance, which may be refused, of the image and of what is known of it.
fn change(image: &mut Mine, root: Handle, tree: &mut Tree, n: &mut Numbers) {
    let (new, to) = (name(n), any(tree, n));
    let target = image.walk(root, path_in(tree, to), &mut []).unwrap();
    let kind = if n.below(4) == 0 { NewKind::File } else { NewKind::Folder };
    let moved = any(tree, n);
    match tree.get(&moved).cloned() {
        Some((above, old)) if n.below(3) > 0 => {
            let source = image.walk(root, path_in(tree, above), &mut []).unwrap();
            if n.below(6) == 0 {
                if image.remove_folder(source, old).is_ok() {
                    tree.remove(&moved);
                }
            } else if image.rename(source, old, target, &new).is_ok() {
                tree.retain(|_, place| *place != (to, new.clone()));
                tree.insert(moved, (to, new));
            }
            image.close(source).unwrap();
        }
        _ => {
            if let Ok(made) = create(image, target, &new, kind) {
                if kind == NewKind::Folder {
                    tree.insert(id(image, made), (to, new));
                }
                image.close(made).unwrap();
            }
        }
    }
    image.close(target).unwrap();
}

/// Each folder's path is what the moves have made of it, and so is that of a folder which stays open; of one that was removed there is none.
#[test]
fn moves_by_chance() {
    let n = &mut Numbers(0x7171_EBA2_0F14_5EED);
    let (mut asked, mut removed) = (0, 0);
    for round in 0..40 {
        let (mut image, root) = fresh(100 + 20 * round);
        let (mut tree, mut open) = (Tree::new(), Vec::new());
        for _ in 0..80 {
            change(&mut image, root, &mut tree, n);
            if open.len() < 3 {
                let node = any(&tree, n);
                open.push((node, image.walk(root, path_in(&tree, node), &mut []).unwrap()));
            }
            for &(node, handle) in &open {
                if node == ROOT || tree.contains_key(&node) {
                    is(&mut image, handle, path_in(&tree, node).as_bytes());
                    asked += 1;
                } else {
                    no(&image, Reason::DirRemoved, handle, 300);
                    removed += 1;
                }
            }
            if n.below(4) == 0 {
                image.close(open.swap_remove(n.below(open.len() as u64) as usize).1).unwrap();
            }
        }
        for &node in tree.keys() {
            let path = path_in(&tree, node);
            let handle = image.walk(root, &path, &mut []).unwrap();
            assert_eq!(id(&image, handle), node);
            is(&mut image, handle, path.as_bytes());
            image.close(handle).unwrap();
        }
        assert!(image.check().is_ok());
    }
    assert!(asked > 8_000 && removed > 100, "{asked} {removed}");
}

// ---- refusals

/// 4, 7, 8, 20, in that order, whatever the output's length.
#[test]
fn refused_in_order() {
    let (mut image, root) = fresh(64);
    let leaf = create(&mut image, root, "leaf", NewKind::File).unwrap();
    let link = create(&mut image, root, "link", NewKind::Symlink).unwrap();
    let gone = create(&mut image, root, "gone", NewKind::Folder).unwrap();
    let a = create(&mut image, root, "a", NewKind::Folder).unwrap();
    image.remove_folder(root, "gone").unwrap();
    for room in [0, 1, 300] {
        no(&image, Reason::BadHandle, Handle { hold: 31, stamp: 7 }, room);
        no(&image, Reason::NotDir, leaf, room);
        no(&image, Reason::NotDir, link, room);
        no(&image, Reason::DirRemoved, gone, room);
    }
    // a removed file is no folder, in the first place
    image.remove_file(root, "leaf").unwrap();
    no(&image, Reason::NotDir, leaf, 300);
    no(&image, Reason::OutFull, root, 0);
    no(&image, Reason::OutFull, a, 0);
    no(&image, Reason::OutFull, a, 1);
    is(&mut image, root, b"/");
    is(&mut image, a, b"/a");
    // another's handle, and a reader's call
    assert_eq!(image.editor(Owner::Two).path(a), Err(Reason::BadHandle));
    assert_eq!(image.reader(Owner::One).path(a).unwrap(), b"/a");
    // no hold has to be free
    for _ in 5..OWN_HOLDS {
        image.root().unwrap();
    }
    assert_eq!(image.root(), Err(Reason::TableFull));
    assert_eq!(image.path(a).unwrap(), b"/a");
}

/// An image with /a/b/c, of which root and c are open; the nodes are 3, 4 and 5, and their files 1, 2 and 3.
fn three() -> (Mine, Handle, Handle) {
    let (mut image, root) = fresh(32);
    let mut at = root;
    for (n, name) in (1..).zip(["a", "b", "c"]) {
        let made = image.create(at, name, NewKind::Folder, 0o755, TIME, file(n)).unwrap();
        if n > 1 {
            image.close(at).unwrap();
        }
        at = made;
    }
    image.sync().unwrap();
    (image, root, at)
}

/// On images from elsewhere the climb may not come to root. It says so whatever room there is.
#[test]
fn damaged() {
    let (image, root, c) = three();
    let stuck = |wrong: &dyn Fn(&mut Vec<u8>)| {
        let mut bytes = image.bytes().to_vec();
        wrong(&mut bytes);
        let image = mine(Image::from_parts(bytes, *image.table()));
        for room in [0, 6, 300] {
            no(&image, Reason::Stuck, c, room);
        }
        assert_eq!(image.path(root).unwrap(), b"/");
    };
    let dots = |node: u8| move |bytes: &mut Vec<u8>| damage::write(bytes, Some(file(3)), SLOT, &[node]);
    let in_root = |at, byte: u8| move |bytes: &mut Vec<u8>| damage::write(bytes, Some(ROOT_FILE), SLOT * 2 + at, &[byte]);
    // `..` names a node that is not there, or the folder itself, which has no such name
    stuck(&dots(50));
    stuck(&dots(5));
    // no name for a; one that is not UTF-8; a slot whose type is none
    stuck(&in_root(0, 9));
    stuck(&in_root(4, 255));
    stuck(&in_root(260, 5));
    // what is above is no folder, or has no type, or no file
    for kind in [0, 1, 3, 5] {
        stuck(&|bytes| record(bytes, 4, damage::TYPE, &[kind]));
    }
    stuck(&|bytes| record(bytes, 4, damage::FILE, &[9; 16]));
    // no superblock: root's path is there, and no other
    stuck(&|bytes| superblock(bytes, damage::GROUPS, 0));
}

/// A way up that goes round: it ends after 4,096 folders.
#[test]
fn round_and_round() {
    let (mut image, root, _) = three();
    let a = image.find(root, "a").unwrap();
    let mut bytes = image.bytes().to_vec();
    let mut put = |file, slot, node: u8| {
        damage::write(&mut bytes, Some(file), SLOT * slot, &[node]);
        mine(Image::from_parts(&*bytes, *image.table()))
    };
    // a lies in b, which has the name c for it, and b in root
    put(file(1), 1, 4);
    put(file(2), 2, 3);
    put(ROOT_FILE, 2, 4);
    assert_eq!(put(file(2), 1, 2).path(a).unwrap(), b"/a/c");
    // and now b lies in a
    no(&put(file(2), 1, 3), Reason::Stuck, a, PATH_LONGEST);
}

/// The type of the handle's own row: above 4 it is none, and 0 is no folder.
#[test]
fn types_in_the_table() {
    let (image, _, c) = three();
    for (kind, reason) in [(0, Reason::NotDir), (1, Reason::NotDir), (4, Reason::NotDir), (5, Reason::Stuck), (255, Reason::Stuck)] {
        let mut table = *image.table();
        let row = table.chunks_exact_mut(117).find(|row| row[..4] == [5, 0, 0, 0]).unwrap();
        row[5 + damage::TYPE] = kind;
        no(&mine(Image::from_parts(image.bytes(), table)), reason, c, 0);
    }
}

/// Names from before order 4 are written as they are stored, and then two folders may have one path. The walk takes the slash for one between two names.
#[test]
fn stored_slashes() {
    let (mut image, root) = fresh(64);
    let a = create(&mut image, root, "a", NewKind::Folder).unwrap();
    let inner = create(&mut image, a, "b", NewKind::Folder).unwrap();
    let old = create(&mut image, root, "a-b", NewKind::Folder).unwrap();
    let below = create(&mut image, old, "c", NewKind::Folder).unwrap();
    let mut bytes = image.bytes().to_vec();
    damage::write(&mut bytes, Some(ROOT_FILE), SLOT * 3 + 5, b"/");
    let mut image = mine(Image::from_parts(bytes, *image.table()));
    assert!(image.check().is_ok());
    assert_eq!(image.path(old).unwrap(), b"/a/b");
    assert_eq!(image.path(below).unwrap(), b"/a/b/c");
    is(&mut image, inner, b"/a/b");
    assert_eq!(image.walk(root, "/a/b/c", &mut []), Err(Reason::EntryNotFound));
    // a slash in front is one of two, and a walk takes no empty part
    let mut bytes = image.bytes().to_vec();
    damage::write(&mut bytes, Some(ROOT_FILE), SLOT * 3 + 4, b"/a\0");
    let mut other = mine(Image::from_parts(bytes, *image.table()));
    assert!(other.check().is_ok());
    assert_eq!(other.path(old).unwrap(), b"//a");
    assert_eq!(other.walk(root, "//a", &mut []), Err(Reason::BadName));
    // a path by names is there all the same
    let found = image.find(root, "a/b").unwrap();
    assert_eq!((id(&image, found), image.metadata(found).unwrap().kind), (id(&image, old), Kind::Folder));
}
