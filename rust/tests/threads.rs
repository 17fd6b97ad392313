//! An image goes from thread to thread, and is shared behind a lock.
mod common;

use std::sync::Mutex;
use std::thread;

use common::{create, fresh, names, TIME};
use dzomrelig::{Editor, FileName, Handle, Image, NewKind, Owner, Reason, OWN_HOLDS};

const ROUNDS: u64 = 60;

fn is_send<T: Send>() {}
fn is_sync<T: Sync>() {}

#[test]
fn types() {
    is_send::<Image>();
    is_sync::<Image>();
    is_send::<Handle>();
    is_send::<Editor<&mut Image>>();
    is_sync::<Editor<&Image>>();
    is_send::<Reason>();
}

/// What one editor does in a folder of its own, a call at a time.
fn edit(image: &Mutex<Image>, me: Owner) {
    let call = || Editor::new(image.lock().unwrap(), me);
    let root = call().root().unwrap();
    let folder = create(&mut call(), root, &format!("team{}", me.number()), NewKind::Folder).unwrap();
    call().close(root).unwrap();
    let mut kept = Vec::new();
    for round in 0..ROUNDS {
        let name = format!("glyph{}-{round}", me.number());
        let mut file = [0; 16];
        file[0] = me.number();
        file[8..].copy_from_slice(&round.to_le_bytes());
        let made = call().create(folder, &name, NewKind::File, 0o644, TIME, FileName(file)).unwrap();
        let id = call().metadata(made).unwrap().inode;
        let found = call().find(folder, &name).unwrap();
        assert_eq!(call().metadata(found).unwrap().inode, id);
        call().write_at(made, 0, &name).unwrap();
        kept.push(name.clone());
        let mut there = names(&call(), folder);
        there.sort();
        kept.sort();
        assert_eq!(there, kept);
        if round % 3 != 0 {
            // removed while it is open: the number stays this editor's
            call().remove_file(folder, &name).unwrap();
            assert_eq!(call().metadata(found).unwrap().inode, id);
            kept.retain(|k| *k != name);
        }
        call().close(made).unwrap();
        assert_eq!(call().read_to_vec(found).unwrap(), name.as_bytes());
        assert_eq!(call().metadata(found).unwrap().inode, id);
        call().close(found).unwrap();
    }
    call().close(folder).unwrap();
}

#[test]
fn four_editors() {
    let image = Mutex::new(*fresh(512).0.into_inner());
    thread::scope(|scope| {
        for me in Owner::ALL {
            let image = &image;
            scope.spawn(move || edit(image, me));
        }
    });
    let image = image.into_inner().unwrap();
    assert_eq!(image.check().unwrap().nodes, 1 + 4 + 4 * 20);
}

/// One of four has many tabs and never closes one; the other three get theirs all the same.
#[test]
fn many_tabs() {
    let (mut image, root) = fresh(128);
    for n in 0..OWN_HOLDS {
        let made = create(&mut image, root, &format!("glyph{n}"), NewKind::File).unwrap();
        image.close(made).unwrap();
    }
    image.close(root).unwrap();
    let image = Mutex::new(*image.into_inner());
    thread::scope(|scope| {
        for me in Owner::ALL {
            let image = &image;
            scope.spawn(move || {
                let call = || Editor::new(image.lock().unwrap(), me);
                let root = call().root().unwrap();
                for round in 0..ROUNDS {
                    let tabs: Vec<_> = (1..OWN_HOLDS).map(|n| call().find(root, format!("glyph{n}")).unwrap()).collect();
                    assert_eq!(call().root(), Err(Reason::TableFull));
                    if me == Owner::One {
                        return;
                    }
                    for (n, tab) in (1..).zip(tabs) {
                        assert_eq!(call().metadata(tab).unwrap().inode, 3 + n);
                        call().write_at(tab, round, me.number().to_string()).unwrap();
                        call().close(tab).unwrap();
                    }
                }
            });
        }
    });
    let mut image = image.into_inner().unwrap();
    assert_eq!(image.editor(Owner::One).root(), Err(Reason::TableFull));
    assert!(Owner::ALL[1..].iter().all(|&other| image.editor(other).root().is_ok()));
    assert_eq!(image.check().unwrap().nodes, 1 + OWN_HOLDS as u32);
}

#[test]
fn readers_side_by_side() {
    let (mut image, root) = fresh(64);
    for n in 0..10 {
        let made = create(&mut image, root, &format!("glyph{n}"), NewKind::File).unwrap();
        image.close(made).unwrap();
    }
    let image = &image;
    thread::scope(|scope| {
        for _ in 0..4 {
            scope.spawn(move || {
                for _ in 0..50 {
                    assert_eq!(image.snapshot(root).unwrap().len(), 10);
                    assert_eq!(image.metadata(root).unwrap().size, 12);
                    assert_eq!(image.check().unwrap().nodes, 11);
                    assert_eq!(image.inventory().unwrap().iter().filter(|&&b| b == b'\n').count(), 10);
                }
            });
        }
    });
}

/// An enclave's threads have small stacks; a call takes less than 48 KB.
#[test]
fn small_stack() {
    let run = || {
        let (mut image, root) = fresh(32);
        let a = create(&mut image, root, "a", NewKind::Folder).unwrap();
        let b = create(&mut image, root, "b", NewKind::File).unwrap();
        image.link(root, "c", b).unwrap();
        image.rename(root, "c", a, "d").unwrap();
        assert_eq!(image.path(a).unwrap(), b"/a");
        image.remove_file(a, "d").unwrap();
        image.write_at(b, 470, "outline of a glyph").unwrap();
        image.resize(b, 481).unwrap();
        image.insert_range(b, 128, 384).unwrap();
        image.collapse_range(b, 0, 384).unwrap();
        assert_eq!(image.read_to_vec(b).unwrap().len(), 481);
        image.sync().unwrap();
        image.close(b).unwrap();
        assert_eq!(image.check().unwrap().nodes, 3);
        assert_eq!(image.inventory().unwrap(), b"3 2 2 /a\n4 1 1 /b\n");
        image.reopen().unwrap();
        image.mend().unwrap();
        image.into_inner()
    };
    let made = thread::Builder::new().stack_size(128 * 1024).spawn(run).unwrap().join().unwrap();
    assert_eq!(made.blocks(), 32);
}
