//! "My curve has my colleague's corner in it": what must not happen, as a story of calls (docs/COURSE.md).
mod common;

use common::{create, fresh, names};
use dzomrelig::{NewKind, Owner, Reason};

const ANN: Owner = Owner::One;
const BEN: Owner = Owner::Two;

#[test]
fn a_number_stays_taken_while_a_handle_is_open() {
    let (image, root) = fresh(32);
    let mut image = image.into_inner();
    let ann = create(&mut image.editor(ANN), root, "a", NewKind::File).unwrap();
    let outline = image.editor(ANN).metadata(ann).unwrap().inode;

    // Ben opens a too, and removes it
    let his_root = image.editor(BEN).root().unwrap();
    let ben = image.editor(BEN).find(his_root, "a").unwrap();
    assert_ne!(ann, ben);
    assert_eq!(image.editor(BEN).metadata(ben).unwrap().inode, outline);
    image.editor(BEN).remove_file(his_root, "a").unwrap();
    assert_eq!(image.editor(ANN).metadata(ann).unwrap().links, 0);
    assert_eq!(image.editor(ANN).find(root, "a"), Err(Reason::EntryNotFound));

    // his new glyph is another node
    let b = create(&mut image.editor(BEN), his_root, "b", NewKind::File).unwrap();
    assert_ne!(image.editor(BEN).metadata(b).unwrap().inode, outline);

    // he closes his a, and hers still works; his old handle doesn't, and hers never did for him
    assert_eq!(image.editor(BEN).close(ann), Err(Reason::BadHandle));
    image.editor(BEN).close(ben).unwrap();
    assert_eq!(image.editor(BEN).metadata(ben), Err(Reason::BadHandle));
    assert_eq!(image.editor(ANN).metadata(ann).unwrap().inode, outline);
    assert!(image.check().is_ok());

    // she closes hers, the last: now the number is free, and the next create has it
    let mut image = image.editor(ANN);
    image.close(ann).unwrap();
    assert_eq!(image.close(ann), Err(Reason::BadHandle));
    let c = create(&mut image, root, "c", NewKind::File).unwrap();
    assert_eq!(image.metadata(c).unwrap().inode, outline);
    assert_ne!((c.hold, c.stamp), (ann.hold, ann.stamp));
    assert_eq!(image.metadata(ann), Err(Reason::BadHandle));
    assert_eq!(names(&image, root), ["b", "c"]);
    assert_eq!(image.check().unwrap().nodes, 3);
}

#[test]
fn a_slot_number_does_not_stay_put() {
    let (mut image, root) = fresh(32);
    for name in ["a", "b", "c"] {
        create(&mut image, root, name, NewKind::File).unwrap();
    }
    assert_eq!(image.entry(root, 2).unwrap().name, b"a");
    image.remove_file(root, "a").unwrap();
    assert_eq!(image.entry(root, 2).unwrap().name, b"c");
    assert_eq!(image.metadata(root).unwrap().size, 4);
}
