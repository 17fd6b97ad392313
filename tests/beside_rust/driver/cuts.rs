//! `driver cuts < SCRIPT`: the script's last call, a create that is done, is made once for each number of stores, each time in a forked copy of
//! the process whose device stops after so many. The arena that is left is opened by the Rust as by a host that starts again, and every name
//! of every folder is found. File names and names are in hexadecimal digits.
//!
//!     cut N KIND FILE PLACE LENGTH a SUM    the last of the N stores, and the arena's sum; `cut 0 a SUM` before the first
//!     name FOLDER NAME METADATA             a name that the folder of this number lists, and the metadata of what find answers, as REPLAY.md has them
//!     new METADATA                          the same of the created name, found in its folder; `new none` where there is none
//!     whole N                               the last line: the call has so many stores
//!     ! TEXT                                it broke off; nothing follows
use crate::device::{Device, Disk, Halt, Store};
use crate::script::{Call, Command, Next, Script};
use crate::world::{fork, metadata_words, text, Line, World, FED};
use rcore_fs::vfs::{FileSystem, FsError, INode};
use rcore_fs_sefs::SEFS;
use std::io::Write;
use std::panic::{catch_unwind, AssertUnwindSafe};
use std::sync::Arc;

/// How a forked copy ends.
const WHOLE: i32 = 0;
const STOPPED: i32 = 1;
const BROKE: i32 = 2;

fn digits(bytes: &[u8]) -> String {
    bytes.iter().map(|b| format!("{b:02x}")).collect()
}

fn words(store: &Store) -> String {
    let (which, name) = store.file;
    let file = if which == 0 { "metadata".to_string() } else { digits(&name) };
    format!(" {} {file} {} {}", store.kind, store.place, store.length)
}

/// All commands but the last, which is given back.
fn before_the_last(world: &mut World, bytes: &[u8]) -> Option<Command> {
    let mut script = Script(bytes);
    let mut last = None;
    while let Next::Do(command) = script.next() {
        match last.replace(command) {
            Some(Command::Call(who, call)) => {
                if let Line::Lost(_) = world.call(who, &call) {
                    return None;
                }
            }
            Some(outside) => world.outside(&outside),
            None => (),
        }
    }
    last
}

/// Every name below this folder, and the created one where this is its folder.
fn tell(folder: &Arc<dyn INode>, parent: u32, new: &str) {
    let id = folder.metadata().unwrap().inode;
    if id == parent as usize {
        match folder.find(new) {
            Ok(node) => println!("new{}", metadata_words(&node.metadata().unwrap())),
            Err(FsError::EntryNotFound) => println!("new none"),
            Err(e) => panic!("find of the new name: {e:?}"),
        }
    }
    for name in folder.list().unwrap().iter().filter(|name| *name != "." && *name != "..") {
        let node = folder.find(name).unwrap();
        let told = node.metadata().unwrap();
        println!("name {id} {}{}", digits(name.as_bytes()), metadata_words(&told));
        if told.type_ == rcore_fs::vfs::FileType::Dir {
            tell(&node, parent, new);
        }
    }
}

/// One cut, in a forked copy.
fn cut(world: &mut World, who: u8, call: &Call, stores: usize) -> i32 {
    let Call::Create(h, name, ..) = call else { panic!("the last call is no create") };
    let parent = world.table.row(*h).unwrap().id();
    let Halt { last, dropped, .. } = world.halted(who, call, stores);
    let device = Device::new(Disk::of(world.arena()));
    let sum = device.disk().total();
    println!("cut {stores}{} a {sum}", last.as_ref().map_or(String::new(), words));
    let fs = SEFS::open(Box::new(device.clone()), &FED, &FED).unwrap();
    tell(&fs.root_inode(), parent, text(name));
    assert_eq!(device.disk().total(), sum, "looking changed a byte");
    if dropped {
        STOPPED
    } else {
        WHOLE
    }
}

pub fn cuts(bytes: &[u8]) {
    let mut world = World::new();
    let Some(Command::Call(who, call)) = before_the_last(&mut world, bytes) else { return println!("! no call to cut") };
    for stores in 0.. {
        let ended = fork::run(|| {
            let code = catch_unwind(AssertUnwindSafe(|| cut(&mut world, who, &call, stores))).unwrap_or(BROKE);
            let _ = std::io::stdout().flush();
            code
        });
        match ended {
            Some(STOPPED) => (),
            Some(WHOLE) => return println!("whole {stores}"),
            _ => return println!("! cut {stores}"),
        }
    }
}
