//! Prints the tree of an image file and checks it: cargo run --example tree -- FILE
//!
//! It works on a copy in memory, and takes damaged images too: what can't be read is told in its place.
use std::collections::BTreeSet;
use std::process::ExitCode;
use std::{env, fs};

use dzomrelig::{Editor, Entry, Handle, Image, Kind, Metadata, Owner, Reason};

type Anyone<'a> = Editor<&'a mut Image>;

/// A folder's handle, by the names that lead to it from the root. An owner has few handles, so the folders on the way are closed.
fn open(anyone: &mut Anyone, path: &[Vec<u8>]) -> Result<Handle, Reason> {
    let mut folder = anyone.root()?;
    for name in path {
        let next = anyone.find(folder, name);
        anyone.close(folder)?;
        folder = next?;
    }
    Ok(folder)
}

/// An entry and what is known of its node.
type Known = (Entry, Result<Metadata, Reason>);

/// What is in a folder. A folder is read to its end before anything is found in it, since finding changes the image.
fn read(anyone: &mut Anyone, path: &[Vec<u8>]) -> Result<Vec<Result<Known, Reason>>, Reason> {
    let folder = open(anyone, path)?;
    let entries: Vec<_> = anyone.entries(folder).collect();
    let mut known = |entry: Entry| {
        let node = anyone.find(folder, &entry.name);
        let told = node.and_then(|node| {
            let told = anyone.metadata(node);
            anyone.close(node).and(told)
        });
        (entry, told)
    };
    let all = entries.into_iter().map(|entry| entry.map(&mut known)).collect();
    anyone.close(folder)?;
    Ok(all)
}

/// Prints what is in a folder, and in the folders in it. A folder that was printed is not printed again.
fn walk(anyone: &mut Anyone, path: &mut Vec<Vec<u8>>, seen: &mut BTreeSet<u32>) -> Result<(), Reason> {
    let indent = "  ".repeat(path.len() + 1);
    for item in read(anyone, path)? {
        let (entry, told) = match item {
            Ok(item) => item,
            Err(reason) => {
                println!("{indent}({reason})");
                continue;
            }
        };
        let name = String::from_utf8_lossy(&entry.name).escape_debug().to_string();
        match told {
            Ok(m) if m.kind == Kind::Folder => {
                println!("{indent}{name}/ (node {}, links {}, mode {:o})", m.inode, m.links, m.mode);
                if seen.insert(m.inode) {
                    path.push(entry.name);
                    walk(anyone, path, seen)?;
                    path.pop();
                }
            }
            Ok(m) => println!("{indent}{name} (node {}, {:?}, {} bytes, links {}, mode {:o})", m.inode, m.kind, m.size, m.links, m.mode),
            Err(reason) => println!("{indent}{name} (node {}: {reason})", entry.id),
        }
    }
    Ok(())
}

fn tree(bytes: Vec<u8>) -> Result<bool, Reason> {
    let mut image = Image::untrusted(bytes)?;
    let verdict = image.check();
    let mut anyone = image.editor(Owner::One);
    let root = anyone.root()?;
    let m = anyone.metadata(root)?;
    anyone.close(root)?;
    println!("/ (node {}, links {}, mode {:o})", m.inode, m.links, m.mode);
    walk(&mut anyone, &mut Vec::new(), &mut BTreeSet::from([m.inode]))?;
    match verdict {
        Ok(c) => println!("pass nodes {} unused {} free {}", c.nodes, c.unused, c.free),
        Err(rule) => println!("{rule}"),
    }
    Ok(verdict.is_ok())
}

fn main() -> ExitCode {
    let Some(path) = env::args_os().nth(1) else {
        eprintln!("usage: tree FILE");
        return ExitCode::from(2);
    };
    let told = fs::read(&path).map_err(|why| why.to_string()).and_then(|bytes| tree(bytes).map_err(|reason| reason.to_string()));
    match told {
        Ok(true) => ExitCode::SUCCESS,
        Ok(false) => ExitCode::FAILURE,
        Err(why) => {
            eprintln!("{}: {why}", path.to_string_lossy());
            ExitCode::FAILURE
        }
    }
}
