//! Finds the libraries of the proved calls and hands them to the linker, or says in one line how to make them.
//!
//! They are the archives of `tests/native LIBRARY`, on another processor than x86-64 those that were made for it.
//! DZOMRELIG_LIB, DZOMRELIG_EDGE_CONTENTS_LIB, DZOMRELIG_OWNERS_LIB and DZOMRELIG_CONTENTS_LIB name other files, archives or objects. Each is put into OUT_DIR as an
//! archive, so that crates which depend on this one get it too.
use std::path::{Path, PathBuf};
use std::{env, fs, process};

/// The crate, and the variable that names another file.
const LIBRARIES: [(&str, &str); 4] = [
    ("owners_contents", "DZOMRELIG_CONTENTS_LIB"),
    ("owners", "DZOMRELIG_OWNERS_LIB"),
    ("edge_contents", "DZOMRELIG_EDGE_CONTENTS_LIB"),
    ("edge", "DZOMRELIG_LIB"),
];
const ARCHIVE: &[u8] = b"!<arch>\n";
const OBJECT: &[u8] = b"\x7fELF";

fn fail(why: &str) -> ! {
    eprintln!("dzomrelig: {why}");
    process::exit(1)
}

/// A library's file, and how it is made.
fn library(name: &str, variable: &str) -> (PathBuf, String) {
    println!("cargo:rerun-if-env-changed={variable}");
    if let Some(named) = env::var_os(variable) {
        return (PathBuf::from(named), format!("{variable} names the archive of `tests/native {name} ARCHIVE`"));
    }
    let top = Path::new(&env::var_os("CARGO_MANIFEST_DIR").unwrap_or_default()).join("..");
    let arch = env::var("CARGO_CFG_TARGET_ARCH").unwrap_or_default();
    if arch == "x86_64" {
        (
            top.join(format!("target/staticlib/lib{name}.a")),
            format!("make it by `tests/native {name}` at the repository's top, or name it in {variable}"),
        )
    } else {
        (
            top.join(format!("target/native/{name}.o")),
            format!("make it on x86-64 by `tests/native {name} target/native/{name}.o {arch}-unknown-linux-gnu` at the repository's top, or name it in {variable}"),
        )
    }
}

/// The library that has a function.
fn home(function: &str) -> &'static str {
    let call = function.strip_prefix("own_");
    let contents = matches!(call.unwrap_or(function), "read" | "write" | "resize" | "fallocate" | "get_entry" | "list" | "path");
    match (call, contents) {
        (Some(_), true) => "owners_contents",
        (Some(_), false) => "owners",
        (None, true) => "edge_contents",
        (None, false) => "edge",
    }
}

/// The functions of a library, as `src/edge.rs` declares them.
fn functions(name: &str) -> impl Iterator<Item = &'static str> + '_ {
    let declared = include_str!("src/edge.rs").lines().filter_map(|line| line.trim().strip_prefix("fn dz_")?.split('(').next());
    declared.filter(move |function| home(function) == name)
}

/// A member's head and its bytes, which end at an even place.
fn member(name: &str, mut bytes: Vec<u8>) -> Vec<u8> {
    let mut all = format!("{name:<16}{:<12}{:<6}{:<6}{:<8}{:<10}`\n", 0, 0, 0, 644, bytes.len()).into_bytes();
    all.append(&mut bytes);
    all.resize(all.len().next_multiple_of(2), b'\n');
    all
}

/// An archive of one object, with the index that a linker asks for: how many functions there are, where the member of each is, their names.
fn archive_of(name: &str, object: &[u8]) -> Vec<u8> {
    let names: Vec<_> = functions(name).flat_map(|function| format!("dz_{function}\0").into_bytes()).collect();
    let count = functions(name).count() as u32;
    let index = |place: u32| {
        let numbers = [count].into_iter().chain((0..count).map(|_| place));
        member("/", numbers.flat_map(u32::to_be_bytes).chain(names.iter().copied()).collect())
    };
    let place = (ARCHIVE.len() + index(0).len()) as u32;
    [ARCHIVE.to_vec(), index(place), member("calls.o/", object.to_vec())].concat()
}

fn main() {
    let out = PathBuf::from(env::var_os("OUT_DIR").unwrap_or_default());
    println!("cargo:rustc-link-search=native={}", out.display());
    for (name, variable) in LIBRARIES {
        let (file, how) = library(name, variable);
        println!("cargo:rerun-if-changed={}", file.display());
        let Ok(bytes) = fs::read(&file) else { fail(&format!("no library of the proved calls at {}: {how}", file.display())) };
        let archive = if bytes.starts_with(ARCHIVE) {
            bytes
        } else if bytes.starts_with(OBJECT) {
            archive_of(name, &bytes)
        } else {
            fail(&format!("{} is neither an archive nor an object: {how}", file.display()))
        };
        if let Err(why) = fs::write(out.join(format!("libdzomrelig_{name}.a")), archive) {
            fail(&format!("{}: {why}", out.display()));
        }
        println!("cargo:rustc-link-lib=static=dzomrelig_{name}");
    }
}
