//! What the crate declares is what the header says: sizes, types, reasons, and every function's parameters.
use std::collections::BTreeMap;

use dzomrelig::{
    FallocateMode, Kind, Reason, BLOCK, BLOCKS_LEAST, BLOCKS_MOST, FILE_LONGEST, LINKS_MOST, NAME_LONGEST, PATH_LONGEST, RANGE_UNIT, SLOT,
    TABLE,
};

const HEADER: &str = include_str!("../../include/dzomrelig.h");
const EDGE: &str = include_str!("../src/edge.rs");

/// The header's `#define NAME NUMBER`.
fn numbers() -> BTreeMap<&'static str, usize> {
    let defined = HEADER.lines().filter_map(|line| line.strip_prefix("#define "));
    defined.filter_map(|line| line.split_once(' ')).filter_map(|(name, rest)| Some((name, rest.split(' ').next()?.parse().ok()?))).collect()
}

#[test]
fn sizes_and_types() {
    let numbers = numbers();
    let ours = [
        ("DZ_BLOCK", BLOCK),
        ("DZ_BLOCKS_LEAST", BLOCKS_LEAST),
        ("DZ_BLOCKS_MOST", BLOCKS_MOST),
        ("DZ_TABLE", TABLE),
        ("DZ_SLOT", SLOT),
        ("DZ_FILE_NAME", 16),
        ("DZ_NAME_LONGEST", NAME_LONGEST),
        ("DZ_FILE_LONGEST", FILE_LONGEST as usize),
        ("DZ_PATH_LONGEST", PATH_LONGEST),
        ("DZ_LINKS_MOST", LINKS_MOST),
        ("DZ_FILE", Kind::File.number() as usize),
        ("DZ_FOLDER", Kind::Folder.number() as usize),
        ("DZ_SYMLINK", Kind::Symlink.number() as usize),
        ("DZ_SOCKET", Kind::Socket.number() as usize),
        ("DZ_ALLOCATE", FallocateMode::Allocate { keep_size: true }.number() as usize),
        ("DZ_KEEP_SIZE", FallocateMode::Allocate { keep_size: true }.flags() as usize),
        ("DZ_PUNCH_HOLE", FallocateMode::PunchHoleKeepSize.number() as usize),
        ("DZ_ZERO_RANGE", FallocateMode::ZeroRange.number() as usize),
        ("DZ_ZERO_RANGE_KEEP_SIZE", FallocateMode::ZeroRangeKeepSize.number() as usize),
        ("DZ_COLLAPSE_RANGE", FallocateMode::CollapseRange.number() as usize),
        ("DZ_INSERT_RANGE", FallocateMode::InsertRange.number() as usize),
        ("DZ_RANGE_UNIT", RANGE_UNIT as usize),
        ("DZ_HANDLE_WORDS", 2),
        ("DZ_METADATA_WORDS", 14),
        ("DZ_COUNTS_WORDS", 3),
        ("DZ_NEXT_WORDS", 1),
        ("DZ_LENGTH_WORDS", 1),
        ("DZ_CHAINS", 8192),
    ];
    for (name, value) in ours {
        assert_eq!(numbers.get(name), Some(&value), "{name}");
    }
}

#[test]
fn reasons() {
    let numbers = numbers();
    for line in HEADER.lines().filter_map(|line| line.trim().strip_prefix("case ")) {
        let (name, text) = line.split_once(": return ").unwrap();
        let (number, text) = (numbers[name] as u32, text.trim_matches(['"', ';']));
        match Reason::try_from(number) {
            Ok(reason) => assert_eq!((reason.name(), reason.number()), (text, number)),
            Err(_) => assert!(matches!(text, "Done" | "WrongSize"), "{name}"),
        }
    }
    assert!(Reason::all().all(|reason| HEADER.contains(&format!("return \"{}\";", reason.name()))));
}

/// The types of a function's parameters, by what comes after `start` in a text.
fn parameters<'a>(text: &'a str, start: &str) -> Vec<&'a str> {
    let from = &text[text.find(start).unwrap_or_else(|| panic!("no {start}")) + start.len()..];
    from[..from.find(')').unwrap()].split(',').map(str::trim).collect()
}

fn as_rust(parameter: &str) -> &'static str {
    // the type is what stands before the parameter's name
    let end = parameter.rfind([' ', '*']).unwrap();
    match parameter[..=end].trim() {
        "uint8_t *" => "*mut u8",
        "const uint8_t *" => "*const u8",
        "uint64_t *" => "*mut u64",
        "uint16_t *" => "*mut u16",
        "const uint16_t *" => "*const u16",
        "size_t" => "usize",
        "uint8_t" => "u8",
        "uint16_t" => "u16",
        "uint32_t" => "u32",
        "uint64_t" => "u64",
        "int64_t" => "i64",
        other => panic!("the type {other}"),
    }
}

#[test]
fn functions() {
    let declared: Vec<_> = HEADER.lines().filter_map(|l| l.strip_prefix("uint32_t dz_")).map(|l| l.split('(').next().unwrap()).collect();
    assert_eq!(declared.len(), 24 + 20);
    for name in declared {
        let theirs: Vec<_> = parameters(HEADER, &format!("\nuint32_t dz_{name}(")).into_iter().map(as_rust).collect();
        let ours: Vec<_> = parameters(EDGE, &format!("fn dz_{name}(")).into_iter().map(|p| p.split_once(": ").unwrap().1).collect();
        assert_eq!(ours, theirs, "dz_{name}");
    }
}
