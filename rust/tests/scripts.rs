//! The call scripts of the port, line for line through this crate.
mod common;

use std::io::Write as _;
use std::path::{Path, PathBuf};
use std::{fs, io};

use common::script::replay;

fn top() -> PathBuf {
    Path::new(env!("CARGO_MANIFEST_DIR")).join("..")
}

/// Says it where the tests run, also of a test that passes.
fn say(text: &str) {
    io::stderr().write_all(format!("{text}\n").as_bytes()).unwrap();
}

/// How many lines a script has; each is as expected.
fn compare(name: &str, script: &[u8], expected: &str) -> usize {
    let text = replay(script);
    for (number, (got, want)) in text.lines().zip(expected.lines()).enumerate() {
        assert_eq!(got, want, "{name}, line {}", number + 1);
    }
    assert_eq!(text, expected, "{name}: the lines of one go on");
    expected.lines().count()
}

/// How many scripts and lines a folder of NAME.script and NAME.expected has; none where it is not there.
fn folder(path: &Path) -> Option<(usize, usize)> {
    let Ok(files) = fs::read_dir(path) else {
        say(&format!("skipped: {} is not there", path.display()));
        return None;
    };
    let mut scripts: Vec<_> =
        files.map(|file| file.unwrap().path()).filter(|file| file.extension().is_some_and(|e| e == "script")).collect();
    scripts.sort();
    let lines = scripts
        .iter()
        .map(|script| {
            let expected = fs::read_to_string(script.with_extension("expected")).unwrap();
            compare(&script.display().to_string(), &fs::read(script).unwrap(), &expected)
        })
        .sum();
    say(&format!("{} scripts, {lines} lines equal: {}", scripts.len(), path.display()));
    Some((scripts.len(), lines))
}

#[test]
fn acceptance() {
    if let Some((scripts, lines)) = folder(&top().join("../shared/vectors-02/level-14")) {
        assert!(scripts >= 15 && lines >= 2_612);
    }
    // scripts of earlier levels, made scripts of this one by tests/model/lifted.py
    for (level, least) in
        [31_347, 3_578, 3_611, 3_606, 3_365, 3_548, 3_750, 3_394, 2_125, 2_472, 2_358, 2_630, 2_218, 4_933].into_iter().enumerate()
    {
        if let Some((_, lines)) = folder(&top().join(format!("target/lifted/level-{level}"))) {
            assert!(lines >= least);
        }
    }
}

#[test]
fn answers_of_the_rust() {
    let (scripts, lines) = folder(&top().join("tests/beside_rust/sample")).unwrap();
    assert!(scripts >= 5 && lines >= 6_500);
}

#[test]
fn script_of_the_gate() {
    let gate = top().join("crates/replay");
    let lines = compare("crates/replay/stdin", &fs::read(gate.join("stdin")).unwrap(), &fs::read_to_string(gate.join("stdout")).unwrap());
    say(&format!("{lines} lines equal: {}", gate.display()));
    assert!(lines > 5_000);
}

#[test]
fn broken_scripts() {
    assert_eq!(replay(b""), "");
    assert_eq!(replay(b"\0\xff"), "");
    assert_eq!(replay(b"\x05"), "bad script\n");
    assert_eq!(replay(b"\x03\0"), "bad script\n");
    assert_eq!(replay(b"\x1f"), "bad script\n");
    assert_eq!(replay(b"\x24"), "bad script\n");
    // a write of 8,193 bytes
    assert_eq!(replay(&[b"\x21".as_slice(), &[0; 21], &[1, 32], &[0; 8193]].concat()), "bad script\n");
    // a walk along 8,193 bytes, and one with a link buffer of as many
    assert_eq!(replay(&[b"\x23".as_slice(), &[0; 13], &[1, 32], &[97; 8193], &[0; 2]].concat()), "bad script\n");
    assert_eq!(replay(&[b"\x23".as_slice(), &[0; 13], &[1, 0, 97], &[1, 32]].concat()), "bad script\n");
    // an inventory of 8,193 bytes, a range in a mode that is none, a path of 8,193 bytes, and the byte after it
    assert_eq!(replay(b"\x26\x01\x20"), "bad script\n");
    assert_eq!(replay(&[b"\x28".as_slice(), &[0; 13], &[6], &[0; 17]].concat()), "bad script\n");
    assert_eq!(replay(&[b"\x29".as_slice(), &[0; 13], &[1, 32]].concat()), "bad script\n");
    assert_eq!(replay(b"\x2a\0\0"), "bad script\n");
    assert_eq!(replay(&[0; (1 << 20) + 1]), "bad script\n");
}
