//! The programs: what they print, and what they write.

use std::collections::BTreeMap;
use std::ffi::OsString;
use std::fs;
use std::io::Write;
use std::path::Path;
use std::process::{Command, Stdio};

const TESTS: &str = concat!(env!("CARGO_MANIFEST_DIR"), "/../../tests");
const BLOCK_TOWN: &[u8] = include_bytes!("../../../towns/block-town.txt");

/// The files of a folder, by name.
fn files(folder: &Path) -> BTreeMap<OsString, Vec<u8>> {
    let entries = fs::read_dir(folder).expect("a folder");
    entries
        .map(|entry| entry.expect("an entry"))
        .map(|entry| (entry.file_name(), fs::read(entry.path()).expect("a file")))
        .collect()
}

#[test]
fn town_vectors_writes_what_is_stored() {
    let place = Path::new(env!("CARGO_TARGET_TMPDIR")).join("town-vectors");
    // What an earlier run left must not stand in for what this one writes.
    if place.exists() {
        fs::remove_dir_all(&place).expect("a clear place");
    }
    let program = env!("CARGO_BIN_EXE_town-vectors");
    let ended = Command::new(program).arg(&place).status();
    assert!(ended.expect("town-vectors").success());
    for folder in ["levels", "routes", "counties"] {
        let (made, stored) = (
            files(&place.join(folder)),
            files(&Path::new(TESTS).join(folder)),
        );
        assert!(!stored.is_empty(), "tests/{folder} has no files");
        assert!(made.keys().eq(stored.keys()), "other names in {folder}");
        for (name, bytes) in made {
            assert!(bytes == stored[&name], "{folder}/{}", name.display());
        }
    }
}

/// What a program prints, and its exit code.
fn run(program: &str, words: &[&str], input: &[u8]) -> (String, Option<i32>) {
    let mut running = Command::new(program)
        .args(words)
        .stdin(Stdio::piped())
        .stdout(Stdio::piped())
        .stderr(Stdio::null())
        .spawn()
        .expect("a program");
    let mut stdin = running.stdin.take().expect("its input");
    // Who does not understand its words ends without reading.
    let _ = stdin.write_all(input);
    drop(stdin);
    let ended = running.wait_with_output().expect("its output");
    let printed = String::from_utf8(ended.stdout).expect("text");
    (printed, ended.status.code())
}

#[test]
fn town_levels_prints_levels() {
    let (printed, code) = run(env!("CARGO_BIN_EXE_town-levels"), &[], BLOCK_TOWN);
    assert_eq!((printed.as_str(), code), ("0 1 6\n1 1 6\n2 1 6\n", Some(0)));
}

#[test]
fn town_route_prints_an_answer() {
    let cut = &BLOCK_TOWN[..BLOCK_TOWN.len() - 1];
    for (words, text, must) in [
        (["0", "2", "3"], BLOCK_TOWN, "found 1500\n"),
        (["0", "2", "4"], BLOCK_TOWN, "found 600\n"),
        (["0", "2", "least"], BLOCK_TOWN, "found 1500 1\n"),
        (["0", "3", "5"], BLOCK_TOWN, "refused 9\n"),
        (["0", "2", "5"], BLOCK_TOWN, "refused 10\n"),
        (["0", "3", "5"], cut, "refused 1 4\n"),
        (["0", "1", "least"], b"010100020000FC\n", "none\n"),
    ] {
        let answer = run(env!("CARGO_BIN_EXE_town-route"), &words, text);
        assert_eq!(answer, (must.into(), Some(0)), "{words:?}");
    }
    for words in [&["0", "2"][..], &["0", "2", "most"], &["0", "-1", "4"]] {
        let answer = run(env!("CARGO_BIN_EXE_town-route"), words, BLOCK_TOWN);
        assert_eq!(answer, (String::new(), Some(2)), "{words:?}");
    }
}
