//! Nothing is read that was not written: check and encode on every vector, in memory that is new, under valgrind where that is there.
mod cases;
mod commands;

use cases::{cases, deep, examples, path, record, typed, word};
use commands::{compiled, run};
use std::collections::HashSet;
use std::fs;
use std::io::{stderr, Write};
use std::path::{Path, PathBuf};
use std::process::Command;
use std::thread;

/// The room for the script of a file that encode refuses.
const ROOM: usize = 4096;

/// How many checkers run side by side.
const CHECKERS: usize = 4;

/// A vector: its name, the file, and the entries of working memory that it is lent.
type Vector = (String, Vec<u8>, usize);

/// A file with the working memory that it needs.
fn vector(name: &str, file: Vec<u8>) -> Vector {
    let entries = sakyelbo::work_entries(&file);
    (name.to_string(), file, entries)
}

fn block(bytes: &[u8]) -> Vec<u8> {
    [&word(bytes.len()), bytes].concat()
}

/// A vector as memory.c reads it.
fn written((name, file, entries): &Vector) -> Vec<u8> {
    let length = sakyelbo::encode(file).map_or(ROOM, |script| script.len());
    [block(name.as_bytes()), word(*entries), word(length), block(file)].concat()
}

/// The term files of a folder and of those in it.
fn files(folder: &Path) -> Vec<PathBuf> {
    let entries = fs::read_dir(folder).unwrap().map(|e| e.unwrap().path());
    let found = entries.flat_map(|e| if e.is_dir() { files(&e) } else { vec![e] });
    found.filter(|f| f.extension().is_some_and(|e| e == "term")).collect()
}

/// The term files of the repository.
fn term_files() -> Vec<Vector> {
    let folders = ["crates/check_cases/data", "crates/vectors/data"];
    let found = folders.iter().flat_map(|folder| files(&path(folder)));
    found.map(|f| vector(&f.to_string_lossy(), fs::read(&f).unwrap())).collect()
}

/// An empty set before any term.
fn empty_set() -> Vector {
    let set = [record("TB", &[]), record("TC", &[&word(0)]), record("XC", &[&word(0), &word(0)])];
    vector("an empty set before any term", [set.concat(), record("IN", &[&word(0)])].concat())
}

/// All vectors, each file once.
fn vectors() -> Vec<Vector> {
    let mut all = vec![empty_set()];
    all.extend(term_files());
    all.extend(examples().into_iter().map(|(name, file)| vector(&name, file)));
    all.extend(deep::files().into_iter().flat_map(|(name, file)| [vector(name, typed(&file)), vector(name, file)]));
    all.extend(cases().into_iter().map(|c| (c.name, c.file, c.entries)));
    let mut met = HashSet::new();
    all.retain(|(_, file, entries)| met.insert((file.clone(), *entries)));
    assert!(all.len() > 800);
    all
}

/// Of what was said, the complaints, which begin with `==`, and the names before them.
fn complaints(said: &str) -> String {
    let lines: Vec<&str> = said.lines().collect();
    let is_complaint = |line: Option<&&str>| line.is_some_and(|l| l.starts_with("=="));
    let kept = (0..lines.len()).filter(|&i| is_complaint(lines.get(i)) || is_complaint(lines.get(i + 1)));
    kept.map(|i| format!("{}\n", lines[i])).collect()
}

/// Runs the program on some vectors under valgrind, which is to say nothing.
fn check_memory(program: &Path, vectors: &[&Vector]) {
    let input: Vec<u8> = vectors.iter().flat_map(|v| written(v)).collect();
    let mut checker = Command::new("valgrind");
    checker.args(["--quiet", "--error-exitcode=9", "--error-limit=no"]).arg(program);
    let (status, _, said) = run(&mut checker, &input);
    let complaints = complaints(&said);
    assert!(status == 0 && complaints.is_empty(), "status {status}:\n{complaints}");
}

#[test]
fn nothing_is_read_before_it_is_written() {
    if !Command::new("valgrind").arg("--version").output().is_ok_and(|done| done.status.success()) {
        writeln!(stderr(), "no valgrind: what is read of new memory is not tested").unwrap();
        return;
    }
    let (program, vectors) = (compiled("memory"), vectors());
    thread::scope(|checkers| {
        for first in 0..CHECKERS {
            let part: Vec<&Vector> = vectors.iter().skip(first).step_by(CHECKERS).collect();
            let program = &program;
            checkers.spawn(move || check_memory(program, &part));
        }
    });
}
