//! The cases of the program check_cases, whose answers were written down from documents 01 and 02, and term files made by code.
#![allow(dead_code, unused_imports)]
pub mod deep;
pub mod made;
pub mod typed;

pub use made::{and, record, text, word};
use sakyelbo::Refusal;
use std::fs;
use std::path::PathBuf;
use std::process::Command;
pub use typed::{records, typed, typed_at, Record};

/// A file, the entries of working memory that it is checked with, and check's answer.
pub struct Case {
    pub name: String,
    pub entries: usize,
    pub file: Vec<u8>,
    pub answer: Result<(), Refusal>,
}

/// A path under the root of the repository.
pub fn path(name: &str) -> PathBuf {
    PathBuf::from(env!("CARGO_MANIFEST_DIR")).join("../..").join(name)
}

/// The cases of check_cases: the files that its arguments name and those of its standard input, with the lines of its standard output.
pub fn cases() -> Vec<Case> {
    let names = fs::read_to_string(path("crates/check_cases/args")).unwrap();
    let input = fs::read(path("crates/check_cases/stdin")).unwrap();
    let output = fs::read_to_string(path("crates/check_cases/stdout")).unwrap();
    let mut lines = output.lines();
    let mut found = vec![];
    for name in names.lines() {
        let file = fs::read(path("crates/check_cases/data").join(name)).unwrap();
        found.push(case(name.to_string(), 2 * file.len(), file, lines.next()));
    }
    let mut rest = &input[..];
    while !rest.is_empty() {
        let name = String::from_utf8(block(&mut rest).to_vec()).unwrap();
        let (entries, size) = (number(&mut rest), number(&mut rest));
        let file = block(&mut rest).iter().copied().cycle().take(size).collect();
        found.push(case(name, entries, file, lines.next()));
    }
    assert!(lines.next().is_none() && found.len() > 600);
    found
}

fn case(name: String, entries: usize, file: Vec<u8>, line: Option<&str>) -> Case {
    let answer = answer(line.unwrap().strip_prefix(&format!("{name}: ")).unwrap());
    Case { name, entries, file, answer }
}

/// The answer of a line `accepted`, `refused N record P` or `refused N record P at Q`.
pub fn answer(line: &str) -> Result<(), Refusal> {
    match line.trim_end().split(' ').collect::<Vec<_>>()[..] {
        ["accepted"] => Ok(()),
        ["refused", number, "record", place] => refusal(number.parse().unwrap(), place.parse().unwrap()),
        ["refused", number, "record", place, "at", position] => Err(Refusal {
            number: number.parse().unwrap(),
            place: place.parse().unwrap(),
            position: position.parse().unwrap(),
        }),
        _ => panic!("{line}"),
    }
}

pub fn refusal<T>(number: u32, place: usize) -> Result<T, Refusal> {
    Err(Refusal { number, place, position: 0 })
}

fn number(rest: &mut &[u8]) -> usize {
    let (head, tail) = rest.split_at(4);
    *rest = tail;
    u32::from_le_bytes(head.try_into().unwrap()) as usize
}

fn block<'a>(rest: &mut &'a [u8]) -> &'a [u8] {
    let count = number(rest);
    let (head, tail) = rest.split_at(count);
    *rest = tail;
    head
}

/// The examples with their names, which tools/termfile writes.
pub fn examples() -> Vec<(String, Vec<u8>)> {
    let texts = fs::read_dir(path("examples")).unwrap().map(|e| e.unwrap().path());
    let written = texts.filter(|t| t.extension().is_some_and(|e| e == "txt")).map(|text| {
        let done = Command::new(path("tools/termfile")).arg("write").arg(&text).arg("-").output().unwrap();
        assert!(done.status.success());
        (text.to_string_lossy().into_owned(), done.stdout)
    });
    written.collect()
}

/// Memory that was used: numbers that could be rows, notes, names and slots of an index, and one that could not.
pub fn used_memory(entries: usize) -> Vec<u32> {
    [1, 2, 300, 0xa5a5_a5a5, 5, 0, 7].into_iter().cycle().take(entries).collect()
}

/// The places at which the records of an accepted file begin, and its end.
pub fn borders(file: &[u8]) -> Vec<usize> {
    let mut places = vec![0];
    while *places.last().unwrap() < file.len() {
        let at = *places.last().unwrap();
        places.push(at + 6 + u32::from_le_bytes(file[at + 2..at + 6].try_into().unwrap()) as usize);
    }
    places
}
