//! The term files that are timed.
use crate::made::{and, record, text, word};
use std::path::Path;

/// A term file and how many terms it has.
pub struct TermFile {
    pub name: String,
    pub bytes: Vec<u8>,
    pub terms: usize,
}

impl TermFile {
    fn new(name: &str, bytes: Vec<u8>) -> TermFile {
        let (mut terms, mut at) = (0, 0);
        while at + 6 <= bytes.len() {
            terms += usize::from(matches!(bytes[at], b'X' | b'Y'));
            at += 6 + u32::from_le_bytes(bytes[at + 2..at + 6].try_into().unwrap()) as usize;
        }
        TermFile { name: name.to_string(), bytes, terms }
    }

    pub fn read(path: &str) -> std::io::Result<TermFile> {
        let name = Path::new(path).file_stem().unwrap_or_default().to_string_lossy().into_owned();
        Ok(TermFile::new(&name, std::fs::read(path)?))
    }
}

/// A variable of type 0.
pub fn variable(name: &str) -> Vec<u8> {
    record("XV", &[&text(name), &word(0)])
}

/// `And` of a term with itself, again and again: each step is reached by twice as many ways as the one before.
pub fn ladder(steps: usize) -> TermFile {
    let mut bytes = [record("TB", &[]), variable("x")].concat();
    for n in 0..steps {
        bytes.extend(and(n, n));
    }
    bytes.extend(record("IN", &[&word(steps)]));
    TermFile::new(&format!("ladder-{steps}"), bytes)
}

const DIGITS: &[u8] = b"0123456789abcdefghijklmnopqrstuvwxyzABCDEFGHIJKLMNOPQRSTUVWXYZ";

/// Distinct terms: variables whose names have so many digits, `some` of each but the last, and the set of these.
fn variables(count: usize, digits: u32) -> Vec<u8> {
    let mut bytes = [record("TB", &[]), record("TO", &[&word(0)]), record("TC", &[&word(1)])].concat();
    for n in 0..count {
        let name: String = (0..digits).rev().map(|d| DIGITS[n / 62_usize.pow(d) % 62] as char).collect();
        bytes.extend(variable(&name));
    }
    for n in 0..count - 1 {
        bytes.extend(record("X1", &[&word(n)]));
    }
    let elements: Vec<u8> = (count..2 * count - 1).flat_map(word).collect();
    bytes.extend(record("XC", &[&word(1), &word(count - 1), &elements]));
    bytes.extend(record("IN", &[&word(2 * count - 1)]));
    bytes
}

/// 60,000 distinct terms, of 30,000 variables.
pub fn made() -> TermFile {
    TermFile::new("made-60000", variables(30_000, 3))
}

/// The same pattern in so many bytes.
pub fn ordinary(size: usize) -> Vec<u8> {
    variables((size - 100) / 37, 9)
}
