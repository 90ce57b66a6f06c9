//! Files whose hashes collide, or were to: made as who reads the source would make them.
use crate::hash::{hashed, key, Hash, Segment};
use crate::made::{record, text, word};
use std::hash::Hasher;

/// The records of a file that have numbers, by which they differ: in their last eight letters, or in the last four terms of a list or a set of 64.
/// Enums are half of their file, the rest being entities of a type that is sought among them; and so are entity types among which the type
/// of Bool literals is sought.
#[derive(Clone, Copy)]
pub enum Records {
    Strings,
    LongStrings,
    Variables,
    Enums,
    EntityTypes,
    EntityTypesThenBools,
    Lists,
    Sets,
}

/// How numbers are found for which the records have nearly one home slot: by the linear hash; by the key of the file without them; by a key
/// that is 1. Or they are counted, and the last record is changed, 1,000 times for the longest run of slots, or 4,000,000 times for the key
/// that is nearest to 0.
#[derive(Clone, Copy)]
pub enum Attack {
    Linear,
    KeyWithout,
    KeyOne,
    LongestRun,
    SmallestKey,
}

/// What the files are made of, and how.
pub const COLLIDING: [(Records, &[Attack]); 8] = [
    (Records::Strings, &[Attack::Linear, Attack::KeyWithout, Attack::KeyOne, Attack::LongestRun, Attack::SmallestKey]),
    (Records::LongStrings, &[Attack::Linear, Attack::KeyWithout, Attack::SmallestKey]),
    (Records::Variables, &[Attack::Linear, Attack::KeyWithout, Attack::LongestRun]),
    (Records::Enums, &[Attack::Linear, Attack::KeyWithout, Attack::SmallestKey]),
    (Records::EntityTypes, &[Attack::Linear, Attack::KeyWithout, Attack::LongestRun]),
    (Records::EntityTypesThenBools, &[Attack::Linear, Attack::KeyWithout]),
    (Records::Lists, &[Attack::Linear, Attack::KeyWithout]),
    (Records::Sets, &[Attack::Linear, Attack::KeyWithout, Attack::LongestRun]),
];

/// A file is made of such numbers that all home slots lie within this part of the slots.
const PART: usize = 512;

/// The bytes before the letters of a long string.
const START: [u8; 248] = [b'a'; 248];

/// The terms of a list or a set.
const LISTED: usize = 64;

/// The terms of a set that differ from one to the next, each among 64 of its own, which stand behind those that all sets have.
fn last_elements(n: u64) -> impl Iterator<Item = u64> {
    digits(n, 4).enumerate().map(|(i, d)| (LISTED - 4 + 64 * i) as u64 + d)
}

/// A number in so many digits of 64, the lowest first.
fn digits(n: u64, count: u32) -> impl Iterator<Item = u64> {
    (0..count).map(move |d| n >> (6 * d) & 63)
}

/// Eight letters; the second four change first.
fn letters(n: u64) -> [u8; 8] {
    let mut found = [0; 8];
    digits(n, 8).enumerate().for_each(|(i, d)| found[(i + 4) % 8] = b'0' + d as u8);
    found
}

fn name(n: u64) -> String {
    String::from_utf8(letters(n).to_vec()).unwrap()
}

impl Attack {
    pub fn name(self) -> &'static str {
        match self {
            Attack::Linear => "linear hash",
            Attack::KeyWithout => "key without them",
            Attack::KeyOne => "key 1",
            Attack::LongestRun => "longest run",
            Attack::SmallestKey => "smallest key",
        }
    }
}

impl Records {
    pub fn name(self) -> &'static str {
        match self {
            Records::Strings => "strings",
            Records::LongStrings => "long strings",
            Records::Variables => "variables",
            Records::Enums => "enums",
            Records::EntityTypes => "entity types",
            Records::EntityTypesThenBools => "entity types, then Bools",
            Records::Lists => "lists",
            Records::Sets => "sets",
        }
    }

    /// What stands before the records.
    fn head(self) -> Vec<u8> {
        match self {
            Records::Strings | Records::LongStrings => record("TS", &[]),
            Records::Variables => record("TB", &[]),
            Records::Enums | Records::EntityTypes | Records::EntityTypesThenBools => vec![],
            Records::Lists => {
                let variables = (0..64).flat_map(|n| record("XV", &[&text(&name(n)), &word(0)]));
                [record("TB", &[]), variables.collect()].concat()
            }
            Records::Sets => {
                let variables =
                    (0..LISTED as u64 - 4 + 4 * 64).flat_map(|n| record("XV", &[&text(&name(n)), &word(0)]));
                [record("TB", &[]), record("TC", &[&word(0)]), variables.collect()].concat()
            }
        }
    }

    /// The record with a number.
    fn record(self, n: u64) -> Vec<u8> {
        match self {
            Records::Strings => record("XS", &[&text(&name(n))]),
            Records::LongStrings => record("XS", &[&word(START.len() + 8), &START, &letters(n)]),
            Records::Variables => record("XV", &[&text(&name(n)), &word(0)]),
            Records::Enums => record("EN", &[&text(&name(n)), &word(1), &text("")]),
            Records::EntityTypes | Records::EntityTypesThenBools => record("TE", &[&text(&name(n))]),
            Records::Lists => {
                let last: Vec<u8> = digits(n, 4).flat_map(|d| word(d as usize)).collect();
                record("XA", &[&word(0), &[0], &word(LISTED), &word(0).repeat(LISTED - 4), &last])
            }
            Records::Sets => {
                let elements: Vec<u8> =
                    (0..LISTED as u64 - 4).chain(last_elements(n)).flat_map(|e| word(e as usize)).collect();
                record("XC", &[&word(0), &word(LISTED), &elements])
            }
        }
    }

    /// What stands behind the records, in this room: its size does not depend on the number, which no record before has.
    fn tail(self, room: usize, number: u64) -> Vec<u8> {
        let input = |n| record("IN", &[&word(n)]);
        match self {
            Records::Enums => {
                let entity = |n| [record("XE", &[&word(0), &text(&name(n as u64))]), input(n)].concat();
                let count = room / entity(0).len() - 1;
                [record("TE", &[&text(&name(number))])].into_iter().chain((0..count).map(entity)).flatten().collect()
            }
            Records::EntityTypesThenBools => {
                let literal = record("XB", &[&[1]]);
                let count = (room / literal.len() - 3).min(59_999);
                [record("TB", &[]), literal.repeat(count), input(0)].concat()
            }
            Records::EntityTypes => [record("TB", &[]), record("XB", &[&[1]]), input(0)].concat(),
            _ => input(0),
        }
    }

    /// Whether half of the file is other records.
    fn is_half(self) -> bool {
        matches!(self, Records::Enums | Records::EntityTypesThenBools)
    }

    /// The hash of what is the same in each record and stands before what differs.
    fn before(self, hash: Hash) -> u64 {
        let texts = |mark, start: &[u8]| {
            let h = hash.of(mark, vec![Segment::Plain(&word(start.len() + 8))]);
            hash.mix_bytes(h, start)
        };
        match self {
            Records::Strings => texts("XS", b""),
            Records::LongStrings => texts("XS", &START),
            Records::Variables => texts("XV", b""),
            Records::Enums => hash.start(),
            Records::EntityTypes | Records::EntityTypesThenBools => texts("TE", b""),
            Records::Lists => {
                let count = word(LISTED);
                let first = [Segment::Type(0), Segment::Plain(&[0]), Segment::Plain(&count)];
                hash.of("XA", first.into_iter().chain((0..LISTED - 4).map(|_| Segment::Term(0))).collect())
            }
            Records::Sets => {
                let start = hash.set_start(0, LISTED as u64);
                (0..LISTED as u64 - 4).fold(start, |sum, e| hash.add_element(sum, start, e))
            }
        }
    }

    /// The hash of the record with a number, from that of what stands before the number.
    fn hash(self, hash: Hash, before: u64, n: u64) -> u64 {
        match self {
            Records::Lists => digits(n, 4).fold(before, |h, d| hash.mix_segment(h, Segment::Term(d))),
            Records::Sets => {
                let start = hash.set_start(0, LISTED as u64);
                last_elements(n).fold(before, |sum, e| hash.add_element(sum, start, e))
            }
            Records::Variables => hash.mix_segment(hash.mix_bytes(before, &letters(n)), Segment::Type(0)),
            _ => hash.mix_bytes(before, &letters(n)),
        }
    }

    /// The slots from which the search for these records is to go through all of them.
    fn first(self, hash: Hash, rows: usize) -> usize {
        match self {
            Records::EntityTypesThenBools => hash.home(hash.of("TB", vec![Segment::Plain(&[])]), rows),
            _ => hash.home(self.hash(hash, self.before(hash), 0), rows),
        }
    }

    /// Numbers for which the records have nearly one home slot.
    fn colliding(self, hash: Hash, rows: usize, count: usize) -> Vec<u64> {
        let (before, first) = (self.before(hash), self.first(hash, rows));
        let near = |&n: &u64| hash.home(self.hash(hash, before, n), rows).wrapping_sub(first) < rows / PART;
        (0..).filter(near).take(count).collect()
    }

    /// The longest run of slots that the first records take.
    fn longest_run(self, hash: Hash, rows: usize, count: usize) -> usize {
        let before = self.before(hash);
        let mut taken = vec![false; rows];
        for n in 0..count as u64 {
            let mut slot = hash.home(self.hash(hash, before, n), rows);
            while taken[slot] {
                slot = (slot + 1) % rows;
            }
            taken[slot] = true;
        }
        taken.split(|&t| !t).map(<[bool]>::len).max().unwrap()
    }
}

/// Of so many numbers for one more record behind a file, the one whose file has the key for which something is greatest.
fn tried(records: Records, file: &[u8], tries: u64, worth: impl Fn(u64) -> u64) -> u64 {
    let before = hashed(file);
    let with = |n| {
        let mut hasher = before.clone();
        hasher.write(&records.record(n));
        worth(key(&hasher))
    };
    // From a number on that no other record has.
    (1 << 30..(1 << 30) + tries).max_by_key(|&n| with(n)).unwrap()
}

/// A file of such records, of at most so many bytes.
pub fn file(records: Records, attack: Attack, size: usize) -> Vec<u8> {
    let (head, one) = (records.head(), records.record(0).len());
    let room = if records.is_half() { size / 2 } else { 0 };
    let rest = head.len() + records.tail(room, 0).len() + one;
    let count = (size - rest) / one;
    let with = |numbers: Vec<u64>| {
        let behind = records.tail(room, numbers[count]);
        let records = numbers[..count].iter().map(|&n| records.record(n));
        [head.clone()].into_iter().chain(records).chain([behind]).flatten().collect::<Vec<u8>>()
    };
    let hash = match attack {
        Attack::Linear => Hash::Linear,
        Attack::KeyWithout => Hash::Keyed(key(&hashed(&[head.clone(), records.tail(room, 0)].concat()))),
        Attack::KeyOne => Hash::Keyed(1),
        Attack::LongestRun | Attack::SmallestKey => {
            let counted = with((0..=count as u64).collect());
            let rows = (counted.len() + one) / 6;
            let longest = |key| records.longest_run(Hash::Keyed(key), rows, count) as u64;
            let last = match attack {
                Attack::LongestRun => tried(records, &counted, 1000, longest),
                _ => tried(records, &counted, 4_000_000, |key| u64::MAX - (key as i64).unsigned_abs()),
            };
            return [counted, records.record(last)].concat();
        }
    };
    with(records.colliding(hash, (rest - one + count * one) / 6, count + 1))
}
