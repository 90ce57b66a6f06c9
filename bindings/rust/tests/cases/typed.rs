//! Term files with the types of terms written in their records, made from accepted files. Which type is a term's is found from the records.
use super::borders;
use super::made::{record, word};
use std::collections::HashMap;

/// The types and terms of a file so far: for a type its first equal one, and for a term that of its type.
#[derive(Default)]
struct Met {
    first: HashMap<Vec<u8>, usize>,
    types: Vec<usize>,
    terms: Vec<usize>,
}

/// The number in the four bytes at a place.
fn number(bytes: &[u8], at: usize) -> usize {
    u32::from_le_bytes(bytes[at..at + 4].try_into().unwrap()) as usize
}

/// The attributes of a body, each with what stands here for its reference.
fn attributes(body: &[u8], references: &[usize]) -> Vec<u8> {
    let (mut made, mut at) = (body[..4].to_vec(), 4);
    while at < body.len() {
        let end = at + 4 + number(body, at);
        made.extend(&body[at..end]);
        made.extend(word(references[number(body, end)]));
        at = end + 4;
    }
    made
}

impl Met {
    /// The record of a type with the first equal type for each reference, by which equal types are one.
    fn type_record(&self, mark: &str, body: &[u8]) -> Vec<u8> {
        match mark {
            "TO" | "TC" => record(mark, &[&word(self.types[number(body, 0)])]),
            "TR" => record(mark, &[&attributes(body, &self.types)]),
            _ => record(mark, &[body]),
        }
    }

    /// The first type that is equal to that of a term.
    fn type_of(&self, mark: &str, body: &[u8]) -> usize {
        let listed = |mark, fields: &[u8]| self.first[&record(mark, &[fields])];
        match mark {
            "XV" => self.types[number(body, body.len() - 4)],
            "XE" | "XA" => self.types[number(body, 0)],
            "XB" => listed("TB", &[]),
            "XN" => listed("TV", &body[..4]),
            "XS" => listed("TS", &[]),
            "XX" => listed("TX", &[body[0].saturating_sub(1)]),
            "X0" => listed("TO", &word(self.types[number(body, 0)])),
            "X1" => listed("TO", &word(self.terms[number(body, 0)])),
            "XC" => listed("TC", &word(self.types[number(body, 0)])),
            "XR" => listed("TR", &attributes(body, &self.terms)),
            _ => panic!("{mark}"),
        }
    }

    /// Takes a record, and answers the first type that is equal to its term's, if it is a term's record.
    fn take(&mut self, mark: &str, body: &[u8]) -> Option<usize> {
        if mark.starts_with('T') {
            let n = self.types.len();
            let first = *self.first.entry(self.type_record(mark, body)).or_insert(n);
            self.types.push(first);
            return None;
        }
        let ty = mark.starts_with('X').then(|| self.type_of(mark, body))?;
        self.terms.push(ty);
        Some(ty)
    }
}

/// A record, without the type that may be written in it.
pub struct Record<'a> {
    mark: String,
    body: &'a [u8],
    /// Of each type before it the first equal one.
    pub types: Vec<usize>,
    /// The first type that is equal to its term's, if it is a term's record.
    pub ty: Option<usize>,
}

impl Record<'_> {
    /// The record with this type written in it, or without.
    pub fn with(&self, ty: Option<usize>) -> Vec<u8> {
        match ty {
            Some(n) => record(&self.mark.replacen('X', "Y", 1), &[self.body, &word(n)]),
            None => record(&self.mark, &[self.body]),
        }
    }
}

/// The records of an accepted file.
pub fn records(file: &[u8]) -> Vec<Record<'_>> {
    let mut met = Met::default();
    let mut found = vec![];
    for ends in borders(file).windows(2) {
        let (head, fields) = file[ends[0]..ends[1]].split_at(6);
        let size = fields.len() - if head[0] == b'Y' { 4 } else { 0 };
        let (mark, body) = (std::str::from_utf8(&head[..2]).unwrap().replacen('Y', "X", 1), &fields[..size]);
        let (types, ty) = (met.types.clone(), met.take(&mark, body));
        found.push(Record { mark, body, types, ty });
    }
    found
}

/// An accepted file with the types of the terms written in their records, where the place of a record is chosen.
pub fn typed_at(file: &[u8], chosen: impl Fn(usize) -> bool) -> Vec<u8> {
    records(file).iter().enumerate().flat_map(|(place, r)| r.with(r.ty.filter(|_| chosen(place)))).collect()
}

/// An accepted file with the type of each term written in its record.
pub fn typed(file: &[u8]) -> Vec<u8> {
    typed_at(file, |_| true)
}
