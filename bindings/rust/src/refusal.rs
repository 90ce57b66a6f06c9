//! Refusals, in words.
use std::error::Error;
use std::fmt::{Display, Formatter, Result};

/// A refusal of documents 01 and 02: its number, 1 to 21, 24 or 25; the place of the record, counted from 0 (0 for 1, 2 and 20); and the
/// position of the first code point above 196607 in an entity's id (15), a string (24) or a pattern (25), counted from 0 in code points, a
/// wildcard as one (0 for every other refusal).
#[derive(Clone, Copy, Debug, PartialEq, Eq, Hash)]
pub struct Refusal {
    pub number: u32,
    pub place: usize,
    pub position: usize,
}

impl Refusal {
    /// Whether the position is that of a code point: for 15, 24 and 25.
    pub fn has_position(&self) -> bool {
        matches!(self.number, 15 | 24 | 25)
    }
}

impl Display for Refusal {
    fn fmt(&self, f: &mut Formatter) -> Result {
        let words = match self.number {
            1 => return f.write_str("the file is longer than 1,048,576 bytes"),
            2 => return f.write_str("working memory has fewer entries than twice the file's bytes"),
            20 => return f.write_str("the script is longer than its buffer"),
            3 => "is cut short: fewer than six bytes are left, or its body goes past the end of the file",
            4 => "has an unknown mark",
            5 => "has a field that does not fit its body, or bytes left over behind its fields",
            6 => "has a text that is not UTF-8",
            7 => "has a code, width, value or code point outside its range",
            8 => "refers to a record that is not there before it, or is an entity of a type that is no entity type",
            9 => "has attributes or members that are not strictly ascending by bytes, or is a set with equal terms",
            10 => "is an enum without members or an application without arguments",
            11 => "is a second enum of its name",
            12 => "is a term whose type is not listed before it",
            13 => "is the 60,001st type or term, or is nested 257 deep",
            14 => "names a member that its enum does not have",
            15 => "is an entity whose id has a code point above 196607, which no SMT-LIB string holds",
            16 => "gets an attribute that the record type does not have",
            17 => "gets an attribute of a term that is no record",
            18 => "gets an attribute of a term whose type the script does not declare",
            19 => "gets an attribute and has no argument to get it from",
            21 => "has a written type that is not its term's",
            24 => "is a string with a code point above 196607, which no SMT-LIB string holds",
            25 => "applies a pattern with a code point above 196607, which no SMT-LIB string holds",
            _ => "is refused by an unknown number",
        };
        write!(f, "record {} {words}", self.place)?;
        if self.has_position() {
            write!(f, ", at position {}", self.position)?;
        }
        Ok(())
    }
}

impl Error for Refusal {}

#[cfg(test)]
mod tests {
    use super::Refusal;

    #[test]
    fn each_number_has_its_own_words() {
        let mut words: Vec<String> = Vec::new();
        for number in (1..=22).chain([24, 25]) {
            let refusal = Refusal { number, place: 4321, position: 8765 };
            let text = refusal.to_string();
            assert!(!words.contains(&text), "{text}");
            assert_eq!(text.contains("record 4321 "), ![1, 2, 20].contains(&number), "{text}");
            let positioned = [15, 24, 25].contains(&number);
            assert_eq!((refusal.has_position(), text.contains("8765")), (positioned, positioned), "{text}");
            words.push(text);
        }
    }

    #[test]
    fn a_code_point_that_is_too_high_has_its_text_and_its_position() {
        for (number, text) in [(15, "an entity whose id has"), (24, "a string with"), (25, "a pattern with")] {
            let refusal = Refusal { number, place: 1, position: 8765 };
            let words = refusal.to_string();
            assert!(refusal.has_position());
            assert!(words.contains(&format!("{text} a code point above 196607")), "{words}");
            assert!(words.ends_with(", at position 8765"), "{words}");
        }
    }
}
