//! Check: the answers of the cases, damaged files, the limits, and lent memory that comes back zero.
mod cases;

use cases::{and, borders, cases, record, records, refusal, text, typed, used_memory, word, Record};
use sakyelbo::{check, check_with, work_entries, Refusal, LONGEST_FILE};

/// Checks a file with memory that is used and stands between other memory: it comes back zero, and the other memory as it was.
fn check_lent(file: &[u8], entries: usize) -> Result<(), Refusal> {
    let used = used_memory(entries + 8);
    let mut memory = used.clone();
    let answer = check_with(file, &mut memory[4..4 + entries]);
    assert!(memory[4..4 + entries].iter().all(|&w| w == 0));
    assert!(memory[..4] == used[..4] && memory[4 + entries..] == used[4 + entries..]);
    answer
}

#[test]
fn each_case_has_its_answer() {
    for case in cases() {
        assert_eq!(check_lent(&case.file, case.entries), case.answer, "{}", case.name);
        if case.entries == work_entries(&case.file) {
            assert_eq!(check(&case.file), case.answer, "{}", case.name);
        }
    }
}

#[test]
fn a_cut_file_is_accepted_at_a_border_and_else_refused_there() {
    for case in cases().iter().filter(|c| c.answer.is_ok()) {
        let places = borders(&case.file);
        for end in (0..case.file.len()).take(2000) {
            let whole = places.partition_point(|&p| p <= end) - 1;
            let expected = if places[whole] == end { Ok(()) } else { refusal(3, whole) };
            assert_eq!(check(&case.file[..end]), expected, "{} cut at {end}", case.name);
        }
    }
}

#[test]
fn a_damaged_file_is_answered_and_memory_is_zero() {
    for case in cases().iter().filter(|c| c.file.len() < 200) {
        let many = case.file.len();
        for at in 0..case.file.len() {
            for change in [0x01, 0x80, 0xff] {
                let mut file = case.file.clone();
                file[at] ^= change;
                let answer = check_lent(&file, work_entries(&file));
                assert_eq!(answer, check(&file));
                if let Err(Refusal { number, place, position }) = answer {
                    assert!(matches!(number, 3..=13 | 21) && place < many && position == 0, "{} at {at}", case.name);
                }
            }
        }
    }
}

#[test]
fn memory_that_is_one_entry_short_is_2() {
    for case in cases().iter().filter(|c| (1..=LONGEST_FILE).contains(&c.file.len())) {
        assert_eq!(check_lent(&case.file, 2 * case.file.len() - 1), refusal(2, 0), "{}", case.name);
        assert_eq!(check_lent(&case.file, 0), refusal(2, 0), "{}", case.name);
    }
}

#[test]
fn a_file_may_have_1048576_bytes() {
    let string = |bytes: usize| [record("TS", &[]), record("XS", &[&text(&"x".repeat(bytes - 16))])].concat();
    let longest = string(LONGEST_FILE);
    assert_eq!(longest.len(), 1_048_576);
    assert_eq!(check_lent(&longest, 2 * LONGEST_FILE), Ok(()));
    assert_eq!(check_lent(&longest, 2 * LONGEST_FILE - 1), refusal(2, 0));
    let longer = string(LONGEST_FILE + 1);
    assert_eq!(check_lent(&longer, 2 * LONGEST_FILE + 2), refusal(1, 0));
    assert_eq!(check(&longer), refusal(1, 0));
}

#[test]
fn there_may_be_60000_types_and_60000_terms() {
    let types = record("TB", &[]).repeat(60_000);
    assert_eq!(check(&types), Ok(()));
    assert_eq!(check(&[types, record("TB", &[])].concat()), refusal(13, 60_000));
    let variable = record("XV", &[&text("a"), &word(0)]);
    let terms = [record("TB", &[]), variable.repeat(60_000)].concat();
    assert_eq!(check(&terms), Ok(()));
    assert_eq!(check(&[terms, variable].concat()), refusal(13, 60_001));
}

#[test]
fn a_term_with_its_type_counts_as_a_term_and_21_comes_before_13() {
    let types = [record("TB", &[]), record("TS", &[])].concat();
    let literal = |ty| record("YB", &[&[1], &word(ty)]);
    let terms = [types, literal(0).repeat(60_000)].concat();
    assert_eq!(check(&terms), Ok(()));
    assert_eq!(check(&[&terms[..], &literal(0)].concat()), refusal(13, 60_002));
    assert_eq!(check(&[&terms[..], &literal(1)].concat()), refusal(21, 60_002));
}

#[test]
fn a_written_type_is_the_terms_or_refused() {
    let mut refused = 0;
    for case in cases().iter().filter(|c| c.answer.is_ok() && c.file.len() < 2048) {
        let records = records(&case.file);
        for (place, term) in records.iter().enumerate() {
            let Some(ty) = term.ty else { continue };
            for written in 0..=term.types.len() {
                // The types of the other terms are written in each second file.
                let other = |r: &Record| r.ty.filter(|_| written % 2 == 0);
                let types = records.iter().enumerate().map(|(n, r)| if n == place { Some(written) } else { other(r) });
                let made: Vec<u8> = records.iter().zip(types).flat_map(|(r, ty)| r.with(ty)).collect();
                let expected = match term.types.get(written) {
                    None => refusal(8, place),
                    Some(&first) if first == ty => Ok(()),
                    Some(_) => refusal(21, place),
                };
                assert_eq!(check(&made), expected, "{}: type {written} in record {place}", case.name);
                refused += usize::from(expected.is_err());
            }
        }
    }
    assert!(refused > 5_000);
}

#[test]
fn a_ladder_may_be_256_deep() {
    let mut file = [record("TB", &[]), record("XV", &[&text("a"), &word(0)])].concat();
    for n in 0..255 {
        file.extend(and(n, n));
    }
    assert_eq!(check(&file), Ok(()));
    assert_eq!(check(&[typed(&file), and(255, 255)].concat()), refusal(13, 257));
    file.extend(and(255, 255));
    assert_eq!(check(&file), refusal(13, 257));
}
