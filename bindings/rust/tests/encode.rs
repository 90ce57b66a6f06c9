//! Encode: the vectors, comments, the escapes of code points and the positions of high ones, written types, damaged files, the room for a
//! script, and lent memory that comes back zero.
mod cases;

use cases::{answer, cases, examples, path, record, records, refusal, text, typed, typed_at, used_memory, word};
use sakyelbo::{check, encode, encode_with, work_entries, Refusal};
use std::fs;

/// The vectors of a folder: the name, the file, and what stands beside it.
fn vectors(folder: &str, ending: &str) -> Vec<(String, Vec<u8>, Vec<u8>)> {
    let mut found = Vec::new();
    for entry in fs::read_dir(path("crates/vectors/data").join(folder)).unwrap() {
        let path = entry.unwrap().path();
        if path.extension().is_some_and(|e| e == "term") {
            let name = path.file_stem().unwrap().to_string_lossy().into_owned();
            found.push((name, fs::read(&path).unwrap(), fs::read(path.with_extension(ending)).unwrap()));
        }
    }
    assert!(found.len() > 40);
    found
}

/// A script with its comments cut after 200 code points and with spaces for their control characters. Other lines stay as they are.
fn tidied(script: &[u8]) -> Vec<u8> {
    let text = std::str::from_utf8(script).unwrap();
    let lines =
        text.split_inclusive('\n').map(|line| match line.strip_prefix("; ").and_then(|l| l.strip_suffix('\n')) {
            Some(comment) => {
                let kept = comment.chars().take(200).map(|c| if c < ' ' || c == '\x7f' { ' ' } else { c });
                format!("; {}\n", kept.collect::<String>())
            }
            None => line.to_string(),
        });
    lines.collect::<String>().into_bytes()
}

/// The vectors of the Rust, their scripts with the comments that are written here.
fn rust_vectors() -> Vec<(String, Vec<u8>, Vec<u8>)> {
    vectors("rust", "smt2").into_iter().map(|(name, file, script)| (name, file, tidied(&script))).collect()
}

/// Encodes a file with memory that is used and stands between other memory: working memory comes back zero, as do the bytes behind the
/// script, or all of them after a refusal; the other memory is as it was.
fn encode_lent(file: &[u8], entries: usize, room: usize) -> Result<Vec<u8>, Refusal> {
    let used = used_memory(entries + 8);
    let mut memory = used.clone();
    let mut bytes = vec![0xa5; room + 8];
    let answer = encode_with(file, &mut memory[4..4 + entries], &mut bytes[4..4 + room]);
    assert!(memory[4..4 + entries].iter().all(|&w| w == 0));
    assert!(memory[..4] == used[..4] && memory[4 + entries..] == used[4 + entries..]);
    assert!(bytes[..4].iter().chain(&bytes[4 + room..]).all(|&b| b == 0xa5));
    let size = answer.unwrap_or(0);
    assert!(bytes[4 + size..4 + room].iter().all(|&b| b == 0));
    answer.map(|size| bytes[4..4 + size].to_vec())
}

#[test]
fn each_vector_has_the_rusts_script() {
    for (name, file, script) in rust_vectors() {
        assert_eq!(encode(&file).as_ref(), Ok(&script), "{name}");
        assert_eq!(encode_lent(&file, work_entries(&file), 65_536).as_ref(), Ok(&script), "{name}");
    }
}

#[test]
fn two_scripts_of_the_rusts_have_comments_that_are_tidied() {
    let changed: Vec<String> =
        vectors("rust", "smt2").into_iter().filter(|(_, _, script)| tidied(script) != *script).map(|v| v.0).collect();
    assert_eq!(changed.len(), 2, "{changed:?}");
}

#[test]
fn each_comment_is_tidied() {
    for (name, file, script) in vectors("comments", "txt") {
        assert_eq!(encode(&file).as_ref(), Ok(&script), "{name}");
        assert_eq!(encode_lent(&file, work_entries(&file), script.len()).as_ref(), Ok(&script), "{name}");
        assert_eq!(tidied(&script), script, "{name}");
    }
}

#[test]
fn each_refused_vector_has_its_refusal() {
    // A vector above 8,192 bytes is too long for the program `termscript` alone.
    for (name, file, line) in vectors("refused", "txt").into_iter().filter(|v| v.1.len() <= 8192) {
        let refusal = answer(std::str::from_utf8(&line).unwrap()).unwrap_err();
        assert_eq!(encode_lent(&file, work_entries(&file), 65_536), Err(refusal), "{name}");
        if refusal.number != 20 {
            assert_eq!(encode(&file), Err(refusal), "{name}");
        }
    }
}

#[test]
fn each_vector_of_document_02_has_its_answer() {
    for (name, file, written) in ["high", "sets", "typed"].into_iter().flat_map(|folder| vectors(folder, "txt")) {
        let expected = match std::str::from_utf8(&written).unwrap() {
            line if line.starts_with("refused ") => Err(answer(line).unwrap_err()),
            _ => Ok(written),
        };
        assert_eq!(encode_lent(&file, work_entries(&file), 65_536), expected, "{name}");
    }
}

#[test]
fn a_file_with_written_types_has_the_answer_of_the_file_without() {
    let folders = [("rust", "smt2"), ("refused", "txt"), ("comments", "txt"), ("high", "txt"), ("sets", "txt")];
    let mut compared = 0;
    for (name, file, _) in folders.into_iter().flat_map(|(folder, ending)| vectors(folder, ending)) {
        if check(&file).is_err() {
            continue;
        }
        let expected = encode_lent(&file, work_entries(&file), 65_536);
        for made in [typed(&file), typed_at(&file, |place| place % 2 == 0), typed_at(&file, |place| place % 2 == 1)] {
            assert_eq!(check(&made), Ok(()), "{name}");
            assert_eq!(encode_lent(&made, work_entries(&made), 65_536), expected, "{name}");
        }
        compared += 1;
    }
    assert!(compared > 200);
}

/// The files of an entity whose id is these characters, of a string of them, and of a pattern of them with a wildcard for each star, with
/// the number and the place of a refusal.
fn high_files(s: &str) -> [(Vec<u8>, u32, usize); 3] {
    let input = |n| record("IN", &[&word(n)]);
    let entity = [record("TE", &[&text("A")]), record("XE", &[&word(0), &text(s)]), input(0)].concat();
    let string = [record("TS", &[]), record("XS", &[&text(s)]), input(0)].concat();
    let elements: Vec<u8> = s.chars().flat_map(|c| if c == '*' { vec![0xff; 4] } else { word(c as usize) }).collect();
    let operator = [&[30], &word(s.chars().count())[..], &elements].concat();
    let variable = [record("TB", &[]), record("TS", &[]), record("XV", &[&text("s"), &word(1)])].concat();
    let like = [variable, record("XA", &[&word(0), &operator, &word(1), &word(0)]), input(1)].concat();
    [(entity, 15, 1), (string, 24, 1), (like, 25, 3)]
}

#[test]
fn each_example_has_one_script_with_types_and_without() {
    let examples = examples();
    assert!(examples.len() >= 4);
    for (name, file) in examples {
        let without: Vec<u8> = records(&file).iter().flat_map(|r| r.with(None)).collect();
        let script = encode(&without);
        assert!(script.is_ok(), "{name}");
        assert_eq!((encode(&file), encode(&typed(&file))), (script.clone(), script), "{name}");
    }
}

#[test]
fn the_position_counts_code_points() {
    // Characters of one to four bytes, some written by more characters than one, and two that are too high.
    let characters: Vec<char> = "a*\"\\\0é€\u{ffff}\u{2ffff}\u{30000}\u{10ffff}".chars().collect();
    let mut state = 1u32;
    let mut next = || {
        state = state.wrapping_mul(1_664_525).wrapping_add(1_013_904_223);
        (state >> 16) as usize
    };
    let mut refused = 0;
    for _ in 0..2000 {
        let (length, most) = (next() % 12, if next() % 2 == 0 { 9 } else { characters.len() });
        let s: String = (0..length).map(|_| characters[next() % most]).collect();
        let high = s.chars().position(|c| c > '\u{2ffff}');
        refused += usize::from(high.is_some());
        for (file, number, place) in high_files(&s) {
            let expected = high.map(|position| Refusal { number, place, position });
            assert_eq!(encode_lent(&file, work_entries(&file), 4096).err(), expected, "{s:?}");
        }
    }
    assert!((200..1800).contains(&refused));
}

#[test]
fn a_script_needs_its_length_and_no_more() {
    for (name, file, script) in rust_vectors() {
        assert_eq!(encode_lent(&file, work_entries(&file), script.len()), Ok(script.clone()), "{name}");
        for room in [0, 1, script.len() / 2, script.len() - 1] {
            assert_eq!(encode_lent(&file, work_entries(&file), room), refusal(20, 0), "{name}");
        }
    }
}

#[test]
fn a_long_script_gets_the_room_that_it_needs() {
    let file = fs::read(path("crates/vectors/data/refused/20-long-script.term")).unwrap();
    let script = encode(&file).unwrap();
    assert!(script.len() > 65_536);
    assert_eq!(encode_lent(&file, work_entries(&file), script.len()), Ok(script));
}

/// The 64-bit FNV-1a hash of some bytes.
fn fnv(bytes: &[u8]) -> u64 {
    bytes.iter().fold(0xcbf2_9ce4_8422_2325, |h, &b| (h ^ u64::from(b)).wrapping_mul(0x0100_0000_01b3))
}

#[test]
fn the_large_vectors_are_accepted_and_the_plants_script_is_the_rusts() {
    let plant = fs::read(path("crates/check_cases/data/large/plant-11000.term")).unwrap();
    assert_eq!(check(&plant), Ok(()));
    let script = encode(&plant).unwrap();
    // The length and the hash of the script that the Rust wrote.
    assert_eq!((script.len(), fnv(&script)), (545_862, 0x27da_4e6f_9f0f_fdfd));
    assert!(encode(&typed(&plant)) == Ok(script));
    // The Rust did not finish this one.
    let shared = fs::read(path("crates/check_cases/data/large/shared-1000.term")).unwrap();
    assert_eq!(check(&shared), Ok(()));
    assert!(encode(&shared).is_ok());
}

/// A code point inside a string literal, in the hexadecimal digits that Rust's `{:x}` writes, as in encoder.rs.
fn escape(c: char) -> String {
    match c {
        '"' => "\"\"".to_string(),
        '\\' => "\\u{5c}".to_string(),
        ' '..='~' => c.to_string(),
        _ => format!("\\u{{{:x}}}", u32::from(c)),
    }
}

#[test]
fn each_code_point_of_a_literal_has_its_escape() {
    let all: String = ('\0'..='\u{2ffff}').collect();
    let (types, string) = ([record("TS", &[]), record("TB", &[])].concat(), record("XS", &[&text(&all)]));
    let equal = record("XA", &[&word(1), &[20], &word(2), &word(0), &word(0)]);
    let script = encode(&[types, string, equal, record("IN", &[&word(1)])].concat()).unwrap();
    let literal: String = all.chars().map(escape).collect();
    let lines = format!("(define-fun t0 () Bool (= \"{literal}\" \"{literal}\"))\n(assert t0)\n");
    assert!(script == [encode(&[]).unwrap(), lines.into_bytes()].concat());
}

#[test]
fn check_refuses_first() {
    for case in cases().iter().filter(|c| c.answer.is_err()) {
        assert_eq!(encode_lent(&case.file, case.entries, 0).map(|_| ()), case.answer, "{}", case.name);
    }
}

#[test]
fn a_damaged_file_is_answered_and_memory_is_zero() {
    for (name, file, _) in vectors("rust", "smt2").iter().filter(|v| v.1.len() < 400) {
        for at in 0..file.len() {
            let mut damaged = file.clone();
            damaged[at] ^= 1 << (at % 8);
            let answer = encode_lent(&damaged, work_entries(&damaged), 65_536);
            match (check(&damaged), answer) {
                (Err(refusal), answer) => assert_eq!(answer, Err(refusal), "{name} at {at}"),
                (Ok(()), Err(refusal)) => assert!(matches!(refusal.number, 14..=19 | 24 | 25), "{name} at {at}"),
                (Ok(()), Ok(_)) => {}
            }
        }
    }
}
