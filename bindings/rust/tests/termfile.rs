//! The tool `termfile`: what it writes and dumps, and what it does not understand.
mod cases;
mod commands;

use cases::{borders, path, record, text, word};
use commands::{file, made, run, Ran};
use std::fs;
use std::path::PathBuf;
use std::process::Command;

fn termfile(args: &[&str], input: &[u8]) -> Ran {
    run(Command::new(path("tools/termfile")).args(args), input)
}

/// The term file of a text.
fn written(source: &[u8], name: &str) -> Vec<u8> {
    let out = file(name, b"");
    assert_eq!(termfile(&["write", "-", &out], source), (0, String::new(), String::new()));
    fs::read(out).unwrap()
}

/// The text of a term file.
fn dumped(bytes: &[u8]) -> String {
    let (status, output, error) = termfile(&["dump", "-"], bytes);
    assert_eq!((status, error.as_str()), (0, ""));
    output
}

/// The term files of a folder of vectors that have scripts.
fn accepted(folder: &str) -> Vec<PathBuf> {
    let mut files: Vec<_> =
        fs::read_dir(path("crates/vectors/data").join(folder)).unwrap().map(|f| f.unwrap().path()).collect();
    files.retain(|f| {
        let answer = ["smt2", "txt"].iter().find_map(|e| fs::read(f.with_extension(e)).ok()).unwrap();
        f.extension().unwrap() == "term" && !answer.starts_with(b"refused ")
    });
    files.sort();
    files
}

#[test]
fn what_is_dumped_is_written_back() {
    let (files, typed) = (accepted("rust"), accepted("typed"));
    assert!(files.len() > 100 && typed.len() > 15);
    // One file of all, so that the tool starts twice only: a reference is there in it, since it is there in its own file.
    let bytes: Vec<u8> = files.iter().chain(&typed).flat_map(|f| fs::read(f).unwrap()).collect();
    let text = dumped(&bytes);
    let back = written(text.as_bytes(), "back.term");
    let (places, ends) = (borders(&bytes), borders(&back));
    for (i, line) in text.lines().enumerate() {
        assert_eq!(back[ends[i]..ends[i + 1]], bytes[places[i]..places[i + 1]], "{line}");
    }
    assert_eq!(ends.len(), places.len());
}

#[test]
fn texts_are_written_as_they_stand() {
    let source = "TS s\nXS a = \"\\\"\\\\\\n\\r\\t\\0\\u{20AC}\\u{10ffff}\u{20ac}\" # a comment\r\n\n\tXA b = s StringLike [\"\\u{d7ff}\", *, \"\"]: a\n";
    let expected = [
        record("TS", &[]),
        record("XS", &[&text("\"\\\n\r\t\0\u{20ac}\u{10ffff}\u{20ac}")]),
        record("XA", &[&word(0), &[30], &word(2), &word(0xd7ff), &word(0xffff_ffff), &word(1), &word(0)]),
    ];
    let bytes = written(source.as_bytes(), "texts.term");
    assert_eq!(bytes, expected.concat());
    assert_eq!(written(dumped(&bytes).as_bytes(), "texts.term"), bytes);
}

#[test]
fn numbers_are_written_as_they_stand() {
    let source = b"XN a = 128 340282366920938463463374607431768211455\nXX b = Decimal -9223372036854775808\nXX c = V4 1.2.3.4/254\nXX d = V6 ::\n";
    let expected = [
        record("XN", &[&word(128), &[255; 16]]),
        record("XX", &[&[2], &i64::MIN.to_le_bytes()]),
        record("XX", &[&[0, 1, 2, 3, 4, 254]]),
        record("XX", &[&[1], &[0; 16], &[255]]),
    ];
    let bytes = written(source, "numbers.term");
    assert_eq!(bytes, expected.concat());
    assert_eq!(written(dumped(&bytes).as_bytes(), "numbers.term"), bytes);
}

#[test]
fn a_written_type_stands_behind_its_label() {
    let types =
        "TB T0\nTS T1\nTV T2 = 64\nTO T3 = T0\nTC T4 = T0\nTE T5 = \"Lot\"\nTX T6 = IPAddr\nTR T7 = \"a\": T0\n";
    // The mark's second letter, the number of the type, and the other fields, in the text and in the file.
    let terms = [
        ("V", 0, "\"a\" T0", [text("a"), word(0)].concat()),
        ("B", 0, "true", vec![1]),
        ("N", 2, "64 12", [&word(64)[..], &[12], &[0; 15]].concat()),
        ("S", 1, "\"text\"", text("text")),
        ("E", 5, "T5 \"7\"", [word(5), text("7")].concat()),
        ("X", 6, "V6 ::1", [&[1], &[0; 15][..], &[1, 255]].concat()),
        ("0", 3, "T0", word(0)),
        ("1", 3, "X0", word(0)),
        ("C", 4, "T0: X0, X1", [word(0), word(2), word(0), word(1)].concat()),
        ("C", 4, "T0", [word(0), word(0)].concat()),
        ("R", 7, "\"a\": X1", [word(1), text("a"), word(1)].concat()),
        ("A", 0, "T0 And: X0, X1", [&word(0)[..], &[0], &word(2), &word(0), &word(1)].concat()),
    ];
    let (mut source, mut bytes) = (types.to_string(), written(types.as_bytes(), "types.term"));
    for (n, (letter, ty, line, fields)) in terms.iter().enumerate() {
        source += &format!("Y{letter} X{n}: T{ty} = {line}\n");
        bytes.extend(record(&format!("Y{letter}"), &[fields, &word(*ty)]));
    }
    assert_eq!(written(source.as_bytes(), "types.term"), bytes);
    assert_eq!(dumped(&bytes), source);
}

/// Writes a text with this line to a file: that is an error with these words, and the file is kept.
fn not_understood(line: &[u8], words: &str, name: &str) {
    let out = file(name, b"kept");
    let source = [b"TB bool\n# the third line\nXB b = true\n", line, b"\nTS s\n"].concat();
    let expected = (1, String::new(), format!("termfile: standard input: line 4: {words}\n"));
    assert_eq!(termfile(&["write", "-", &out], &source), expected);
    assert_eq!(fs::read(&out).unwrap(), b"kept");
}

#[test]
fn what_is_not_understood_is_said_with_its_line() {
    for (line, words) in [
        (&b"XS a = \"50\\u20AC\""[..], "\\u is no escape in \"50\\u20AC\""),
        (b"XS a = \"\\q\"", "\\q is no escape in \"\\q\""),
        (b"XS a = \"\\u{}\"", "\\u is no escape in \"\\u{}\""),
        (b"XS a = \"\\u{zz}\"", "\\u is no escape in \"\\u{zz}\""),
        (b"XS a = \"\\u{20AC\"", "\\u is no escape in \"\\u{20AC\""),
        (b"XS a = \"\\u{110000}\"", "110000 is no code point of a text"),
        (b"XS a = \"\\u{dfff}\"", "dfff is no code point of a text"),
        (b"XA a = bool StringLike [\"\\u{d800}\"]: b", "d800 is no code point of a text"),
        (b"XS a = \"open", "cannot read '\"open'"),
        (b"XS a = \"end\\\"", "cannot read '\"end\\\\\"'"),
        (b"XS a = \"\xff\"", "it is not UTF-8"),
        (b"# \xff", "it is not UTF-8"),
        (b"# a comment\rXB c = true", "a bare control character, 13; a text has it as an escape"),
        (b"XS a = \"\x00\"", "a bare control character, 0; a text has it as an escape"),
        (b"XB c = true \xe2\x80\xa8", "cannot read '\\u2028'"),
        (b"XB c = true; false", "cannot read '; false'"),
        (b"XB c = true false", "false is left over"),
        (b"TB c =", "= is left over"),
        (b"XB b = true", "b stands twice"),
        (b"XB \"c\" = true", "expected a label, found \"c\""),
        (b"TB =", "expected a label, found ="),
        (b"IN c", "no term is called c before this line"),
        (b"XC c = bool: b,", "expected more, found the end of the line"),
        (b"XC c = bool: b b", "expected ,, found b"),
        (b"XA c = bool StringLike [*: b", "expected ,, found :"),
        (b"TV c = 4294967296", "4294967296 is no number of 32 bits"),
        (b"TV c = -1", "-1 is no number of 32 bits"),
        (b"TV c = \"1\"", "expected a number, found \"1\""),
        (b"TV c = \xd9\xa3", "cannot read '\u{663}'"),
        (b"XN c = 64 -1", "-1 is no number of 128 bits"),
        (
            b"XN c = 1 340282366920938463463374607431768211456",
            "340282366920938463463374607431768211456 is no number of 128 bits",
        ),
        (b"XX c = Decimal 9223372036854775808", "9223372036854775808 is no signed number of 64 bits"),
        (b"XX c = V4 1.2.3.4/", "nothing is no prefix"),
        (b"XX c = V4 1.2.3.4/255", "255 is no prefix"),
        (b"XX c = V4 1.2.3.4/+8", "+8 is no prefix"),
        (b"XX c = V4 1.2.3.4/08", "08 is no prefix"),
        (b"XX c = V4 1.2.3", "1.2.3 is no V4 address"),
        (b"XX c = V6 1.2.3.4", "1.2.3.4 is no V6 address"),
        (b"xb c = true", "xb is no mark"),
        (b"YT c: bool = true", "YT is no mark"),
        (b"YB c = true", "expected :, found ="),
        (b"YB c", "expected :, found the end of the line"),
        (b"YB c: = true", "no type is called = before this line"),
        (b"YB c: b = true", "no type is called b before this line"),
        (b"YB c: bool", "expected =, found the end of the line"),
        (b"YB c: bool: bool = true", "expected =, found :"),
        (b"YB c: bool = true: bool", ": is left over"),
        (b"XB c: bool = true", "expected =, found :"),
        (b"TV c: bool = 64", "expected =, found :"),
        (b"IN b: bool", ": is left over"),
    ] {
        not_understood(line, words, "kept.term");
    }
}

#[test]
fn numbers_of_other_forms_are_not_understood() {
    let nines = "9".repeat(5000);
    let hex = format!("0x{}", "f".repeat(4000));
    for number in ["1.5", "0x10", "0b11", "0o17", "1_000", "+5", "-0", "00", "007", &hex, &nines] {
        let words = format!("expected a decimal number of at most 39 digits, found {number}");
        not_understood(format!("TV c = {number}").as_bytes(), &words, "number.term");
    }
    let long = format!("XX c = V4 1.2.3.4/{nines}");
    not_understood(long.as_bytes(), &format!("{nines} is no prefix"), "number.term");
}

#[test]
fn what_cannot_be_dumped_is_said_with_its_record() {
    for (bytes, words) in [
        (vec![b'T'], "it is cut short"),
        (record("TB", &[&[0]])[..6].to_vec(), "it is cut short"),
        (record("QQ", &[]), "unknown mark 'QQ'"),
        (record("TB", &[&[0]]), "bytes are left over"),
        (record("XS", &[&word(2), b"a"]), "a field doesn't fit its body"),
        (record("XS", &[&word(1), b"\xff"]), "a text is not UTF-8"),
        (record("XB", &[&[2]]), "code 2 is out of range"),
        (record("TO", &[&word(1)]), "no type 1 stands before it"),
        (record("IN", &[&word(0)]), "no term 0 stands before it"),
        (record("XA", &[&word(0), &[31], &word(0), &word(0)]), "no function 0 stands before it"),
        (record("XA", &[&word(0), &[30], &word(1), &word(0xd800), &word(0)]), "d800 is no code point of a text"),
        (record("XA", &[&word(0), &[30], &word(1), &word(0x110000), &word(0)]), "110000 is no code point of a text"),
        (record("YT", &[&[1], &word(0)]), "unknown mark 'YT'"),
        (record("XB", &[&[1], &word(0)]), "bytes are left over"),
        (record("YB", &[&[1]]), "a field doesn't fit its body"),
        (record("YB", &[&[1], &word(0)[..3]]), "a field doesn't fit its body"),
        (record("YB", &[&[1], &word(0), &[0]]), "bytes are left over"),
        (record("YB", &[&[1], &word(0)])[..10].to_vec(), "it is cut short"),
        (record("YB", &[&[1], &word(1)]), "no type 1 stands before it"),
        (record("YB", &[&[2], &word(1)]), "code 2 is out of range"),
    ] {
        let name = file("bad.term", &[record("TB", &[]), bytes].concat());
        let expected = (1, String::new(), format!("termfile: {name}: record 1: {words}\n"));
        assert_eq!(termfile(&["dump", &name], b""), expected);
    }
}

#[test]
fn missing_files_and_bad_usage_are_said() {
    let none = made("no/such/file").to_str().unwrap().to_string();
    let expected = (1, String::new(), format!("termfile: {none}: No such file or directory\n"));
    for args in [&["write", &none, "-"][..], &["dump", &none], &["write", "-", &none]] {
        assert_eq!(termfile(args, b"TB bool\n"), expected);
    }
    for args in [&[][..], &["write", "-"], &["dump"], &["dump", "-", "-"], &["read", "-"]] {
        let (status, output, error) = termfile(args, b"");
        assert_eq!((status, output.as_str()), (2, ""), "{args:?}");
        assert!(error.contains("tools/termfile write TEXT FILE"), "{args:?}");
    }
    let (status, output, error) = termfile(&["--help"], b"");
    assert_eq!((status, error.as_str()), (0, ""));
    assert!(output.contains("tools/termfile write TEXT FILE"));
    let closed = run(Command::new("sh").args(["-c", "exec \"$0\" write - - <&-"]).arg(path("tools/termfile")), b"");
    assert_eq!(closed, (1, String::new(), "termfile: standard input: Bad file descriptor\n".to_string()));
}
