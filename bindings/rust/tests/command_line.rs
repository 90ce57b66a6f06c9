//! The command `sakyelbo`.
mod cases;
mod commands;

use cases::{answer, cases, deep, path};
use commands::{file, folder, sakyelbo, Ran};
use std::ffi::OsStr;
use std::fs;
use std::os::unix::ffi::OsStrExt;
use std::process::Command;

/// Runs the command with these arguments.
fn run(args: &[&str], input: &[u8]) -> Ran {
    commands::run(&mut sakyelbo(args), input)
}

#[test]
fn check_says_the_answer() {
    for case in cases().iter().filter(|c| c.entries == 2 * c.file.len()).step_by(7) {
        let expected = match case.answer {
            Ok(()) => (0, "accepted\n".to_string(), String::new()),
            Err(r) => (1, String::new(), format!("refused {} record {}: {r}\n", r.number, r.place)),
        };
        assert_eq!(run(&["check", "-"], &case.file), expected, "{}", case.name);
        assert_eq!(run(&["check", &file("case.term", &case.file)], b""), expected, "{}", case.name);
    }
}

#[test]
fn a_written_type_that_is_not_the_terms_is_said() {
    let vector = path("crates/vectors/data/typed/yb-right.term");
    assert_eq!(run(&["check", vector.to_str().unwrap()], b""), (0, "accepted\n".to_string(), String::new()));
    let bytes = fs::read(path("crates/vectors/data/typed/yc-wrong.term")).unwrap();
    let words = "refused 21 record 10: record 10 has a written type that is not its term's\n";
    for request in ["check", "encode"] {
        assert_eq!(run(&[request, "-"], &bytes), (1, String::new(), words.to_string()));
    }
}

#[test]
fn encode_writes_the_script() {
    let term = path("crates/vectors/data/rust/address.term").to_str().unwrap().to_string();
    let bytes = fs::read(&term).unwrap();
    let script = fs::read_to_string(path("crates/vectors/data/rust/address.smt2")).unwrap();
    assert_eq!(run(&["encode", &term], b""), (0, script.clone(), String::new()));
    assert_eq!(run(&["encode", "-"], &bytes), (0, script.clone(), String::new()));
    let out = file("out.smt2", b"");
    for args in [["encode", &term, "-o", &out], ["encode", "-o", &out, &term]] {
        fs::write(&out, b"").unwrap();
        assert_eq!(run(&args, b""), (0, String::new(), String::new()));
        assert_eq!(fs::read_to_string(&out).unwrap(), script);
    }
    assert_eq!(run(&["encode", &term, "-o", "no/such/folder"], b"").0, 2);
}

#[test]
fn names_need_not_be_utf8() {
    let names = folder("names");
    let (term, out) = (names.join(OsStr::from_bytes(b"\xff.term")), names.join(OsStr::from_bytes(b"\xff.smt2")));
    fs::copy(path("crates/vectors/data/rust/address.term"), &term).unwrap();
    let args = [OsStr::new("encode"), term.as_os_str(), OsStr::new("-o"), out.as_os_str()];
    assert_eq!(commands::run(&mut sakyelbo(&args), b""), (0, String::new(), String::new()));
    assert_eq!(fs::read(out).unwrap(), fs::read(path("crates/vectors/data/rust/address.smt2")).unwrap());
}

#[test]
fn a_short_stack_is_no_hindrance() {
    for (name, bytes) in deep::files() {
        let script = String::from_utf8(sakyelbo::encode(&bytes).unwrap()).unwrap();
        let mut limited = Command::new("bash");
        limited.args(["-c", "ulimit -s 64 && exec \"$0\" encode -", env!("CARGO_BIN_EXE_sakyelbo")]);
        assert_eq!(commands::run(&mut limited, &bytes), (0, script, String::new()), "{name}");
    }
}

#[test]
fn encode_says_a_refusal_and_writes_nothing() {
    let vector = path("crates/vectors/data/refused/18-get-on-Option-of-a-record");
    let bytes = fs::read(vector.with_extension("term")).unwrap();
    let line = fs::read_to_string(vector.with_extension("txt")).unwrap();
    let words = answer(&line).unwrap_err().to_string();
    assert!(words.ends_with("gets an attribute of a term whose type the script does not declare"));
    let out = file("kept.smt2", b"kept");
    let expected = (1, String::new(), format!("{}: {words}\n", line.trim_end()));
    assert_eq!(run(&["encode", "-"], &bytes), expected);
    assert_eq!(run(&["encode", "-", "-o", &out], &bytes), expected);
    assert_eq!(fs::read(&out).unwrap(), b"kept");
}

#[test]
fn encode_says_where_a_high_code_point_is() {
    for (name, number, place, position, words) in [
        ("entity-id-at-0", 15, 1, 0, "is an entity whose id has"),
        ("entity-id-after-two-bytes", 15, 1, 1, "is an entity whose id has"),
        ("string-after-three-bytes", 24, 1, 2, "is a string with"),
        ("pattern-after-three-bytes", 25, 3, 2, "applies a pattern with"),
    ] {
        let bytes = fs::read(path("crates/vectors/data/high").join(format!("{name}.term"))).unwrap();
        let line = format!("refused {number} record {place} at {position}: record {place} {words} a code point");
        let error = format!("{line} above 196607, which no SMT-LIB string holds, at position {position}\n");
        assert_eq!(run(&["encode", "-"], &bytes), (1, String::new(), error), "{name}");
    }
}

#[test]
fn a_longer_file_is_refused() {
    let expected = (1, String::new(), "refused 1 record 0: the file is longer than 1,048,576 bytes\n".to_string());
    for request in ["check", "encode"] {
        assert_eq!(run(&[request, &file(&format!("long-{request}.term"), &vec![0; 3_000_000])], b""), expected);
    }
}

#[test]
fn bad_usage_and_unreadable_files_are_2() {
    for args in [
        &[][..],
        &["check"],
        &["check", "a", "b"],
        &["encode"],
        &["encode", "-", "-o"],
        &["encode", "-", "out"],
        &["-"],
    ] {
        let (status, output, error) = run(args, b"");
        assert_eq!((status, output.as_str()), (2, ""), "{args:?}");
        assert!(error.contains("sakyelbo check FILE"), "{args:?}");
    }
    let (status, output, error) = run(&["check", "no/such/file"], b"");
    assert_eq!((status, output.as_str()), (2, ""));
    assert!(error.starts_with("sakyelbo: no/such/file: "));
}

#[test]
fn help_is_said() {
    let (status, output, error) = run(&["--help"], b"");
    assert_eq!((status, error.as_str()), (0, ""));
    assert!(output.contains("sakyelbo check FILE"));
    assert!(output.contains("`refused N record P: WORDS`") && output.contains("`refused N record P at Q: WORDS`"));
}
