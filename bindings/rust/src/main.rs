//! The command `sakyelbo`: turns term files into scripts, and checks them.
use std::ffi::{OsStr, OsString};
use std::fs::File;
use std::io::{stdin, stdout, Read, Result, Write};
use std::process::ExitCode;
use std::thread::Builder;

const HELP: &str = "\
Turns term files of Cedar's terms into SMT-LIB scripts.

    sakyelbo encode FILE [-o OUT]   writes the script to standard output, or to OUT
    sakyelbo check FILE             says `accepted`, or why the file is refused
    sakyelbo --help                 says this

FILE is a term file of at most 1,048,576 bytes; `-` is standard input. tools/termfile writes one from a readable text.
A refusal is written to standard error as `refused N record P: WORDS`, where WORDS say what is wrong. Where the record's id, string or
pattern has code points above 196607, it is `refused N record P at Q: WORDS`, the first being at position Q. P and Q count from 0.

The exit status is 0, or 1 for a refusal, or 2 for bad usage and files that cannot be read or written.
";

/// The stack that the command needs itself, in bytes, beside the library's.
const OWN_STACK: usize = 65_536;

/// What the arguments ask for.
enum Request<'a> {
    Help,
    Check(&'a OsStr),
    Encode(&'a OsStr, Option<&'a OsStr>),
}

/// Reads the arguments; nothing where they ask for nothing that there is. A name need not be UTF-8.
fn request(args: &[OsString]) -> Option<Request<'_>> {
    match args.iter().map(|a| a.to_str().unwrap_or_default()).collect::<Vec<_>>()[..] {
        ["--help" | "-h" | "help"] => Some(Request::Help),
        ["encode", _] => Some(Request::Encode(&args[1], None)),
        ["encode", _, "-o", _] => Some(Request::Encode(&args[1], Some(&args[3]))),
        ["encode", "-o", _, _] => Some(Request::Encode(&args[3], Some(&args[2]))),
        ["check", _] => Some(Request::Check(&args[1])),
        _ => None,
    }
}

/// The bytes of a file or of standard input, cut at one byte more than a file may have.
fn read(name: &OsStr) -> Result<Vec<u8>> {
    let most = sakyelbo::LONGEST_FILE as u64 + 1;
    let mut bytes = Vec::new();
    if name == "-" {
        stdin().lock().take(most).read_to_end(&mut bytes)?;
    } else {
        File::open(name)?.take(most).read_to_end(&mut bytes)?;
    }
    Ok(bytes)
}

/// Says a refusal.
fn refused(refusal: sakyelbo::Refusal) -> ExitCode {
    let position = if refusal.has_position() { format!(" at {}", refusal.position) } else { String::new() };
    eprintln!("refused {} record {}{position}: {refusal}", refusal.number, refusal.place);
    ExitCode::from(1)
}

/// Says what went wrong outside the library.
fn failed(what: &OsStr, why: &dyn std::fmt::Display) -> ExitCode {
    eprintln!("sakyelbo: {}: {why}", what.to_string_lossy());
    ExitCode::from(2)
}

fn check(name: &OsStr) -> ExitCode {
    let file = match read(name) {
        Ok(bytes) => bytes,
        Err(why) => return failed(name, &why),
    };
    match sakyelbo::check(&file) {
        Ok(()) => {
            println!("accepted");
            ExitCode::SUCCESS
        }
        Err(refusal) => refused(refusal),
    }
}

fn encode(name: &OsStr, out: Option<&OsStr>) -> ExitCode {
    let file = match read(name) {
        Ok(bytes) => bytes,
        Err(why) => return failed(name, &why),
    };
    let script = match sakyelbo::encode(&file) {
        Ok(script) => script,
        Err(refusal) => return refused(refusal),
    };
    let written = match out {
        Some(path) => std::fs::write(path, script),
        None => stdout().write_all(&script).and_then(|()| stdout().flush()),
    };
    match written {
        Ok(()) => ExitCode::SUCCESS,
        Err(why) => failed(out.unwrap_or(OsStr::new("standard output")), &why),
    }
}

/// Does what the arguments ask for.
fn answer(args: &[OsString]) -> ExitCode {
    match request(args) {
        Some(Request::Help) => {
            print!("{HELP}");
            ExitCode::SUCCESS
        }
        Some(Request::Check(name)) => check(name),
        Some(Request::Encode(name, out)) => encode(name, out),
        None => {
            eprint!("{HELP}");
            ExitCode::from(2)
        }
    }
}

/// Answers in a thread that has the stack that the library needs, however short that of the command is.
fn main() -> ExitCode {
    let args: Vec<OsString> = std::env::args_os().skip(1).collect();
    let thread = Builder::new().stack_size(sakyelbo::STACK + OWN_STACK).spawn(move || answer(&args));
    match thread {
        Ok(thread) => thread.join().unwrap_or(ExitCode::from(2)),
        Err(why) => failed(OsStr::new("thread"), &why),
    }
}
