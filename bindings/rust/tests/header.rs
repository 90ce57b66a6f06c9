//! The C header: a C program over it is compiled, linked with the archive and run.
mod commands;

use commands::{compiled, run};
use std::process::Command;

#[test]
fn a_c_program_calls_the_library() {
    let (status, said, _) = run(&mut Command::new(compiled("header")), b"");
    assert_eq!((status, said.as_str()), (0, ""));
}
