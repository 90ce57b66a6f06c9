//! The library's archive: what it needs from outside.
mod commands;

use commands::run;
use std::path::PathBuf;
use std::process::Command;

#[test]
fn the_library_needs_memcpy_and_memset_alone() {
    let archive = PathBuf::from(env!("CARGO_MANIFEST_DIR")).join("../../target/staticlib/libsakyelbo.a");
    let (status, said, _) = run(Command::new("nm").arg("-u").arg(archive), b"");
    // A name stands behind a letter, and alone on its line stands the file of the archive that needs the names below.
    let needed: Vec<_> = said.lines().filter_map(|line| line.split_whitespace().nth(1)).collect();
    let others: Vec<_> = needed.iter().filter(|name| !["memcpy", "memset"].contains(name)).collect();
    assert_eq!((status, others), (0, vec![]));
    assert!(needed.contains(&"memset"));
}
