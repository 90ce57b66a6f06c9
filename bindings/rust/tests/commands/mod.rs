//! Running commands.
#![allow(dead_code)]
use std::env;
use std::ffi::{OsStr, OsString};
use std::fs::{self, Permissions};
use std::io::Write;
use std::os::unix::fs::{symlink, PermissionsExt};
use std::path::PathBuf;
use std::process::{Command, Stdio};

/// A run's exit status, -1 where a signal ended it, standard output and standard error.
pub type Ran = (i32, String, String);

/// Runs a command with these bytes as its standard input.
pub fn run(command: &mut Command, input: &[u8]) -> Ran {
    let mut child = command.stdin(Stdio::piped()).stdout(Stdio::piped()).stderr(Stdio::piped()).spawn().unwrap();
    // A command that is not to read its input may have ended before this.
    let _ = child.stdin.take().unwrap().write_all(input);
    let done = child.wait_with_output().unwrap();
    (done.status.code().unwrap_or(-1), String::from_utf8(done.stdout).unwrap(), String::from_utf8(done.stderr).unwrap())
}

/// The command `sakyelbo` with these arguments.
pub fn sakyelbo<S: AsRef<OsStr>>(args: &[S]) -> Command {
    let mut command = Command::new(env!("CARGO_BIN_EXE_sakyelbo"));
    command.args(args);
    command
}

/// A C program of this folder's, compiled and linked with the library; it has the constants of the crate.
pub fn compiled(name: &str) -> PathBuf {
    let here = PathBuf::from(env!("CARGO_MANIFEST_DIR"));
    let mut compiler = Command::new("cc");
    compiler.args(["-std=c99", "-Wall", "-Wextra", "-Wpedantic", "-Werror", "-g"]);
    compiler.arg(format!("-DLONGEST_FILE={}", sakyelbo::LONGEST_FILE)).arg(format!("-DSTACK={}", sakyelbo::STACK));
    compiler.arg("-I").arg(here.join("../../include")).arg(here.join(format!("tests/{name}.c")));
    compiler.arg(here.join("../../target/staticlib/libsakyelbo.a")).arg("-o").arg(made(name));
    assert!(compiler.status().unwrap().success());
    made(name)
}

/// A path under the folder for what tests write.
pub fn made(name: &str) -> PathBuf {
    PathBuf::from(env!("CARGO_TARGET_TMPDIR")).join(name)
}

/// A file of these bytes.
pub fn file(name: &str, bytes: &[u8]) -> String {
    fs::write(made(name), bytes).unwrap();
    made(name).to_str().unwrap().to_string()
}

/// An empty folder.
pub fn folder(name: &str) -> PathBuf {
    let _ = fs::remove_dir_all(made(name));
    fs::create_dir_all(made(name)).unwrap();
    made(name)
}

/// A script of the shell at a path, with the folders above it.
pub fn script(path: PathBuf, text: &str) {
    fs::create_dir_all(path.parent().unwrap()).unwrap();
    fs::write(&path, format!("#!/bin/sh\n{text}")).unwrap();
    fs::set_permissions(&path, Permissions::from_mode(0o755)).unwrap();
}

/// PATH with a folder before it.
pub fn path_with(first: PathBuf) -> OsString {
    let rest = env::var_os("PATH").unwrap();
    env::join_paths([first].into_iter().chain(env::split_paths(&rest))).unwrap()
}

/// A folder with these commands of PATH and no others.
pub fn only(folder: PathBuf, names: &[&str]) -> PathBuf {
    fs::create_dir_all(&folder).unwrap();
    let rest = env::var_os("PATH").unwrap();
    for name in names {
        let found = env::split_paths(&rest).map(|f| f.join(name)).find(|f| f.is_file()).expect(name);
        symlink(found, folder.join(name)).unwrap();
    }
    folder
}
