//! The script `sakyelbo`, in a folder of its own, with scripts in place of rt and cargo.
mod cases;
mod commands;

use cases::path;
use commands::{only, run, script, Ran};
use std::env;
use std::fs;
use std::ops::Deref;
use std::path::{Path, PathBuf};
use std::process::{self, Command};
use std::sync::Mutex;
use std::thread;

/// Held by each test, since a script can't run while a program that another one starts has it open for writing.
static ALONE: Mutex<()> = Mutex::new(());

/// Notes what it is asked for, and keeps its work beside the sources. Where it fails to build the library, half of it is left; `edit` has a
/// source changed meanwhile.
const RT: &str = r#"cd ../..
cat >stolen
echo "$@" >>asked
case $1 in
check)
    echo "rt: chose --jobs 2 for write_bytes"
    echo "fn write_bytes::put_at: proved"
    sleep 0.1
    mkdir -p crates/index/out
    echo work >crates/index/out/kept
    echo "logic=proved functions=1"
    [ ! -e fails/check ] || { echo "rt: chose --jobs 2 for write_types"; echo "logic=not-proved"; exit 1; }
    [ ! -e edit ] || { rm edit; sleep 0.1; echo >>crates/index/src/lib.rt; }
    ;;
lib)
    echo "fn sakyelbo_c::sakyelbo_check: proved" >&2
    mkdir -p crates/sakyelbo_c/out
    echo half >crates/sakyelbo_c/out/libsakyelbo_c.a
    [ ! -e fails/lib ] || exit 3
    echo whole >>crates/sakyelbo_c/out/libsakyelbo_c.a
    ;;
esac
"#;

/// Writes a program that says its arguments and its input. The last argument is the folder for what is built.
const CARGO: &str = r#"for target; do :; done
root=${target%/bindings/rust/target}
echo "cargo $1"
[ ! -e "$root/fails/cargo" ] || exit 101
[ ! -e "$root/fails/elsewhere" ] || target=$target/elsewhere
mkdir -p "$target/release"
printf '#!/bin/sh\nprintf "<%%s>" "$@"\ncat\necho said >&2\nexit 1\n' >"$target/release/sakyelbo"
chmod +x "$target/release/sakyelbo"
"#;

/// What the script needs beside rt and cargo, and these scripts.
const TOOLS: [&str; 14] = [
    "bash", "cat", "chmod", "cp", "dirname", "find", "flock", "mkdir", "mv", "readlink", "rm", "sleep", "tee", "touch",
];

const PROVING: &str = "sakyelbo: proving the library, which takes some minutes\nsakyelbo: write_bytes proved (N s)\n";

/// A folder that goes with the test.
struct Repository(PathBuf);

impl Deref for Repository {
    type Target = Path;

    fn deref(&self) -> &Path {
        &self.0
    }
}

impl Drop for Repository {
    fn drop(&mut self) {
        let _ = fs::remove_dir_all(&self.0);
    }
}

/// A folder with the scripts and sources. It has a crates.txt, which `rt ci` refuses anywhere below this repository's own: so it lies outside.
fn repository(name: &str) -> Repository {
    let root = env::temp_dir().join(format!("sakyelbo-{name}-{}", process::id()));
    let _ = fs::remove_dir_all(&root);
    for name in [
        "crates/index/src",
        "crates/index/proofs",
        "crates/index/specs",
        "crates/sakyelbo_c/src",
        "fails",
        "bindings/rust/src",
    ] {
        fs::create_dir_all(root.join(name)).unwrap();
    }
    for name in [
        "crates.txt",
        "crates/index/src/lib.rt",
        "crates/index/proofs/Unused.antt",
        "bindings/rust/build.rs",
        "bindings/rust/Cargo.toml",
    ] {
        fs::write(root.join(name), "").unwrap();
    }
    only(root.join("tools"), &TOOLS);
    for name in ["sakyelbo", "tools/library"] {
        fs::copy(path(name), root.join(name)).unwrap();
    }
    Repository(root)
}

fn add_rt(root: &Path) {
    script(root.join("bin/rt"), RT);
}

/// Where rustup puts it, which PATH need not have.
fn add_cargo(root: &Path) {
    script(root.join("home/.cargo/bin/cargo"), CARGO);
}

fn sakyelbo(root: &Path) -> Ran {
    let path = env::join_paths([root.join("bin"), root.join("tools")]).unwrap();
    let mut command = Command::new(root.join("sakyelbo"));
    command.args(["two words", "", "*"]).env("PATH", path).env("HOME", root.join("home")).current_dir("/");
    let (status, output, error) = run(&mut command, b"the input");
    (status, output, error.lines().map(timeless).collect())
}

/// A line with N for the seconds of a crate.
fn timeless(line: &str) -> String {
    match line.split_once(" proved (") {
        Some((crate_name, _)) => format!("{crate_name} proved (N s)\n"),
        None => format!("{line}\n"),
    }
}

/// What a run says that comes to the program, with these lines of the build.
fn ran(lines: &str) -> Ran {
    (1, "<two words><><*>the input".to_string(), format!("{lines}said\n"))
}

/// What a run says that doesn't come to the program.
fn failed(lines: &str) -> Ran {
    (2, String::new(), lines.to_string())
}

#[test]
fn the_first_build_shows_a_line_a_crate() {
    let _alone = ALONE.lock();
    let root = repository("first_build");
    assert_eq!(sakyelbo(&root), failed("sakyelbo: needs Rust: the command cargo is not there\n"));
    add_cargo(&root);
    assert_eq!(sakyelbo(&root), failed("sakyelbo: needs the Rattle kit: the command rt is not there\n"));
    add_rt(&root);
    let log = root.join("target/sakyelbo-build.log");
    let all_said = format!("{} has all that rt said\n", log.display());

    fs::write(root.join("fails/check"), "").unwrap();
    let not_proved = "sakyelbo: write_types NOT PROVED\nsakyelbo: the library was not proved: ";
    assert_eq!(sakyelbo(&root), failed(&format!("{PROVING}{not_proved}{all_said}")));
    assert!(fs::read_to_string(&log).unwrap().contains("fn write_bytes::put_at: proved\n"));

    fs::rename(root.join("fails/check"), root.join("fails/lib")).unwrap();
    let not_built = "sakyelbo: building the library\nsakyelbo: the library was not built: ";
    assert_eq!(sakyelbo(&root), failed(&format!("{PROVING}{not_built}{all_said}")));
    assert!(fs::read_to_string(&log).unwrap().contains("fn sakyelbo_c::sakyelbo_check: proved\n"));

    fs::rename(root.join("fails/lib"), root.join("fails/cargo")).unwrap();
    let no_program = "sakyelbo: building the library\ncargo build\nsakyelbo: the program was not built\n";
    assert_eq!(sakyelbo(&root), failed(&format!("{PROVING}{no_program}")));

    fs::remove_file(root.join("fails/cargo")).unwrap();
    assert_eq!(sakyelbo(&root), ran("cargo build\n"));
    assert_eq!(sakyelbo(&root), ran(""));
}

/// A repository with stubs of both commands.
fn with_commands(name: &str) -> Repository {
    let root = repository(name);
    add_rt(&root);
    add_cargo(&root);
    root
}

#[test]
fn what_has_changed_is_built_again() {
    let _alone = ALONE.lock();
    let root = with_commands("changed");
    let all = format!("{PROVING}sakyelbo: building the library\ncargo build\n");
    let change = |name: &str| fs::write(root.join(name), "changed").unwrap();
    let remove = |name: &str| fs::remove_file(root.join(name)).unwrap();
    let built = |lines: &str| {
        assert_eq!(sakyelbo(&root), ran(lines));
        assert_eq!(sakyelbo(&root), ran(""));
    };
    built(&all);
    change("crates.txt");
    built(&all);
    remove("crates/index/proofs/Unused.antt");
    built(&all);
    remove("target/staticlib/libsakyelbo.a");
    built(&all);
    change("bindings/rust/build.rs");
    built("cargo build\n");
    remove("bindings/rust/target/release/sakyelbo");
    built("cargo build\n");
    change("fails/elsewhere");
    change("bindings/rust/Cargo.toml");
    let program = root.join("bindings/rust/target/release/sakyelbo");
    let elsewhere = format!("cargo build\nsakyelbo: cargo did not write {}\n", program.display());
    assert_eq!(sakyelbo(&root), failed(&elsewhere));
    remove("fails/elsewhere");
    built("cargo build\n");
    // The first build has a source changed while it proves, so there is a second one.
    change("edit");
    change("crates.txt");
    assert_eq!(sakyelbo(&root), ran(&all));
    built(&all);
}

#[test]
fn two_calls_at_once_build_once() {
    let _alone = ALONE.lock();
    let root = with_commands("at_once");
    let calls = [(); 2].map(|()| {
        let root = root.to_path_buf();
        thread::spawn(move || sakyelbo(&root))
    });
    for call in calls {
        assert_eq!(call.join().unwrap().0, 1);
    }
    assert_eq!(fs::read_to_string(root.join("asked")).unwrap(), "check\nlib\n");
}
