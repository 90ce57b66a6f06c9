//! The script `examples/ask`, in a folder of its own, with a script in place of the solver.
mod cases;
mod commands;

use cases::path;
use commands::{folder, only, path_with, run, script};
use std::fs;
use std::os::unix::fs::symlink;
use std::process::Command;

/// Says the text that a script has, or reports an error of "bad"; it stops who asks "stop".
const CVC5: &str = r#"cat >asked
said=$(sed -n 's/.*"\(.*\)".*/\1/p' asked)
case $said in
bad) echo '(error "so bad")'; exit 1 ;;
stop) kill -TERM $PPID ;;
esac
echo "$said"
if grep -q get-model asked; then echo "(the model)"; fi
"#;

#[test]
fn a_question_that_fails_is_said_and_the_next_is_asked() {
    let root = folder("ask");
    fs::create_dir_all(root.join("temporary")).unwrap();
    fs::create_dir_all(root.join("examples")).unwrap();
    fs::create_dir_all(root.join("tools")).unwrap();
    fs::copy(path("examples/ask"), root.join("examples/ask")).unwrap();
    symlink(path("tools/termfile"), root.join("tools/termfile")).unwrap();
    script(root.join("sakyelbo"), &format!("exec '{}' \"$@\"\n", env!("CARGO_BIN_EXE_sakyelbo")));
    script(root.join("bin/cvc5"), CVC5);
    let asked = |names: &[&str]| {
        let mut command = Command::new(root.join("examples/ask"));
        command.args(names).current_dir(root.join("examples"));
        let ran = run(command.env("PATH", path_with(root.join("bin"))).env("TMPDIR", root.join("temporary")), b"");
        assert_eq!(fs::read_dir(root.join("temporary")).unwrap().count(), 0);
        ran
    };
    for id in ["bad", "sat", "unsat", "unknown", "perhaps", "stop"] {
        fs::write(root.join(format!("examples/{id}.txt")), format!("TB bool\nXV a = \"{id}\" bool\nIN a\n")).unwrap();
    }
    fs::write(root.join("examples/escape.txt"), "TE lot = \"\\q\"\n").unwrap();
    fs::write(root.join("examples/refused.txt"), "XB a = true\n").unwrap();

    let unsat = "unsat.txt: unsat, the new rule releases nothing that the old one held\n";
    let sat = "sat.txt: sat, the new rule releases something that the old one held, as here:\n(the model)\n";
    assert_eq!(asked(&["sat.txt", "unsat.txt"]), (0, format!("{sat}{unsat}"), String::new()));
    let bad = "bad.txt: the solver ended with status 1:\n(error \"so bad\")\n";
    let escape = "termfile: escape.txt: line 1: \\q is no escape in \"\\q\"\nescape.txt: no term file was made of it\n";
    let refused = "refused 12 record 0: record 0 is a term whose type is not listed before it\nrefused.txt: no script was made of it\n";
    let errors = format!("{bad}{escape}{refused}");
    assert_eq!(asked(&["bad.txt", "escape.txt", "refused.txt", "unsat.txt"]), (1, unsat.to_string(), errors));
    let unknown = "unknown.txt: unknown, the solver can't tell\n";
    assert_eq!(asked(&["unknown.txt"]), (0, unknown.to_string(), String::new()));
    let perhaps = "perhaps.txt: the solver said neither sat nor unsat:\nperhaps\n";
    assert_eq!(asked(&["perhaps.txt", "unsat.txt"]), (1, unsat.to_string(), perhaps.to_string()));
    assert_eq!(asked(&["stop.txt", "unsat.txt"]), (130, String::new(), String::new()));

    let mut without = Command::new(root.join("examples/ask"));
    without.env("PATH", only(root.join("only"), &["dirname", "readlink"]));
    assert_eq!(run(&mut without, b""), (2, String::new(), "ask: the solver cvc5 is not there\n".to_string()));
}
