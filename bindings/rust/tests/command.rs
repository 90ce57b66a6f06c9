//! The writers of commands.
use sakyelbo::command::*;

#[test]
fn each_command_is_written_as_it_is() {
    assert_eq!(comment("two\nlines\r"), b"; two lines \n");
    assert_eq!(
        declare_datatype("Option", &["X"], &["(none)", "(some (val X))"]),
        b"(declare-datatype Option (par (X) (\n  (none)\n  (some (val X)))))\n"
    );
    assert_eq!(declare_datatype("E0", &[], &["(E0 (eid String))"]), b"(declare-datatype E0 (\n  (E0 (eid String))))\n");
    assert_eq!(declare_const("t0", "Bool"), b"(declare-const t0 Bool)\n");
    assert_eq!(declare_fun("f0", &["E0", "Bool"], "Bool"), b"(declare-fun f0 (E0 Bool) Bool)\n");
    assert_eq!(define_fun("t1", &[], "Bool", "(not t0)"), b"(define-fun t1 () Bool (not t0))\n");
    assert_eq!(
        define_fun("g", &[("x", "Bool"), ("y", "String")], "Bool", "x"),
        b"(define-fun g ((x Bool) (y String)) Bool x)\n"
    );
    assert_eq!(assert_that("t1"), b"(assert t1)\n");
    assert_eq!(set_logic("ALL"), b"(set-logic ALL)\n");
    assert_eq!(set_option("produce-models", "true"), b"(set-option :produce-models true)\n");
    assert_eq!(check_sat(), b"(check-sat)\n");
    assert_eq!(get_model(), b"(get-model)\n");
    assert_eq!(reset(), b"(reset)\n");
    assert_eq!(exit(), b"(exit)\n");
}

#[test]
fn a_long_command_gets_the_room_that_it_needs() {
    for n in [0, 100, 127, 128, 129, 100_000] {
        let text = "é".repeat(n);
        assert_eq!(assert_that(&text), format!("(assert {text})\n").into_bytes());
    }
}

#[test]
fn a_comment_is_cut_after_200_code_points() {
    for (n, kept) in [(0, 0), (199, 199), (200, 200), (201, 200), (100_000, 200)] {
        for c in ["x", "é", "€", "😀"] {
            assert_eq!(comment(&c.repeat(n)), format!("; {}\n", c.repeat(kept)).into_bytes());
        }
    }
}

#[test]
fn a_control_character_is_a_space_in_a_comment() {
    for code in 0..=0x10ffff {
        if let Some(c) = char::from_u32(code) {
            let kept = if code < 32 || code == 127 { ' ' } else { c };
            assert_eq!(comment(&format!("a{c}b")), format!("; a{kept}b\n").into_bytes());
        }
    }
}
