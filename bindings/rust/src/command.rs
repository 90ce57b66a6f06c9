//! The commands of an SMT-LIB script, each with its final byte 10.
use crate::raw::{write, Command};

/// The bytes of a command, in a buffer that is doubled until they fit. Its texts are UTF-8, so too little room is the one refusal.
fn written(command: Command) -> Vec<u8> {
    let mut room = 128;
    loop {
        let mut out = vec![0; room];
        match write(command, &mut out) {
            Ok(size) => {
                out.truncate(size);
                return out;
            }
            Err(_) => room *= 2,
        }
    }
}

/// The bytes of each text.
fn bytes<'a>(texts: &[&'a str]) -> Vec<&'a [u8]> {
    texts.iter().map(|t| t.as_bytes()).collect()
}

/// `; TEXT`, on one line: 200 code points of it at most, and spaces for bytes below 32 and byte 127.
pub fn comment(text: &str) -> Vec<u8> {
    written(Command::Comment(text.as_bytes()))
}

/// `(declare-datatype ID (CONSTRUCTORS))`, or `(declare-datatype ID (par (PARAMS) (CONSTRUCTORS)))`.
pub fn declare_datatype(id: &str, params: &[&str], constructors: &[&str]) -> Vec<u8> {
    written(Command::DeclareDatatype(id.as_bytes(), &bytes(params), &bytes(constructors)))
}

/// `(declare-const ID SORT)`.
pub fn declare_const(id: &str, sort: &str) -> Vec<u8> {
    written(Command::DeclareConst(id.as_bytes(), sort.as_bytes()))
}

/// `(declare-fun ID (ARGS) SORT)`.
pub fn declare_fun(id: &str, args: &[&str], sort: &str) -> Vec<u8> {
    written(Command::DeclareFun(id.as_bytes(), &bytes(args), sort.as_bytes()))
}

/// `(define-fun ID (ARGS) SORT BODY)`; an argument is a name and its sort.
pub fn define_fun(id: &str, args: &[(&str, &str)], sort: &str, body: &str) -> Vec<u8> {
    let names: Vec<&[u8]> = args.iter().map(|a| a.0.as_bytes()).collect();
    let sorts: Vec<&[u8]> = args.iter().map(|a| a.1.as_bytes()).collect();
    written(Command::DefineFun(id.as_bytes(), &names, &sorts, sort.as_bytes(), body.as_bytes()))
}

/// `(assert BODY)`.
pub fn assert_that(body: &str) -> Vec<u8> {
    written(Command::Assert(body.as_bytes()))
}

/// `(set-logic LOGIC)`.
pub fn set_logic(logic: &str) -> Vec<u8> {
    written(Command::SetLogic(logic.as_bytes()))
}

/// `(set-option :OPTION VALUE)`.
pub fn set_option(option: &str, value: &str) -> Vec<u8> {
    written(Command::SetOption(option.as_bytes(), value.as_bytes()))
}

/// `(check-sat)`.
pub fn check_sat() -> Vec<u8> {
    written(Command::CheckSat)
}

/// `(get-model)`.
pub fn get_model() -> Vec<u8> {
    written(Command::GetModel)
}

/// `(reset)`.
pub fn reset() -> Vec<u8> {
    written(Command::Reset)
}

/// `(exit)`.
pub fn exit() -> Vec<u8> {
    written(Command::Exit)
}
