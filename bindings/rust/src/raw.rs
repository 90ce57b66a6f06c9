//! The functions of the static library, as include/sakyelbo.h declares them, behind safe ones. References keep the rules there: no
//! pointer is null, each is aligned, and what is lent for writing overlaps nothing.
use crate::Refusal;

/// A text of a list of texts.
#[repr(C)]
pub struct Text {
    bytes: *const u8,
    count: usize,
}

/// Where a refusal is: the place of its record, and the position in its text.
#[repr(C)]
#[derive(Default)]
pub struct Where {
    place: usize,
    position: usize,
}

/// The texts of a list, as the library takes them; they must not be used after the list is gone.
fn texts(list: &[&[u8]]) -> Vec<Text> {
    list.iter().map(|t| Text { bytes: t.as_ptr(), count: t.len() }).collect()
}

extern "C" {
    fn sakyelbo_check(file: *const u8, file_count: usize, work: *mut u32, work_count: usize, at: *mut Where) -> u32;
    fn sakyelbo_encode(
        file: *const u8,
        file_count: usize,
        work: *mut u32,
        work_count: usize,
        script: *mut u8,
        script_count: usize,
        size: *mut usize,
        at: *mut Where,
    ) -> u32;
    fn sakyelbo_comment(text: *const u8, text_count: usize, out: *mut u8, out_count: usize, size: *mut usize) -> u32;
    fn sakyelbo_declare_datatype(
        id: *const u8,
        id_count: usize,
        params: *const Text,
        params_count: usize,
        constructors: *const Text,
        constructors_count: usize,
        out: *mut u8,
        out_count: usize,
        size: *mut usize,
    ) -> u32;
    fn sakyelbo_declare_const(
        id: *const u8,
        id_count: usize,
        sort: *const u8,
        sort_count: usize,
        out: *mut u8,
        out_count: usize,
        size: *mut usize,
    ) -> u32;
    fn sakyelbo_declare_fun(
        id: *const u8,
        id_count: usize,
        args: *const Text,
        args_count: usize,
        sort: *const u8,
        sort_count: usize,
        out: *mut u8,
        out_count: usize,
        size: *mut usize,
    ) -> u32;
    fn sakyelbo_define_fun(
        id: *const u8,
        id_count: usize,
        names: *const Text,
        names_count: usize,
        sorts: *const Text,
        sorts_count: usize,
        sort: *const u8,
        sort_count: usize,
        body: *const u8,
        body_count: usize,
        out: *mut u8,
        out_count: usize,
        size: *mut usize,
    ) -> u32;
    fn sakyelbo_assert_that(
        body: *const u8,
        body_count: usize,
        out: *mut u8,
        out_count: usize,
        size: *mut usize,
    ) -> u32;
    fn sakyelbo_set_logic(
        logic: *const u8,
        logic_count: usize,
        out: *mut u8,
        out_count: usize,
        size: *mut usize,
    ) -> u32;
    fn sakyelbo_set_option(
        option: *const u8,
        option_count: usize,
        value: *const u8,
        value_count: usize,
        out: *mut u8,
        out_count: usize,
        size: *mut usize,
    ) -> u32;
    fn sakyelbo_check_sat(out: *mut u8, out_count: usize, size: *mut usize) -> u32;
    fn sakyelbo_get_model(out: *mut u8, out_count: usize, size: *mut usize) -> u32;
    fn sakyelbo_reset(out: *mut u8, out_count: usize, size: *mut usize) -> u32;
    fn sakyelbo_exit(out: *mut u8, out_count: usize, size: *mut usize) -> u32;
}

/// Acceptance, or the refusal of a number.
fn accepted(number: u32, at: Where) -> Result<(), Refusal> {
    match number {
        0 => Ok(()),
        _ => Err(Refusal { number, place: at.place, position: at.position }),
    }
}

pub fn check(file: &[u8], work: &mut [u32]) -> Result<(), Refusal> {
    let mut at = Where::default();
    let number = unsafe { sakyelbo_check(file.as_ptr(), file.len(), work.as_mut_ptr(), work.len(), &mut at) };
    accepted(number, at)
}

pub fn encode(file: &[u8], work: &mut [u32], script: &mut [u8]) -> Result<usize, Refusal> {
    let (w, wn, s, sn) = (work.as_mut_ptr(), work.len(), script.as_mut_ptr(), script.len());
    let (mut size, mut at) = (0, Where::default());
    let number = unsafe { sakyelbo_encode(file.as_ptr(), file.len(), w, wn, s, sn, &mut size, &mut at) };
    accepted(number, at).map(|()| size)
}

/// A command, by its texts.
#[derive(Clone, Copy)]
pub enum Command<'a> {
    Comment(&'a [u8]),
    DeclareDatatype(&'a [u8], &'a [&'a [u8]], &'a [&'a [u8]]),
    DeclareConst(&'a [u8], &'a [u8]),
    DeclareFun(&'a [u8], &'a [&'a [u8]], &'a [u8]),
    DefineFun(&'a [u8], &'a [&'a [u8]], &'a [&'a [u8]], &'a [u8], &'a [u8]),
    Assert(&'a [u8]),
    SetLogic(&'a [u8]),
    SetOption(&'a [u8], &'a [u8]),
    CheckSat,
    GetModel,
    Reset,
    Exit,
}

/// Writes a command to the start of a buffer, and returns its length. A refusal is of no record.
pub fn write(command: Command, out: &mut [u8]) -> Result<usize, Refusal> {
    let mut size = 0;
    let (o, n, s) = (out.as_mut_ptr(), out.len(), &mut size as *mut usize);
    let number = unsafe {
        match command {
            Command::Comment(text) => sakyelbo_comment(text.as_ptr(), text.len(), o, n, s),
            Command::DeclareDatatype(id, params, constructors) => {
                let (ps, cs) = (texts(params), texts(constructors));
                sakyelbo_declare_datatype(id.as_ptr(), id.len(), ps.as_ptr(), ps.len(), cs.as_ptr(), cs.len(), o, n, s)
            }
            Command::DeclareConst(id, sort) => {
                sakyelbo_declare_const(id.as_ptr(), id.len(), sort.as_ptr(), sort.len(), o, n, s)
            }
            Command::DeclareFun(id, args, sort) => {
                let xs = texts(args);
                sakyelbo_declare_fun(id.as_ptr(), id.len(), xs.as_ptr(), xs.len(), sort.as_ptr(), sort.len(), o, n, s)
            }
            Command::DefineFun(id, names, sorts, sort, body) => {
                let (xs, ts) = (texts(names), texts(sorts));
                sakyelbo_define_fun(
                    id.as_ptr(),
                    id.len(),
                    xs.as_ptr(),
                    xs.len(),
                    ts.as_ptr(),
                    ts.len(),
                    sort.as_ptr(),
                    sort.len(),
                    body.as_ptr(),
                    body.len(),
                    o,
                    n,
                    s,
                )
            }
            Command::Assert(body) => sakyelbo_assert_that(body.as_ptr(), body.len(), o, n, s),
            Command::SetLogic(logic) => sakyelbo_set_logic(logic.as_ptr(), logic.len(), o, n, s),
            Command::SetOption(option, value) => {
                sakyelbo_set_option(option.as_ptr(), option.len(), value.as_ptr(), value.len(), o, n, s)
            }
            Command::CheckSat => sakyelbo_check_sat(o, n, s),
            Command::GetModel => sakyelbo_get_model(o, n, s),
            Command::Reset => sakyelbo_reset(o, n, s),
            Command::Exit => sakyelbo_exit(o, n, s),
        }
    };
    accepted(number, Where::default()).map(|()| size)
}

#[cfg(test)]
mod tests {
    use super::{write, Command};
    use crate::Refusal;

    /// Writes a command into lent bytes that are not zero, with others around them.
    fn write_lent(command: Command, room: usize) -> (Result<usize, Refusal>, Vec<u8>) {
        let mut memory = vec![0xa5; room + 8];
        let answer = write(command, &mut memory[4..4 + room]);
        assert!(memory[..4].iter().chain(&memory[4 + room..]).all(|&b| b == 0xa5));
        (answer, memory[4..4 + room].to_vec())
    }

    #[test]
    fn bytes_behind_a_command_are_zero() {
        assert_eq!(write_lent(Command::Exit, 7), (Ok(7), b"(exit)\n".to_vec()));
        assert_eq!(write_lent(Command::Exit, 9), (Ok(7), b"(exit)\n\0\0".to_vec()));
    }

    #[test]
    fn a_refusal_leaves_zeros() {
        let refused = |number| Err(Refusal { number, place: 0, position: 0 });
        for room in 0..7 {
            assert_eq!(write_lent(Command::Exit, room), (refused(20), vec![0; room]));
        }
        let bad: &[u8] = b"\xc0\x80";
        let good: &[u8] = b"x";
        let commands = [
            Command::Comment(bad),
            Command::DeclareDatatype(good, &[good, bad], &[good]),
            Command::DeclareDatatype(good, &[good], &[bad, good]),
            Command::DeclareConst(good, bad),
            Command::DeclareFun(bad, &[good], good),
            Command::DeclareFun(good, &[bad], good),
            Command::DefineFun(good, &[good], &[bad], good, good),
            Command::DefineFun(good, &[], &[], good, bad),
            Command::Assert(bad),
            Command::SetLogic(bad),
            Command::SetOption(good, bad),
        ];
        for command in commands {
            for room in [0, 5, 100] {
                assert_eq!(write_lent(command, room), (refused(6), vec![0; room]));
            }
        }
    }

    /// The bytes that hexadecimal digits stand for.
    fn bytes(hex: &str) -> Vec<u8> {
        (0..hex.len()).step_by(2).map(|i| u8::from_str_radix(&hex[i..i + 2], 16).unwrap()).collect()
    }

    #[test]
    fn each_comment_has_its_line_or_its_refusal() {
        // A text, the room or `any`, and the line or its refusal.
        let cases = include_str!("../tests/comments.tsv");
        for case in cases.lines() {
            let fields: Vec<&str> = case.split('\t').collect();
            let [text, room, answer] = fields[..] else { panic!("{case}") };
            let text = bytes(text);
            let room = if room == "any" { 3 * text.len() + 8 } else { room.parse().unwrap() };
            let mut expected = vec![0; room];
            let wanted = match answer.strip_prefix("refused ") {
                Some(number) => Err(Refusal { number: number.parse().unwrap(), place: 0, position: 0 }),
                None => {
                    let line = bytes(answer);
                    expected[..line.len()].copy_from_slice(&line);
                    Ok(line.len())
                }
            };
            assert_eq!(write_lent(Command::Comment(&text), room), (wanted, expected), "{case}");
        }
        assert_eq!(cases.lines().count(), 20);
    }

    #[test]
    fn names_past_the_shorter_list_are_left_out() {
        let (x, bad): (&[u8], &[u8]) = (b"x", b"\xff");
        let command = Command::DefineFun(x, &[x, bad], &[x], x, x);
        assert_eq!(write_lent(command, 27), (Ok(27), b"(define-fun x ((x x)) x x)\n".to_vec()));
    }
}
