//! The term files that need the most stack: terms and types that are nested 256 deep, as deep as check lets them be.
use super::made::{record, text, word};

const EQ: u8 = 20;
const NOT: u8 = 23;
const RECORD_GET: u8 = 26;
const STRING_LIKE: u8 = 30;
const UUF: u8 = 31;

/// The number of the last of 256 types or terms.
const LAST: usize = 255;

fn option(part: usize) -> Vec<u8> {
    record("TO", &[&word(part)])
}

/// A record type, or a record term, with one attribute.
fn row(mark: &str, part: usize) -> Vec<u8> {
    record(mark, &[&word(1), &text("a"), &word(part)])
}

fn row_type(part: usize) -> Vec<u8> {
    row("TR", part)
}

fn variable(of: usize) -> Vec<u8> {
    record("XV", &[&text("a"), &word(of)])
}

fn application(of: usize, operator: &[u8], arguments: &[usize]) -> Vec<u8> {
    let terms: Vec<u8> = arguments.iter().flat_map(|&n| word(n)).collect();
    record("XA", &[&word(of), operator, &word(arguments.len()), &terms])
}

/// A Bool type, and types up to the last one, each of the one before.
fn types(of: impl Fn(usize) -> Vec<u8>) -> Vec<u8> {
    [record("TB", &[])].into_iter().chain((0..LAST).map(of)).flatten().collect()
}

/// Terms from this one up to the last one, each of the one before, and the last as an input.
fn terms(first: usize, of: impl Fn(usize) -> Vec<u8>) -> Vec<u8> {
    (first - 1..LAST).map(of).chain([record("IN", &[&word(LAST)])]).flatten().collect()
}

/// The same, each an operator of the one before.
fn applications(first: usize, operator: &[u8]) -> Vec<u8> {
    terms(first, |n| application(0, operator, &[n]))
}

fn negations(first: usize) -> Vec<u8> {
    applications(first, &[NOT])
}

/// A function of the last of these types, as operator.
fn over_function(types: Vec<u8>) -> Vec<u8> {
    let function = record("UF", &[&text("f"), &word(LAST), &word(LAST)]);
    let applied = application(0, &[&[UUF][..], &word(0)].concat(), &[0]);
    [types, function, variable(0), applied, negations(2)].concat()
}

/// A variable of the last of these types, negated.
fn over_variable(types: Vec<u8>) -> Vec<u8> {
    [types, variable(LAST), negations(1)].concat()
}

/// An input of the last of these types.
fn input(types: Vec<u8>) -> Vec<u8> {
    [types, variable(LAST), record("IN", &[&word(0)])].concat()
}

/// Records within records, each with an attribute that is got.
fn over_get() -> Vec<u8> {
    let got = application(LAST - 1, &[&[RECORD_GET][..], &text("a")].concat(), &[0]);
    [types(row_type), variable(LAST), got, negations(2)].concat()
}

/// An entity that is a member of an enum, compared with records within records.
fn over_member() -> Vec<u8> {
    let members: Vec<u8> = ["a", "b", "c", "d", "e"].into_iter().flat_map(text).collect();
    let entity_type = [record("TE", &[&text("E")]), record("EN", &[&text("E"), &word(5), &members])].concat();
    let entity = record("XE", &[&word(LAST + 1), &text("d")]);
    [types(row_type), entity_type, variable(LAST), entity, application(0, &[EQ], &[0, 1]), negations(3)].concat()
}

/// Patterns over a long string.
fn patterns() -> Vec<u8> {
    let pattern =
        [&[STRING_LIKE][..], &word(3), &word('a' as usize), &word('b' as usize), &word('c' as usize)].concat();
    let string = record("XS", &[&text(&"a".repeat(500))]);
    [record("TB", &[]), record("TS", &[]), string, applications(1, &pattern)].concat()
}

/// A function again and again.
fn functions() -> Vec<u8> {
    let function = record("UF", &[&text("f"), &word(0), &word(0)]);
    [record("TB", &[]), function, variable(0), applications(1, &[&[UUF][..], &word(0)].concat())].concat()
}

/// An address, negated.
fn over_address() -> Vec<u8> {
    let address = record("XX", &[&[1], &[0x0f; 16], &[5]]);
    [record("TB", &[]), record("TX", &[&[0]]), address, negations(1)].concat()
}

/// Terms of these types, the first of them `true`.
fn values(types: Vec<u8>, of: impl Fn(usize) -> Vec<u8>) -> Vec<u8> {
    [types, record("XB", &[&[1]]), terms(1, of)].concat()
}

/// The files with their names, after one that is not deep.
pub fn files() -> Vec<(&'static str, Vec<u8>)> {
    let mixed = |part: usize| if part % 2 == 0 { option(part) } else { row_type(part) };
    let of_options = |part: usize| if part == LAST - 1 { row_type(part) } else { option(part) };
    let over_row = |part: usize| if part == 0 { row_type(part) } else { option(part) };
    vec![
        ("one", [record("TB", &[]), variable(0), record("IN", &[&word(0)])].concat()),
        ("not", [record("TB", &[]), variable(0), negations(1)].concat()),
        ("not-of-record-type", over_variable(types(row_type))),
        ("not-of-option-type", over_variable(types(option))),
        ("not-of-mixed-type", over_variable(types(mixed))),
        ("not-of-function-of-record-type", over_function(types(row_type))),
        ("not-of-function-of-option-type", over_function(types(over_row))),
        ("not-of-function-of-mixed-type", over_function(types(mixed))),
        ("not-of-record-get", over_get()),
        ("not-of-enum-member", over_member()),
        ("not-of-address", over_address()),
        ("patterns", patterns()),
        ("functions", functions()),
        ("record-of-option-types", input(types(of_options))),
        ("mixed-types", input(types(mixed))),
        ("some-of-some", values(types(option), |n| record("X1", &[&word(n)]))),
        ("record-of-records", values(types(row_type), |n| row("XR", n))),
    ]
}
