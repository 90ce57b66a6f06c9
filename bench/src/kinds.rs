//! The kinds of files that could be slow: those whose hashes collide, and those that ask for much again and again.
use crate::collide::{self, COLLIDING};
use crate::files::variable;
use crate::made::{record, text, word};

/// A kind of file, by what makes one of at most so many bytes.
pub struct Kind {
    pub name: String,
    pub make: Box<dyn Fn(usize) -> Vec<u8>>,
}

/// The kinds whose hashes are no matter.
const OTHERS: [(&str, fn(usize) -> Vec<u8>); 21] = [
    ("long string again", |size| string_again("s", size)),
    ("long string again, two bytes", |size| string_again("é", size)),
    ("long string as input again", string_inputs),
    ("long enum name, member again", |size| member_again(3 * size / 8, 1, size)),
    ("long enum member again", |size| member_again(1, 3 * size / 8, size)),
    ("bit vector again", bits_again),
    ("long entity type name", entities),
    ("options 255 deep", options),
    ("attributes of options 255 deep", deep_attributes),
    ("functions of options 255 deep", deep_functions),
    ("long attribute again", attribute_again),
    ("attributes of one start", |size| attributes(&"a".repeat(250), size)),
    ("many attributes", |size| attributes("", size)),
    ("members of one start", |size| members(&"a".repeat(250), size)),
    ("many members", |size| members("", size)),
    ("wide set", wide_set),
    ("wide sets of one start", wide_sets),
    ("wide set in two orders", two_orders),
    ("wide set in many orders", many_orders),
    ("sets of sets", sets_of_sets),
    ("wide application", wide_application),
];

/// The kinds, in the order in which they are shown.
pub fn kinds() -> Vec<Kind> {
    let mut kinds = vec![];
    for (records, attacks) in COLLIDING {
        for &attack in attacks {
            let name = format!("{}, {}", records.name(), attack.name());
            kinds.push(Kind { name, make: Box::new(move |size| collide::file(records, attack, size)) });
        }
    }
    kinds.extend(OTHERS.map(|(name, make)| Kind { name: name.to_string(), make: Box::new(make) }));
    kinds
}

const RECORD_GET: u8 = 26;
const UUF: u8 = 31;

fn input(n: usize) -> Vec<u8> {
    record("IN", &[&word(n)])
}

/// Terms of a list, with their count.
fn list(terms: impl IntoIterator<Item = usize>) -> Vec<u8> {
    let terms: Vec<Vec<u8>> = terms.into_iter().map(word).collect();
    [word(terms.len()), terms.concat()].concat()
}

/// `And` of these terms.
fn and(terms: impl IntoIterator<Item = usize>) -> Vec<u8> {
    record("XA", &[&word(0), &[0], &list(terms)])
}

/// A file of its start, and then as many times what belongs together as fit, the numbers counted from 0.
fn filled(size: usize, start: Vec<u8>, one: impl Fn(usize) -> Vec<u8>) -> Vec<u8> {
    let count = (size - start.len()) / one(999_999).len();
    [start].into_iter().chain((0..count).map(one)).flatten().collect()
}

/// A file that ends with its first term as argument again and again.
fn again(size: usize, start: Vec<u8>) -> Vec<u8> {
    let rest = [and([]), input(1)].concat().len();
    let count = (size - start.len() - rest) / 4;
    [start, and(vec![0; count]), input(1)].concat()
}

/// A string of half the file.
fn string_again(letter: &str, size: usize) -> Vec<u8> {
    let string = record("XS", &[&text(&letter.repeat(size / 2 / letter.len()))]);
    again(size, [record("TB", &[]), record("TS", &[]), string].concat())
}

/// A string of half the file.
fn string_inputs(size: usize) -> Vec<u8> {
    let string = [record("TS", &[]), record("XS", &[&text(&"s".repeat(size / 2))])].concat();
    filled(size, string, |_| input(0))
}

/// An enum's name and its member, of these lengths.
fn member_again(name: usize, member: usize, size: usize) -> Vec<u8> {
    let (name, member) = (text(&"n".repeat(name)), text(&"m".repeat(member)));
    let types = [record("TB", &[]), record("TE", &[&name]), record("EN", &[&name, &word(1), &member])].concat();
    again(size, [types, record("XE", &[&word(1), &member])].concat())
}

/// Entities of a type whose name is three fifths of the file.
fn entities(size: usize) -> Vec<u8> {
    let types = [record("TE", &[&text(&"n".repeat(3 * size / 5))]), record("EN", &[&text("x"), &word(1), &text("m")])];
    let entity = |n| [record("XE", &[&word(0), &text(&format!("{n:06}"))]), input(n)].concat();
    filled(size, types.concat(), entity)
}

/// The deepest type of options, whose number is 254.
fn deep_type() -> Vec<u8> {
    [record("TB", &[])].into_iter().chain((0..254).map(|n| record("TO", &[&word(n)]))).flatten().collect()
}

/// Variables of a type that is spelled anew for each.
fn options(size: usize) -> Vec<u8> {
    filled(size, deep_type(), |n| [record("XV", &[&text(&format!("{n:06}")), &word(254)]), input(n)].concat())
}

/// A record type with attributes of such a type, and a variable of it.
fn deep_attributes(size: usize) -> Vec<u8> {
    let count = (size - deep_type().len() - 100) / 14;
    let fields: Vec<u8> = (0..count).flat_map(|n| [text(&format!("{n:06}")), word(254)].concat()).collect();
    let row = record("TR", &[&word(count), &fields]);
    [deep_type(), row, record("XV", &[&text("r"), &word(255)]), input(0)].concat()
}

/// Functions from such a type to itself, each applied to a variable.
fn deep_functions(size: usize) -> Vec<u8> {
    let one = |n| {
        let function = record("UF", &[&text(&format!("{n:06}")), &word(254), &word(254)]);
        let operator = [&[UUF][..], &word(n)].concat();
        [function, record("XA", &[&word(0), &operator, &list([0])]), input(n + 1)].concat()
    };
    filled(size, [deep_type(), variable("a")].concat(), one)
}

fn get(attribute: &str, term: usize) -> Vec<u8> {
    record("XA", &[&word(0), &[RECORD_GET], &text(attribute), &list([term])])
}

/// An attribute of 1,000 letters, of a record after the other.
fn attribute_again(size: usize) -> Vec<u8> {
    let name = "a".repeat(1000);
    let types = [record("TB", &[]), record("TR", &[&word(1), &text(&name), &word(0)])].concat();
    let one = |n| {
        let of = record("XV", &[&text(&format!("{n:06}")), &word(1)]);
        [of, get(&name, 2 * n), input(2 * n + 1)].concat()
    };
    filled(size, types, one)
}

/// A bit vector of 128 bits.
fn bits_again(size: usize) -> Vec<u8> {
    let types = [record("TB", &[]), record("TV", &[&word(128)])].concat();
    again(size, [types, record("XN", &[&word(128), &[0xff; 16]])].concat())
}

/// As many texts of this start and their numbers as fit in a file that has each twice, and so many bytes more for it.
fn names(start: &str, size: usize, more: usize) -> Vec<String> {
    let count = (size - 200) / (2 * (start.len() + 6) + more);
    (0..count).map(|n| format!("{start}{n:06}")).collect()
}

/// Attributes of this start, each got from the record.
fn attributes(start: &str, size: usize) -> Vec<u8> {
    let names = names(start, size, 45);
    let fields: Vec<u8> = names.iter().flat_map(|name| [text(name), word(0)].concat()).collect();
    let types = [record("TB", &[]), record("TR", &[&word(names.len()), &fields])];
    let of = record("XV", &[&text("r"), &word(1)]);
    let gets = names.iter().enumerate().flat_map(|(n, name)| [get(name, 0), input(n + 1)].concat());
    [types.concat(), of, gets.collect()].concat()
}

/// Members of this start, each an entity that is an argument eight times.
fn members(start: &str, size: usize) -> Vec<u8> {
    let names = names(start, size, 22 + 8 * 4);
    let members: Vec<u8> = names.iter().flat_map(|name| text(name)).collect();
    let members = [word(names.len()), members].concat();
    let types = [record("TB", &[]), record("TE", &[&text("E")]), record("EN", &[&text("E"), &members])];
    let entities: Vec<u8> = names.iter().flat_map(|name| record("XE", &[&word(1), &text(name)])).collect();
    [types.concat(), entities, and((0..8 * names.len()).map(|n| n % names.len())), input(names.len())].concat()
}

/// Variables and types for a set.
fn set_of(count: usize) -> Vec<u8> {
    let types = [record("TB", &[]), record("TC", &[&word(0)])];
    types.into_iter().chain((0..count).map(|n| variable(&format!("{n:06}")))).flatten().collect()
}

fn set(terms: impl IntoIterator<Item = usize>) -> Vec<u8> {
    record("XC", &[&word(0), &list(terms)])
}

/// A set of all variables of the file.
fn wide_set(size: usize) -> Vec<u8> {
    let count = (size - 200) / 24;
    [set_of(count), set(0..count), input(count)].concat()
}

/// A variable as argument again and again.
fn wide_application(size: usize) -> Vec<u8> {
    again(size, [record("TB", &[]), variable("a")].concat())
}

/// Sets of 1,000 elements that differ in the last.
fn wide_sets(size: usize) -> Vec<u8> {
    let one = |n| [set((0..999).chain([n % 500 + 999])), input(1500 + n)].concat();
    filled(size, set_of(1500), one)
}

/// Three letters for a number.
fn short(n: usize) -> String {
    (0..3).map(|d| char::from(b'0' + (n >> (6 * d) & 63) as u8)).collect()
}

/// A set of as many strings as fit into a file that lists them twice, and the same set in the other order.
fn two_orders(size: usize) -> Vec<u8> {
    let count = (size - 200) / 21;
    let types = [record("TS", &[]), record("TC", &[&word(0)])].concat();
    let strings: Vec<u8> = (0..count).flat_map(|n| record("XS", &[&text(&short(n))])).collect();
    [types, strings, set(0..count), set((0..count).rev()), input(count + 1), input(count)].concat()
}

/// A set of 1,000 elements, listed from each of them on.
fn many_orders(size: usize) -> Vec<u8> {
    let one = |n: usize| [set((0..1000).map(|i| (i + n) % 1000)), input(1000 + n)].concat();
    filled(size, set_of(1000), one)
}

/// A set of two variables in both orders, one of the first of them, and a set of these two in both orders.
fn sets_of_sets(size: usize) -> Vec<u8> {
    let one = |n: usize| {
        let first = 7 * n;
        let variables = ["a", "b"].map(|letter| variable(&format!("{letter}{n:06}"))).concat();
        let of = |ty, terms: &[usize]| record("XC", &[&word(ty), &list(terms.iter().map(|t| first + t))]);
        let sets = [of(0, &[0, 1]), of(0, &[1, 0]), of(0, &[0]), of(1, &[2, 4]), of(1, &[4, 3])].concat();
        [variables, sets, input(first + 6)].concat()
    };
    filled(size, [record("TB", &[]), record("TC", &[&word(0)]), record("TC", &[&word(1)])].concat(), one)
}
