//! The table of the kinds of files that could be slow, each beside an ordinary file of its size.
use crate::files;
use crate::kinds::{kinds, Kind};
use crate::times::shortest;
use std::hint::black_box;
use std::time::Duration;

const SIZES: [usize; 3] = [1 << 16, 1 << 18, 1 << 20];

/// The longest script that a large buffer has room for.
const LARGE: usize = 1 << 24;

/// A file of the next size is not timed where it may take longer, in milliseconds: 16 times as long as the one before, as is the square of
/// four times the size.
const LONGEST: f64 = 3000.0;

/// The calls that are timed: check, and encode with no room for the script, with 64 KiB, and with as much as it needs or `LARGE`.
const CALLS: usize = 4;

/// The times of a file's calls in milliseconds, where they are taken, and what the last one writes.
#[derive(Clone, Copy, Default)]
struct Times {
    calls: [Option<f64>; CALLS],
    written: Option<usize>,
}

/// The runs of a call are begun within this time.
const MOST: Duration = Duration::from_millis(40);

fn timed(run: impl FnMut()) -> f64 {
    shortest(MOST, run) / 1e6
}

/// The time of an encode with this room, and the bytes that it writes.
fn time_encode(file: &[u8], room: usize) -> (f64, usize) {
    let mut work = vec![0; sakyelbo::work_entries(file)];
    let mut script = vec![0; room];
    let mut answer = Ok(0);
    let taken = timed(|| answer = sakyelbo::encode_with(black_box(file), &mut work, &mut script));
    (taken, answer.unwrap_or(room))
}

/// The room that the script needs, or the largest.
fn room(file: &[u8]) -> usize {
    let mut work = vec![0; sakyelbo::work_entries(file)];
    match sakyelbo::encode_with(file, &mut work, &mut vec![0; LARGE]) {
        Err(refusal) if refusal.number != 20 => panic!("{refusal}"),
        answer => answer.unwrap_or(LARGE),
    }
}

/// Times the calls of a file, but those that took long with the one before, of a quarter of its size.
fn time(file: &[u8], before: Option<Times>) -> Times {
    let mut times = Times::default();
    let is_short = |call: usize| before.is_none_or(|b| b.calls[call].is_some_and(|ms| 16.0 * ms < LONGEST));
    if is_short(0) {
        let mut work = vec![0; sakyelbo::work_entries(file)];
        times.calls[0] = Some(timed(|| sakyelbo::check_with(black_box(file), &mut work).unwrap()));
    }
    for (call, room) in [(1, 0), (2, 1 << 16)] {
        if is_short(call) {
            times.calls[call] = Some(time_encode(file, room).0);
        }
    }
    if is_short(3) {
        let (taken, written) = time_encode(file, room(file));
        times.calls[3] = Some(taken);
        times.written = Some(written);
    }
    times
}

/// The values of the sizes one after the other, and `-` for one that was not taken.
fn cell(values: [Option<f64>; SIZES.len()], digits: usize) -> String {
    values.map(|value| value.map_or("-".to_string(), |value| format!("{value:.digits$}"))).join(" ")
}

/// A script of fewer bytes says nothing of what a byte takes.
const ENOUGH: usize = 4096;

/// What a written byte takes, in nanoseconds: by how much longer encode takes with room for the script than with none.
fn byte_time(times: Times) -> Option<f64> {
    let written = times.written.filter(|count| ENOUGH <= *count)?;
    Some((times.calls[3]? - times.calls[1]?) * 1e6 / written as f64)
}

/// A row of the table: for each size the times in milliseconds, or how many times those of the ordinary files they are, and what is written.
fn row(name: &str, times: [Times; SIZES.len()], usual: Option<[Times; SIZES.len()]>) {
    let cells: [String; CALLS] = std::array::from_fn(|call| match usual {
        None => cell(times.map(|t| t.calls[call]), 3),
        Some(usual) => cell(std::array::from_fn(|i| Some(times[i].calls[call]? / usual[i].calls[call]?)), 1),
    });
    let written = cell(times.map(|t| t.written.map(|count| count as f64)), 0);
    println!("| {name} | {} | {written} | {} |", cells.join(" | "), cell(times.map(byte_time), 1));
}

/// Prints the table: the times of the ordinary files, and for each kind how many times those its files take, each of 64 KiB, 256 KiB and
/// 1 MiB; and at last the bytes that are written, and what a byte takes.
pub fn table() {
    println!("| file | check | encode, no room | encode, 64 KiB | encode, all | bytes written | ns a byte |");
    println!("{}|", "|---".repeat(3 + CALLS));
    let ordinary = SIZES.map(|size| time(&files::ordinary(size), None));
    row("ordinary, in ms", ordinary, None);
    for Kind { name, make } in kinds() {
        let mut before = None;
        let times = SIZES.map(|size| {
            let file = make(size);
            assert!(file.len() <= size);
            let times = time(&file, before);
            before = Some(times);
            times
        });
        row(&name, times, Some(ordinary));
    }
}
