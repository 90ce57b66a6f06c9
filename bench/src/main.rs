//! Times check and encode on term files, beside clearing and copying the same bytes in the same run; and measures their stack.
mod collide;
#[path = "../../bindings/rust/tests/cases/deep.rs"]
mod deep;
mod files;
mod hash;
mod kinds;
#[path = "../../bindings/rust/tests/cases/made.rs"]
mod made;
mod slow;
mod stack;
mod times;

use files::TermFile;
use std::hint::black_box;
use std::time::Duration;
use times::{copying, shortest};

/// The runs of a file of the first table are begun within this time.
const LONG: Duration = Duration::from_secs(1);

/// A line of the table: what was timed, and the same bytes cleared and copied.
fn report(file: &TermFile, what: &str, taken: f64, copied: f64) {
    println!(
        "{:<12} {:>6} {:>8}  {:<6} {:>12.3} {:>10.0} {:>9.4} {:>9.0}",
        file.name,
        file.terms,
        file.bytes.len(),
        what,
        taken / 1e6,
        taken / file.terms as f64,
        copied / 1e6,
        taken / copied
    );
}

fn time_check(file: &TermFile) {
    let mut work = vec![0; sakyelbo::work_entries(&file.bytes)];
    let mut answer = Ok(());
    let taken = shortest(LONG, || answer = sakyelbo::check_with(black_box(&file.bytes), &mut work));
    if let Err(refusal) = answer {
        println!("{}: {refusal}", file.name);
    }
    report(file, "check", taken, copying(&mut work, &file.bytes, LONG));
}

fn time_encode(file: &TermFile) {
    let mut work = vec![0; sakyelbo::work_entries(&file.bytes)];
    let mut script = match sakyelbo::encode(&file.bytes) {
        Ok(script) => script,
        Err(refusal) => return println!("{}: {refusal}", file.name),
    };
    let taken = shortest(LONG, || {
        black_box(sakyelbo::encode_with(black_box(&file.bytes), &mut work, &mut script)).unwrap();
    });
    let both = [&file.bytes[..], &script].concat();
    report(file, "encode", taken, copying(&mut work, &both, LONG));
}

/// The table of the files of the benchmark and those that are named.
fn times(named: &[String]) -> std::io::Result<()> {
    let data = concat!(env!("CARGO_MANIFEST_DIR"), "/../crates/check_cases/data/large/");
    let mut files = vec![
        files::ladder(200),
        TermFile::read(&format!("{data}shared-1000.term"))?,
        TermFile::read(&format!("{data}plant-11000.term"))?,
        files::made(),
    ];
    for path in named {
        files.push(TermFile::read(path)?);
    }
    println!("file          terms    bytes  call             ms    ns/term   copy ms  to copy");
    for file in files {
        time_check(&file);
        time_encode(&file);
    }
    Ok(())
}

fn main() -> std::io::Result<()> {
    let args: Vec<String> = std::env::args().skip(1).collect();
    if args == ["--stack"] {
        stack::table();
        return Ok(());
    }
    times(&args)?;
    if args.is_empty() {
        println!();
        slow::table();
    }
    Ok(())
}
