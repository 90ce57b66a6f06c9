//! Term files checked and turned into SMT-LIB scripts, and single commands written, by the proved functions of crates/sakyelbo.
//!
//! ```
//! // A Bool type, and a variable of a type that is not there.
//! let file = b"TB\0\0\0\0XV\x09\0\0\0\x01\0\0\0a\x01\0\0\0";
//! let refusal = sakyelbo::check(file).unwrap_err();
//! assert_eq!((refusal.number, refusal.place, refusal.position), (8, 1, 0));
//! assert_eq!(sakyelbo::check(&file[..6]), Ok(()));
//! let script = sakyelbo::encode(&file[..6]).unwrap();
//! assert_eq!(script, b"(declare-datatype Option (par (X) (\n  (none)\n  (some (val X)))))\n");
//! ```
pub mod command;
mod raw;
mod refusal;

pub use refusal::Refusal;

/// The bytes of the longest file; a longer one is refusal 1.
pub const LONGEST_FILE: usize = 1_048_576;

/// The stack that check and encode need at most, in bytes, with what the system keeps there for a thread: a thread of this stack size can
/// call them with any file. Writing a command needs less. `bench/run --stack` measures it.
pub const STACK: usize = 98_304;

/// The entries of working memory that a file needs; with fewer it is refusal 2. A file that is too long needs none.
pub fn work_entries(file: &[u8]) -> usize {
    if file.len() > LONGEST_FILE {
        0
    } else {
        2 * file.len()
    }
}

/// Checks a term file: refusals 1 to 13 and 21.
pub fn check(file: &[u8]) -> Result<(), Refusal> {
    check_with(file, &mut vec![0; work_entries(file)])
}

/// Checks a term file with lent working memory, which is all zero afterwards.
pub fn check_with(file: &[u8], work: &mut [u32]) -> Result<(), Refusal> {
    raw::check(file, work)
}

/// The script of a term file: check's refusals, then 14 to 19, 24 and 25. The buffers are made here, and the script's is doubled until it
/// is long enough; 20 says that there is no memory for that.
pub fn encode(file: &[u8]) -> Result<Vec<u8>, Refusal> {
    let mut work = vec![0; work_entries(file)];
    let mut script = Vec::new();
    let mut room = 65_536.max(2 * work.len());
    loop {
        if script.try_reserve_exact(room - script.len()).is_err() {
            return Err(Refusal { number: 20, place: 0, position: 0 });
        }
        script.resize(room, 0);
        match encode_with(file, &mut work, &mut script) {
            Ok(size) => {
                script.truncate(size);
                return Ok(script);
            }
            Err(Refusal { number: 20, .. }) => room *= 2,
            Err(refusal) => return Err(refusal),
        }
    }
}

/// Writes the script of a term file to the start of lent bytes, with lent working memory, and returns its length. Afterwards the memory
/// is all zero, and so are the bytes behind the script, or after a refusal all of them.
pub fn encode_with(file: &[u8], work: &mut [u32], script: &mut [u8]) -> Result<usize, Refusal> {
    raw::encode(file, work, script)
}
