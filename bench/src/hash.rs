//! The hashes by which records and names are found, as who reads the source has them, to make files whose hashes collide.
use std::hash::{DefaultHasher, Hasher};

/// The hash of the library, by the file's key; or a linear one of 32 bits, which has no key.
#[derive(Clone, Copy)]
pub enum Hash {
    Keyed(u64),
    Linear,
}

/// A part of a record as it is hashed: plain bytes, or a reference by its kind and its number.
pub enum Segment<'a> {
    Plain(&'a [u8]),
    Type(u64),
    Term(u64),
}

/// The key of the files that begin with what was hashed.
pub fn key(hashed: &DefaultHasher) -> u64 {
    hashed.finish() | 1
}

/// A file hashed for its key.
pub fn hashed(file: &[u8]) -> DefaultHasher {
    let mut hasher = DefaultHasher::new();
    hasher.write(file);
    hasher
}

/// The two halves of a product.
fn folded(a: u64, b: u64) -> u64 {
    let product = u128::from(a) * u128::from(b);
    product as u64 ^ (product >> 64) as u64
}

impl Hash {
    /// The hash of nothing.
    pub fn start(self) -> u64 {
        match self {
            Hash::Keyed(key) => key,
            Hash::Linear => 0,
        }
    }

    pub fn mix(self, h: u64, n: u64) -> u64 {
        match self {
            Hash::Keyed(key) => folded(h ^ n, key),
            Hash::Linear => (h as u32).wrapping_add(n as u32).wrapping_add(1).wrapping_mul(1_540_483_477).into(),
        }
    }

    /// With some bytes mixed in, four at a time and the last ones one by one.
    pub fn mix_bytes(self, h: u64, s: &[u8]) -> u64 {
        let words = s.chunks_exact(4);
        let last = words.remainder();
        let h = words.fold(h, |h, w| self.mix(h, u32::from_le_bytes(w.try_into().unwrap()).into()));
        last.iter().fold(h, |h, &b| self.mix(h, b.into()))
    }

    fn mix_kind(self, h: u64, kind: u64, number: u64) -> u64 {
        match self {
            Hash::Keyed(_) => self.mix(h, (kind << 32) + number),
            Hash::Linear => self.mix(h, 65_599 * kind + number),
        }
    }

    pub fn mix_segment(self, h: u64, segment: Segment) -> u64 {
        match segment {
            Segment::Plain(bytes) => self.mix_bytes(self.mix_kind(h, 1, 0), bytes),
            Segment::Type(number) => self.mix_kind(h, 2, number),
            Segment::Term(number) => self.mix_kind(h, 4, number),
        }
    }

    /// The hash of a mark and these segments.
    pub fn of(self, mark: &str, segments: Vec<Segment>) -> u64 {
        let h = self.mix_bytes(self.start(), mark.as_bytes());
        segments.into_iter().fold(h, |h, segment| self.mix_segment(h, segment))
    }

    /// The hash that a set starts with, by its element type and how many elements it has.
    pub fn set_start(self, ty: u64, count: u64) -> u64 {
        self.mix(self.mix_kind(self.mix_bytes(self.start(), b"XC"), 2, ty), count)
    }

    /// With an element in a set that starts with a hash: a sum, whatever the order.
    pub fn add_element(self, sum: u64, start: u64, n: u64) -> u64 {
        let mixed = self.mix_kind(start, 4, n);
        match self {
            Hash::Keyed(_) => sum.wrapping_add(folded(mixed, mixed)),
            Hash::Linear => (sum as u32).wrapping_add(mixed as u32).into(),
        }
    }

    /// The slot from which what has this hash is looked for, of so many.
    pub fn home(self, h: u64, rows: usize) -> usize {
        match self {
            Hash::Keyed(_) => (u128::from(folded(h, h)) * rows as u128 >> 64) as usize,
            Hash::Linear => (h * rows as u64 >> 32) as usize,
        }
    }
}
