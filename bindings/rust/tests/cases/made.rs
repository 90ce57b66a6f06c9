//! The records of term files.
pub fn word(n: usize) -> Vec<u8> {
    (n as u32).to_le_bytes().to_vec()
}

pub fn text(s: &str) -> Vec<u8> {
    [&word(s.len()), s.as_bytes()].concat()
}

pub fn record(mark: &str, fields: &[&[u8]]) -> Vec<u8> {
    let body = fields.concat();
    [mark.as_bytes(), &word(body.len()), &body].concat()
}

/// `And` of two terms, of type 0.
pub fn and(a: usize, b: usize) -> Vec<u8> {
    record("XA", &[&word(0), &[0], &word(2), &word(a), &word(b)])
}
