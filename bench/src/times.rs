//! How long something takes.
use std::hint::black_box;
use std::time::{Duration, Instant};

/// The shortest of some runs, in nanoseconds: at most 1,000, and none begun after so long.
pub fn shortest(most: Duration, mut run: impl FnMut()) -> f64 {
    let began = Instant::now();
    let mut best = f64::INFINITY;
    for _ in 0..1000 {
        let start = Instant::now();
        run();
        best = best.min(start.elapsed().as_nanos() as f64);
        if began.elapsed() > most {
            break;
        }
    }
    best
}

/// Clears working memory and copies bytes, in nanoseconds.
pub fn copying(work: &mut [u32], bytes: &[u8], most: Duration) -> f64 {
    let mut copy = vec![0; bytes.len()];
    shortest(most, || {
        work.fill(0);
        copy.copy_from_slice(bytes);
        black_box((&mut *work, &mut copy));
    })
}
