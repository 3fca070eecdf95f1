//! Times bodies that answer the same, one beside the other in one process.

use std::fmt::Debug;
use std::hint::black_box;
use std::time::Instant;

/// Nanoseconds of a call, in one round of so many.
fn round<R>(body: fn(&[u8]) -> R, bytes: &[u8], turns: usize) -> f64 {
    let began = Instant::now();
    for _ in 0..turns {
        black_box(body(black_box(bytes)));
    }
    began.elapsed().as_nanos() as f64 / turns as f64
}

/// Nanoseconds of a call of each body, the best of so many rounds in turn; all must answer what the first one answers.
pub fn best_times<R: PartialEq + Debug, const N: usize>(
    bodies: [fn(&[u8]) -> R; N],
    bytes: &[u8],
    (rounds, turns): (usize, usize),
) -> [f64; N] {
    let mut best = [f64::INFINITY; N];
    for _ in 0..rounds {
        for (body, best) in bodies.iter().zip(&mut best) {
            assert_eq!(body(bytes), bodies[0](bytes));
            *best = best.min(round(*body, bytes, turns));
        }
    }
    best
}
