//! Two ways to do the same work, timed in turn.

use std::hint::black_box;
use std::time::{Duration, Instant};

/// The least nanoseconds of one piece of work for the port and for the Rust. Rounds of both alternate, so that what
/// else the machine does falls on both, and of each the least counts.
pub fn least<A, B>(rounds: usize, pieces: usize, mut port: impl FnMut(usize) -> A, mut rust: impl FnMut(usize) -> B) -> (f64, f64) {
    let mut best = (f64::INFINITY, f64::INFINITY);
    for _ in 0..rounds {
        let start = Instant::now();
        for i in 0..pieces {
            black_box(port(black_box(i)));
        }
        best.0 = best.0.min(start.elapsed().as_nanos() as f64);
        let start = Instant::now();
        for i in 0..pieces {
            black_box(rust(black_box(i)));
        }
        best.1 = best.1.min(start.elapsed().as_nanos() as f64);
    }
    (best.0 / pieces as f64, best.1 / pieces as f64)
}

/// The least nanoseconds of one piece of work, where each way times itself and makes ready for the next outside its time.
pub fn least_each(rounds: usize, pieces: usize, mut port: impl FnMut() -> Duration, mut rust: impl FnMut() -> Duration) -> (f64, f64) {
    let mut best = (f64::INFINITY, f64::INFINITY);
    for _ in 0..rounds {
        let mut sums = (Duration::ZERO, Duration::ZERO);
        for _ in 0..pieces {
            sums.0 += port();
            sums.1 += rust();
        }
        best = (best.0.min(sums.0.as_nanos() as f64), best.1.min(sums.1.as_nanos() as f64));
    }
    (best.0 / pieces as f64, best.1 / pieces as f64)
}

/// The least nanoseconds of a single piece of work, of each of some ways that time themselves; they take turns.
pub fn least_single<const N: usize>(turns: usize, mut ways: [&mut dyn FnMut() -> Duration; N]) -> [f64; N] {
    let mut best = [f64::INFINITY; N];
    for _ in 0..turns {
        for (best, way) in best.iter_mut().zip(&mut ways) {
            *best = best.min(way().as_nanos() as f64);
        }
    }
    best
}

pub fn line(what: &str, (port, rust): (f64, f64)) {
    println!("{what:<54} port {port:>12.1} ns  Rust {rust:>12.1} ns  ratio {:.2}", port / rust);
}

/// How much longer each takes than at the size before.
pub fn growth(now: (f64, f64), before: (f64, f64)) {
    println!("{:<54} port {:.1} times the size before, Rust {:.1} times", "", now.0 / before.0, now.1 / before.1);
}

/// What else the machine does: its load over the last minute.
pub fn load() {
    let text = std::fs::read_to_string("/proc/loadavg").unwrap_or_default();
    let number = text.split(' ').next().unwrap_or("?");
    let cores = std::thread::available_parallelism().map_or(0, |n| n.get());
    println!("load {number} on {cores} cores");
}
