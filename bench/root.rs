//! The root against `f64::sqrt`.

use crate::clock;
use crate::port;
use oracle::generate::Random;
use std::hint::black_box;
use std::time::Instant;

/// Nanoseconds a value of each. The values go by parts of 10,000, and of each part the least time of some rounds counts.
fn time(values: &[f64], ways: [&dyn Fn(&[f64]) -> f64; 2]) -> (f64, f64) {
    let parts: Vec<&[f64]> = values.chunks(10_000).collect();
    let mut least = [vec![f64::INFINITY; parts.len()], vec![f64::INFINITY; parts.len()]];
    for _ in 0..15 {
        for (k, part) in parts.iter().enumerate() {
            for (way, least) in ways.iter().zip(&mut least) {
                let start = Instant::now();
                black_box(way(part));
                least[k] = least[k].min(start.elapsed().as_nanos() as f64);
            }
        }
    }
    let each = |times: &Vec<f64>| times.iter().sum::<f64>() / values.len() as f64;
    (each(&least[0]), each(&least[1]))
}

fn sum_of_port(part: &[f64]) -> f64 {
    part.iter().map(|&x| port::root(black_box(x))).sum()
}

fn sum_of_rust(part: &[f64]) -> f64 {
    part.iter().map(|&x| black_box(x).sqrt()).sum()
}

pub fn run() {
    let r = &mut Random::new(1, 0);
    // positive and finite, over every exponent
    let values: Vec<f64> = (0..1_000_000).map(|_| f64::from_bits((r.next() % 0x7FF0_0000_0000_0000).max(1))).collect();
    clock::line("root, a million random values", time(&values, [&sum_of_port, &sum_of_rust]));
    // what the paving asks: values of a narrow range
    let near: Vec<f64> = (0..1_000_000).map(|_| r.unit() * 1e6).collect();
    clock::line("root, a million values below 1,000,000", time(&near, [&sum_of_port, &sum_of_rust]));
}
