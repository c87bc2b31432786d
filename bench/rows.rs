//! A row on fronts of 8, 64, 512 and 2,048 nodes within outlines of 4, 64 and 1,024 points, two ways:
//! the port's call against the oracle's, both with the tests of the job and of the whole state and zeros behind the counts;
//! and the port's call against the Rust's `next_row` and `commit_row` alone, which test nothing and write no zeros.

use crate::clock::{growth, least_each, line};
use crate::port::{self, lengths_of, port_job};
use oracle::calls::{self, default_options, Buffers, Counts, Job, Ready};
use oracle::generate::on_circle;
use std::hint::black_box;
use std::time::Instant;

fn ring(n: usize, radius: f64) -> Vec<f64> {
    (0..n).flat_map(|k| on_circle(k as f64, n as f64).map(|c| radius * c)).collect()
}

/// The port's nanoseconds and the Rust's, each of the two ways.
fn times(m: usize, n: usize) -> [(f64, f64); 2] {
    // the outline goes round the front at twice its radius
    let radius = 2.0 * n as f64;
    let side = radius * 6.283 / n as f64;
    let job = Job { xy: ring(m, 2.0 * radius), lengths: vec![m], h: side / 3.0, options: default_options() };
    let lengths = lengths_of(&job);
    let given = port_job(&job, &lengths);
    let mut clean = Buffers::new();
    clean.points[..2 * n].copy_from_slice(&ring(n, radius));
    (0..n).for_each(|k| clean.front_nodes[k] = k as u16);
    clean.front_lengths[0] = n as u16;
    let start = Counts { points: n, fronts: 1, ..Counts::default() };
    let counts = start.list().map(|c| c as u64);
    let mut ready = Ready::new(&job, &clean, &start).expect("a sound state");
    assert!(ready.clone().row(&job, 0), "the Rust lays the row");

    let mut laid = clean.clone();
    assert!(calls::row(&job, 0, &mut laid, start).0 == 0, "the oracle lays the row");
    let mut b = clean.clone();
    assert!(port::row(&given, 0, &mut b, &mut counts.clone()) == 0 && b.same(&laid), "the port lays the same row");

    let mut ours = clean.clone();
    let mut port = || {
        // what the last row changed within the counts
        ours.front_nodes[..n].copy_from_slice(&clean.front_nodes[..n]);
        let mut counts = counts;
        let clock = Instant::now();
        black_box(port::row(&given, 0, &mut ours, &mut counts));
        clock.elapsed()
    };
    let original = ready.clone();
    let rust = || {
        ready = original.clone();
        let clock = Instant::now();
        black_box(ready.row(&job, 0));
        clock.elapsed()
    };
    let mut theirs = clean.clone();
    let oracle = || {
        theirs.front_nodes[..n].copy_from_slice(&clean.front_nodes[..n]);
        let clock = Instant::now();
        black_box(calls::row(&job, 0, &mut theirs, start));
        clock.elapsed()
    };

    let pieces = (10_000 / (n * n / 16 + 100 + n * m / 32)).max(1);
    [least_each(15, pieces, &mut port, oracle), least_each(15, pieces, &mut port, rust)]
}

pub fn run() {
    // Short rounds, and several passes over all cases: some of each fall where the machine does nothing else.
    let mut cases: Vec<_> = [4, 64, 1_024].iter().flat_map(|&m| [8, 64, 512, 2_048].map(|n| (m, n, [(f64::INFINITY, f64::INFINITY); 2]))).collect();
    for _ in 0..6 {
        for (m, n, best) in &mut cases {
            for (best, now) in best.iter_mut().zip(times(*m, *n)) {
                *best = (best.0.min(now.0), best.1.min(now.1));
            }
        }
    }
    let mut last = None;
    for (m, n, [call, alone]) in cases {
        line(&format!("row on {n} nodes within {m} points"), call);
        line("    the same, the Rust's next_row and commit_row alone", alone);
        if let Some((before, times)) = last {
            if before < n {
                growth(alone, times);
            }
        }
        last = Some((n, alone));
    }
}
