//! Tile lists read back: `pave_recheck` against the reader in Rust, which counts pairs in a `HashMap` from `std` and copies the
//! bytes of an accepted list.
//!
//! Octagons whose rows give just so many points: of 8, 16, 32, 64 and 128 sampled nodes, with 1, 3, 15, 31 and 31 rows. A job has
//! as many quads as points but for the sampled nodes, and a few from closings. Then the longest list that is accepted, which no
//! job gives: 4,096 points and quads, 2,048 nodes of loops and as many of fronts, under mixed numbers.

use crate::clock::{least_single, line};
use oracle::calls::{self, default_options, Buffers, Job};
use oracle::generate::{on_circle, Random};
use oracle::{edits, lists, recheck, text};
use std::hint::black_box;
use std::time::{Duration, Instant};

extern "C" {
    fn pave_recheck(input: *const u8, n: usize, output: *mut u8, m: usize) -> u64;
}

const ROOM: usize = 286_720;

fn read_back(input: &[u8], output: &mut [u8]) -> usize {
    unsafe { pave_recheck(input.as_ptr(), input.len(), output.as_mut_ptr(), output.len()) as usize }
}

fn clocked<A>(work: impl FnOnce() -> A) -> Duration {
    let clock = Instant::now();
    black_box(work());
    clock.elapsed()
}

/// An octagon with so many inner points on each side, a size apart and in the middle, wide enough for so many rows.
fn octagon(inner: usize, rows: usize) -> Job {
    let radius = 6.0 * rows as f64 + 8.0;
    let xy = (0..8).flat_map(|k| on_circle(k as f64, 8.0)).map(|c| 1_000.0 * radius * c).collect();
    let mut job = Job { xy, lengths: vec![8], h: 1_000.0, options: default_options() };
    // a side is 0.765 of the radius long
    job.options.corner_margin = 0.5 * (0.7653668647301796 * radius - inner as f64);
    job.options.max_row_rounds = rows;
    job
}

/// The list of a job: the sampled loops, then what `pave` prints.
fn list_of(job: &Job, points: usize) -> (Vec<u8>, usize) {
    let mut b = Buffers::new();
    let (_, sampled) = calls::sample(job, &mut b);
    let mut out = String::new();
    for nodes in b.fronts(&sampled) {
        out += &nodes.iter().fold("s".to_string(), |line, node| line + &format!("\t{node}"));
        out += "\n";
    }
    let (number, counts) = calls::job(job, &mut b);
    assert!(number == 0 && counts.points == points, "the job gives so many points");
    out += &text::answer(number, &counts, &b);
    (out.into_bytes(), counts.quads)
}

fn compare(input: &[u8], points: usize, quads: usize) {
    let mut output = vec![0; ROOM];
    let n = read_back(input, &mut output);
    assert!(output[..n] == *input && recheck::recheck(input) == input, "both accept the list");
    let turns = (400_000 / points).clamp(200, 5_000);
    let [port, rust] = least_single(turns, [&mut || clocked(|| read_back(input, &mut output)), &mut || clocked(|| recheck::recheck(input))]);
    line(&format!("{points} points, {quads} quads, {} bytes", input.len()), (port, rust));
}

pub fn run() {
    for (inner, rows, points) in [(0, 1, 16), (1, 3, 64), (3, 15, 512), (7, 31, 2_048), (15, 31, 4_096)] {
        let (input, quads) = list_of(&octagon(inner, rows), points);
        compare(&input, points, quads);
    }
    let longest = lists::longest(&mut Random::new(1, 1), 1);
    compare(&edits::written(&longest), longest.points.len(), longest.quads.len());
}
