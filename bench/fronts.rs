//! The closings and the fan, on fronts of 4, 6, 64, 512 and 2,048 nodes within outlines of 4, 64 and 1,024 points, two ways:
//! the port's call against the Rust's `close_small_fronts` or `fan_fill` alone, which test no job and no state and write no zeros;
//! and the port's call against the oracle's, both with the tests of the job and of the whole state and zeros behind the counts.
//! Reading the clock takes some 25 ns and is in every time: where the Rust alone takes no more, it does nothing.
//! For each outline the call on a state with no front comes first: the tests and the zeros, and next to nothing besides.
//!
//! Fronts of 4 and 6 nodes close, longer ones are kept. What closing itself takes, apart from the tests and the zeros, is the
//! difference between the call on a state with such fronts and the call on the same state but that its fronts have a node more or
//! less, in turn, and are kept; the Rust's is taken the same way. A fan on 6 or 64 nodes is granted. On 4 nodes, or on 512 and more, no
//! centre gives every quad its corners: after the search of the grid comes 27, and nothing is written.

use crate::clock::{least_each, least_single, line};
use crate::port::{self, lengths_of, port_job, PortJob};
use oracle::calls::{self, default_options, Buffers, Counts, Job, Ready};
use oracle::generate::on_circle;
use std::hint::black_box;
use std::time::Instant;

/// One of the two calls: the port's, the oracle's, and the Rust's function with its number.
struct Call {
    port: fn(&PortJob, &mut Buffers, &mut [u64]) -> u32,
    oracle: fn(&Job, &mut Buffers, Counts) -> (u8, Counts),
    rust: fn(&mut Ready) -> u8,
}

const CLOSE: Call = Call {
    port: port::close,
    oracle: calls::close,
    rust: |ready| {
        ready.close();
        0
    },
};

const FAN: Call = Call { port: port::fan, oracle: calls::fan, rust: Ready::fan };

fn ring(n: usize, radius: f64, x: f64) -> impl Iterator<Item = f64> {
    (0..n).map(move |k| on_circle(k as f64, n as f64)).flat_map(move |p| [x + radius * p[0], radius * p[1]])
}

/// So many fronts of n nodes side by side, in an outline of m points round them.
fn state(m: usize, n: usize, fronts: usize) -> (Job, Buffers, Counts) {
    uneven(m, n, fronts, |_| n)
}

/// The same with so many points, and fronts that take other numbers of them.
fn uneven(m: usize, n: usize, fronts: usize, nodes: impl Fn(usize) -> usize) -> (Job, Buffers, Counts) {
    let radius = 2.0 * n.max(4) as f64;
    let reach = 4.0 * radius * fronts.max(1) as f64;
    let job = Job { xy: ring(m, reach, 0.0).collect(), lengths: vec![m], h: 1.0, options: default_options() };
    let mut b = Buffers::new();
    for f in 0..fronts {
        let x = 2.5 * radius * (f as f64 - 0.5 * (fronts - 1) as f64);
        ring(n, radius, x).enumerate().for_each(|(i, c)| b.points[2 * n * f + i] = c);
        b.front_lengths[f] = nodes(f) as u16;
    }
    (0..(0..fronts).map(nodes).sum()).for_each(|k| b.front_nodes[k] = k as u16);
    (job, b, Counts { points: n * fronts, fronts, ..Counts::default() })
}

/// The number, and the port's nanoseconds against the Rust's alone and against the oracle's.
fn times(call: &Call, m: usize, n: usize, fronts: usize, pieces: usize) -> (u8, [(f64, f64); 2]) {
    let (job, clean, start) = state(m, n, fronts);
    let lengths = lengths_of(&job);
    let given = port_job(&job, &lengths);
    let counts = start.list().map(|c| c as u64);
    let original = Ready::new(&job, &clean, &start).expect("a sound state");

    let (mut left, mut b, mut after) = (clean.clone(), clean.clone(), counts);
    let (number, done) = (call.oracle)(&job, &mut left, start);
    assert!((call.rust)(&mut original.clone()) == number, "the Rust and the oracle answer the same");
    assert!((call.port)(&given, &mut b, &mut after) == number as u32, "the port answers the same");
    assert!(b.same(&left) && after == done.list().map(|c| c as u64), "the port leaves the same");

    let nodes = n * fronts;
    let renew = |b: &mut Buffers| {
        // what the last call changed within the counts
        b.front_nodes[..nodes].copy_from_slice(&clean.front_nodes[..nodes]);
        b.front_lengths[..fronts].copy_from_slice(&clean.front_lengths[..fronts]);
    };
    let mut ours = clean.clone();
    let mut port = || {
        renew(&mut ours);
        let mut counts = counts;
        let clock = Instant::now();
        black_box((call.port)(&given, &mut ours, &mut counts));
        clock.elapsed()
    };
    let mut ready = original.clone();
    let rust = || {
        ready = original.clone();
        let clock = Instant::now();
        black_box((call.rust)(&mut ready));
        clock.elapsed()
    };
    let mut theirs = clean.clone();
    let oracle = || {
        renew(&mut theirs);
        let clock = Instant::now();
        black_box((call.oracle)(&job, &mut theirs, start));
        clock.elapsed()
    };
    (number, [least_each(15, pieces, &mut port, rust), least_each(15, pieces, &mut port, oracle)])
}

struct Case {
    points: usize,
    nodes: usize,
    fronts: usize,
    number: u8,
    best: [(f64, f64); 2],
}

/// Short rounds, and several passes over all cases: some of each fall where the machine does nothing else.
fn run(name: &str, rust: &str, call: &Call, fronts: &[(usize, usize)], pieces: impl Fn(usize, usize) -> usize) {
    let all = [4, 64, 1_024].into_iter().flat_map(|m| fronts.iter().map(move |&(n, k)| (m, n, k)));
    let mut cases: Vec<Case> = all.map(|(points, nodes, fronts)| Case { points, nodes, fronts, number: 0, best: [(f64::INFINITY, f64::INFINITY); 2] }).collect();
    for _ in 0..6 {
        for case in &mut cases {
            let (number, now) = times(call, case.points, case.nodes, case.fronts, pieces(case.points, case.nodes * case.fronts));
            case.number = number;
            for (best, now) in case.best.iter_mut().zip(now) {
                *best = (best.0.min(now.0), best.1.min(now.1));
            }
        }
    }
    for case in cases {
        let refused = if case.number == 0 { String::new() } else { format!(", {}", case.number) };
        let on = match case.fronts {
            0 => "no front".to_string(),
            1 => format!("{} nodes", case.nodes),
            k => format!("{k} fronts of {} nodes", case.nodes),
        };
        line(&format!("{name} on {on} within {} points{refused}", case.points), case.best[1]);
        line(&format!("    the same, the Rust's {rust} alone"), case.best[0]);
    }
}

/// The port's nanoseconds of closing so many fronts of n nodes, and the Rust's.
fn step(m: usize, n: usize, fronts: usize) -> (f64, f64) {
    let closed = state(m, n, fronts);
    let kept = uneven(m, n, fronts, |f| if f % 2 == 0 { n - 1 } else { n + 1 });
    let lengths = lengths_of(&closed.0);
    let given = port_job(&closed.0, &lengths);
    let port = |(_, clean, start): &(Job, Buffers, Counts), quads: usize| {
        let (clean, start, mut b) = (clean.clone(), start.list().map(|c| c as u64), clean.clone());
        move |given: &PortJob| {
            b.front_nodes[..n * fronts].copy_from_slice(&clean.front_nodes[..n * fronts]);
            b.front_lengths.copy_from_slice(&clean.front_lengths);
            let mut counts = start;
            let clock = Instant::now();
            black_box(port::close(given, &mut b, &mut counts));
            let time = clock.elapsed();
            assert!(counts[1] == quads as u64, "the fronts close, or are kept");
            time
        }
    };
    let rust = |(job, clean, start): &(Job, Buffers, Counts)| {
        let original = Ready::new(job, clean, start).expect("a sound state");
        move || {
            let mut ready = original.clone();
            let clock = Instant::now();
            black_box(ready.close());
            clock.elapsed()
        }
    };
    let (mut closing, mut keeping) = (port(&closed, fronts * (n / 2 - 1)), port(&kept, 0));
    let (mut rust_closing, mut rust_keeping) = (rust(&closed), rust(&kept));
    let best = least_single(20_000, [&mut || closing(&given), &mut || keeping(&given), &mut rust_closing, &mut rust_keeping]);
    (best[0] - best[1], best[2] - best[3])
}

pub fn closings() {
    for (n, fronts) in [(4, 1), (4, 16), (6, 1), (6, 16)] {
        line(&format!("closing {fronts} of {n} nodes, without tests and zeros"), step(4, n, fronts));
    }
    let fronts = [(0, 0), (4, 1), (4, 16), (6, 1), (6, 16), (64, 1), (64, 16), (512, 1), (512, 4), (2_048, 1)];
    run("closings", "close_small_fronts", &CLOSE, &fronts, |_, nodes| if nodes > 500 { 20 } else { 60 });
}

pub fn fan() {
    let fronts = [(0, 0), (4, 1), (6, 1), (64, 1), (512, 1), (2_048, 1)];
    run("fan", "fan_fill", &FAN, &fronts, |points, nodes| (1_000 / (points + nodes)).clamp(1, 60));
}
