//! The whole job, the port's call against two ways of the Rust: its `mesh_with_stats_options`, cut after `close_small_fronts`,
//! into its own lists; and the oracle's call, which then writes the lent buffers too.
//!
//! Plates of 16, 64, 512 and 2,048 sampled nodes with 0, 1 and 8 holes, their outer loops of 4, 64 and 1,024 points. Every given
//! point is a node and every loop has four, so some of these cannot be: they are left out. The size is searched for that gives
//! just so many nodes, the least one; the pass limit is the default, or the most with which points and quads stay within 4,096.
//! How many rows are laid does not follow from the nodes, so the plates of 4 points come again with one pass alone, to show how
//! the time grows with the nodes. Then the generator's jobs, accepted and refused: the sum of each job's least time.

use crate::clock::{growth, least_single, line};
use crate::port;
use crate::work::{by_size, Work};
use oracle::calls::{self, default_options, Buffers, Job};
use oracle::generate::{self, on_circle};
use std::hint::black_box;
use std::time::{Duration, Instant};

const NODES: [usize; 4] = [16, 64, 512, 2_048];

/// What the port and the oracle fill.
struct Ways {
    ours: Buffers,
    theirs: Buffers,
    counts: [u64; 8],
}

impl Ways {
    fn new() -> Ways {
        Ways { ours: Buffers::new(), theirs: Buffers::new(), counts: [0; 8] }
    }

    /// The port and the oracle answer the same and leave the same; the number.
    fn same(&mut self, work: &Work) -> u8 {
        let (number, counts) = calls::job(&work.job, &mut self.theirs);
        let port = port::job(&work.port(), &mut self.ours, &mut self.counts);
        assert!(port == number as u32 && self.ours.same(&self.theirs) && self.counts == counts.list().map(|c| c as u64), "the port answers and leaves the same");
        number
    }
}

fn clocked<A>(work: impl FnOnce() -> A) -> Duration {
    let clock = Instant::now();
    black_box(work());
    clock.elapsed()
}

/// The least nanoseconds of a job: the port's, the Rust's into its own lists, and the Rust's that fills the buffers.
fn times(ways: &mut Ways, work: &Work, turns: usize) -> [f64; 3] {
    let Ways { ours, theirs, counts } = ways;
    let job = work.port();
    least_single(
        turns,
        [
            &mut || clocked(|| port::job(&job, ours, counts)),
            &mut || clocked(|| calls::job_only(&work.domain, work.job.h, &work.job.options)),
            &mut || clocked(|| calls::job(&work.job, theirs)),
        ],
    )
}

/// An outer loop of so many points about a plate of 16 by 12, and square holes in it that are each a little larger than the last.
fn plate(points: usize, holes: usize, h: f64) -> Job {
    let mut xy: Vec<f64> = match points {
        4 => vec![-8.0, -6.0, 8.0, -6.0, 8.0, 6.0, -8.0, 6.0],
        n => (0..n).flat_map(|k| on_circle(k as f64, n as f64)).zip([8.0, 6.0].into_iter().cycle()).map(|(c, r)| r * c).collect(),
    };
    let mut lengths = vec![points];
    for k in 0..holes {
        // one in the middle, or four by two
        let (x, y) = if holes == 1 { (0.3, 0.2) } else { (-4.5 + 3.0 * (k % 4) as f64, -1.5 + 3.0 * (k / 4) as f64) };
        let s = 0.5 + 0.013 * k as f64;
        xy.extend([x - s, y - s, x + s, y - s, x + s, y + s, x - s, y + s]);
        lengths.push(4);
    }
    Job { xy, lengths, h, options: default_options() }
}

/// The plate with just so many nodes, at the least size that the search meets.
fn sized(points: usize, holes: usize, nodes: usize) -> Option<Work> {
    if points + 4 * holes > nodes {
        return None;
    }
    let steps = 60_000;
    let made = |k: usize| Work::new(plate(points, holes, 20.0 * 0.9998f64.powi(k as i32)));
    // one that is refused has too many
    let found = |work: &Work| work.nodes().unwrap_or(usize::MAX);
    // the nodes grow with k, but for a few steps back
    let (mut low, mut high) = (0, steps);
    while low + 1 < high {
        let middle = (low + high) / 2;
        if found(&made(middle)) <= nodes { low = middle } else { high = middle }
    }
    let mut work = (low.saturating_sub(400)..high + 400).rev().map(made).find(|work| found(work) == nodes)?;
    let mut b = Buffers::new();
    while calls::job(&work.job, &mut b).0 == 21 {
        work.job.options.max_row_rounds -= 1;
    }
    Some(work)
}

struct Case {
    points: usize,
    holes: usize,
    nodes: usize,
    work: Work,
    rows: u64,
    best: [f64; 3],
}

/// Plates with these numbers of points, under the pass limit that each has or a lower one.
fn plates(points: &[usize], most_passes: usize) {
    let mut ways = Ways::new();
    let mut cases = Vec::new();
    for &points in points {
        for holes in [0, 1, 8] {
            for nodes in NODES {
                let Some(mut work) = sized(points, holes, nodes) else { continue };
                let passes = &mut work.job.options.max_row_rounds;
                *passes = most_passes.min(*passes);
                assert!(ways.same(&work) == 0, "the plate is accepted");
                cases.push(Case { points, holes, nodes, work, rows: ways.counts[5], best: [f64::INFINITY; 3] });
            }
        }
    }
    // Several passes over all cases: some of each fall where the machine does nothing else.
    for _ in 0..6 {
        for case in &mut cases {
            let now = times(&mut ways, &case.work, (10_000 / case.nodes).max(5));
            case.best.iter_mut().zip(now).for_each(|(best, now)| *best = best.min(now));
        }
    }
    let mut before: Option<&Case> = None;
    for case in &cases {
        let [port, lists, filled] = case.best;
        line(&format!("{} nodes, {} points, holes {}, rows {}", case.nodes, case.points, case.holes, case.rows), (port, lists));
        line("    the same, the Rust filling the buffers", (port, filled));
        if let Some(last) = before.filter(|last| (last.points, last.holes) == (case.points, case.holes)) {
            growth((port, lists), (last.best[0], last.best[1]));
        }
        before = Some(case);
    }
}

fn generated() {
    let result = |work: &Work| calls::job_only(&work.domain, work.job.h, &work.job.options).and_then(|_| work.nodes());
    let sets = by_size(2_000, |index| generate::job(7, index), result);
    let mut ways = Ways::new();
    let told = |name: &str, n: usize, [port, lists, filled]: [f64; 3]| {
        let each = |x: f64| x / n.max(1) as f64;
        line(&format!("{n} jobs, {name}, the Rust's own lists"), (each(port), each(lists)));
        line(&format!("{n} jobs, {name}, the lent buffers"), (each(port), each(filled)));
    };
    let (mut all, mut count) = ([0.0; 3], 0);
    for (name, jobs) in &sets {
        let mut sum = [0.0; 3];
        for work in jobs {
            ways.same(work);
            let best = times(&mut ways, work, 9);
            sum.iter_mut().zip(best).for_each(|(sum, best)| *sum += best);
        }
        told(name, jobs.len(), sum);
        all.iter_mut().zip(sum).for_each(|(all, sum)| *all += sum);
        count += jobs.len();
    }
    told("all", count, all);
}

pub fn run() {
    plates(&[4, 64, 1_024], usize::MAX);
    println!("one pass alone");
    plates(&[4], 1);
    generated();
}

/// A dozen fixed plates for bench/counts: nodes, points, holes, the size's bits and the pass limit, a line each.
pub fn cases() {
    for (points, nodes) in [(4, 64), (4, 512), (4, 2_048), (64, 512)] {
        for holes in [0, 1, 8] {
            if let Some(work) = sized(points, holes, nodes) {
                println!("{nodes} {points} {holes} {} {}", work.job.h.to_bits(), work.job.options.max_row_rounds);
            }
        }
    }
}

/// One of them, so many times: by the port, by the Rust into its own lists, or by the Rust that fills the buffers.
pub fn once(words: &[String]) {
    let number = |k: usize| words[k].parse::<u64>().expect("a number");
    let mut job = plate(number(1) as usize, number(2) as usize, f64::from_bits(number(3)));
    job.options.max_row_rounds = number(4) as usize;
    let work = Work::new(job);
    let port_job = work.port();
    let mut ways = Ways::new();
    for _ in 0..number(5) {
        match words[0].as_str() {
            "port" => assert!(black_box(port::job(&port_job, &mut ways.ours, &mut ways.counts)) == 0),
            "lists" => drop(black_box(calls::job_only(&work.domain, work.job.h, &work.job.options))),
            _ => assert!(black_box(calls::job(&work.job, &mut ways.theirs)).0 == 0),
        }
    }
}
