//! Sampling on the generator's jobs: the port's call, which fills the lent buffers, against the Rust's sampling into its
//! own lists, and against the oracle's call, which then writes the buffers too.

use crate::clock::{least, line};
use crate::port;
use crate::work::{by_size, Work};
use oracle::calls::{self, default_options, Buffers, Job};
use oracle::generate;

fn compare(name: &str, jobs: &[&Work]) {
    if jobs.is_empty() {
        return;
    }
    let mut mine = Buffers::new();
    let mut theirs = Buffers::new();
    let mut counts = [0; 8];
    let mut port = |i: usize| {
        port::sample(&jobs[i].port(), &mut mine, &mut counts)
    };
    let alone = least(7, jobs.len(), &mut port, |i| calls::sample_only(&jobs[i].domain, jobs[i].job.h, &jobs[i].job.options));
    line(&format!("{name}, the Rust's own lists"), alone);
    let whole = least(7, jobs.len(), &mut port, |i| calls::sample(&jobs[i].job, &mut theirs));
    line(&format!("{name}, the lent buffers"), whole);
}

/// The same job some times over.
fn repeated(name: &str, times: usize, job: Job) {
    compare(name, &vec![&Work::new(job); times]);
}

pub fn run() {
    let sets = by_size(4_000, |index| generate::sampling_job(7, index), Work::nodes);
    for (name, jobs) in &sets {
        compare(&format!("{} jobs, {name}", jobs.len()), &jobs.iter().collect::<Vec<_>>());
    }
    let all: Vec<&Work> = sets.iter().flat_map(|(_, jobs)| jobs).collect();
    compare(&format!("{} jobs, all jobs", all.len()), &all);
    // finely given outlines: most sides get no inner point
    for n in [64, 200, 1_000, 2_000] {
        let xy = (0..n).flat_map(|k| generate::on_circle(k as f64, n as f64).map(|c| 50_000.0 * c)).collect();
        let circle = Job { xy, lengths: vec![n], h: 1_000.0, options: default_options() };
        repeated(&format!("circle of {n} points"), 50, circle);
    }
    // plans far beyond the limit: refused with 10 before anything is placed
    let square = vec![-1e6, -1e6, 1e6, -1e6, 1e6, 1e6, -1e6, 1e6];
    let long = Job { xy: square, lengths: vec![4], h: 0.001, options: default_options() };
    repeated("sides of 2,000,000 at h = 0.001", 200, long);
}
