//! A paver side by side with the oracle: numbers, counts and every place of
//! every buffer, f64 by their bits; and the time of both on the same work.

use crate::calls::{self, Buffers, Counts, Job};
use crate::equal;
use crate::extremes::{self, Reached};
use crate::fronts;
use crate::generate::{self, own_limit, Made, Random};
use crate::limits;
use crate::quality::CORNER_LIMIT;
use crate::requests::{job_lines, state_lines, Case};
use crate::states::{self, State};
use crate::traced;
use std::collections::BTreeMap;
use std::time::{Duration, Instant};

/// The calls, as the port's exports give them. A paver that lacks one is not asked for it.
pub trait Paver {
    fn sample(&mut self, job: &Job, buffers: &mut Buffers) -> (u8, Counts);
    fn job(&mut self, job: &Job, buffers: &mut Buffers) -> (u8, Counts);
    fn row(&mut self, job: &Job, front: usize, buffers: &mut Buffers, counts: Counts) -> (u8, Counts);
    fn close(&mut self, job: &Job, buffers: &mut Buffers, counts: Counts) -> (u8, Counts);
    fn fan(&mut self, job: &Job, buffers: &mut Buffers, counts: Counts) -> (u8, Counts);
}

/// The Rust with document 01's measures.
pub struct Oracle;

impl Paver for Oracle {
    fn sample(&mut self, job: &Job, buffers: &mut Buffers) -> (u8, Counts) {
        calls::sample(job, buffers)
    }
    fn job(&mut self, job: &Job, buffers: &mut Buffers) -> (u8, Counts) {
        calls::job(job, buffers)
    }
    fn row(&mut self, job: &Job, front: usize, buffers: &mut Buffers, counts: Counts) -> (u8, Counts) {
        calls::row(job, front, buffers, counts)
    }
    fn close(&mut self, job: &Job, buffers: &mut Buffers, counts: Counts) -> (u8, Counts) {
        calls::close(job, buffers, counts)
    }
    fn fan(&mut self, job: &Job, buffers: &mut Buffers, counts: Counts) -> (u8, Counts) {
        calls::fan(job, buffers, counts)
    }
}

/// So many differences are told in full.
const TOLD: u64 = 20;

#[derive(Default)]
pub struct Report {
    /// How often each number came up, by the call and what it was made on.
    pub compared: BTreeMap<String, BTreeMap<u8, u64>>,
    /// What else came up, as the oracle's own functions say.
    pub seen: BTreeMap<String, u64>,
    /// The most of something in one answer.
    pub most: BTreeMap<&'static str, usize>,
    /// Of each call, how many had another valid corner limit than the default, and how many of their answers are not those that
    /// the default limit gives on the same input.
    pub limits: BTreeMap<&'static str, [u64; 2]>,
    pub different: u64,
    pub differences: Vec<String>,
    /// The first of them, with what was given.
    pub first: Option<Case>,
    pub oracle_time: Duration,
    pub port_time: Duration,
}

impl Report {
    /// How often each number came up, from each call.
    fn numbers(&self) -> BTreeMap<&str, BTreeMap<u8, u64>> {
        let mut out: BTreeMap<&str, BTreeMap<u8, u64>> = BTreeMap::new();
        for (what, numbers) in &self.compared {
            let call = what.split(',').next().unwrap_or_default();
            for (number, n) in numbers {
                *out.entry(call).or_default().entry(*number).or_insert(0) += n;
            }
        }
        out
    }

    pub fn all(&self) -> u64 {
        self.compared.values().flat_map(BTreeMap::values).sum()
    }

    /// The numbers of one call.
    pub fn numbers_of(&self, call: &str) -> String {
        self.numbers().get(call).map(list).unwrap_or_default()
    }

    /// What the corner limits of one call changed.
    pub fn limits_of(&self, call: &str) -> String {
        let [other, changed] = self.limits.get(call).copied().unwrap_or_default();
        format!("{other} with another valid limit than the default, {changed} of their answers changed by it")
    }

    /// Those of some calls of which no answer was changed by its corner limit. A sampling's never is.
    pub fn unchanged<'a>(&self, calls: impl IntoIterator<Item = &'a str>) -> Vec<&'a str> {
        let changed = |call: &str| self.limits.get(call).is_some_and(|n| n[1] > 0);
        calls.into_iter().filter(|call| *call != "sample" && !changed(call)).collect()
    }

    /// What another report has, added to this one.
    pub fn add(&mut self, other: Report) {
        for (what, numbers) in other.compared {
            let here = self.compared.entry(what).or_default();
            numbers.into_iter().for_each(|(number, n)| *here.entry(number).or_insert(0) += n);
        }
        other.seen.into_iter().for_each(|(what, n)| self.see_many(what, n));
        other.most.into_iter().for_each(|(what, n)| self.at_most(what, n));
        for (call, n) in other.limits {
            let here = self.limits.entry(call).or_default();
            *here = [here[0] + n[0], here[1] + n[1]];
        }
        self.different += other.different;
        self.differences.extend(other.differences);
        self.first = self.first.take().or(other.first);
        self.oracle_time += other.oracle_time;
        self.port_time += other.port_time;
    }

    /// A line for each kind with its numbers, then all numbers of each call, and what else came up.
    pub fn text(&self) -> String {
        let mut out = String::new();
        for (what, numbers) in &self.compared {
            out += &format!("{:>10}  {what}: {}\n", numbers.values().sum::<u64>(), list(numbers));
        }
        for d in &self.differences {
            out += &format!("DIFFERENCE {d}\n");
        }
        if self.different > TOLD {
            out += &format!("{} more differences\n", self.different - TOLD);
        }
        for (call, numbers) in self.numbers() {
            out += &format!("numbers of {call}: {}\n", list(&numbers));
            out += &format!("limits of {call}: {}\n", self.limits_of(call));
        }
        if !self.seen.is_empty() {
            let words: Vec<String> = self.seen.iter().map(|(what, n)| format!("{what} {n}")).collect();
            out += &format!("seen: {}\n", words.join(", "));
        }
        if !self.most.is_empty() {
            let words: Vec<String> = self.most.iter().map(|(what, n)| format!("{what} {n}")).collect();
            out += &format!("at most: {}\n", words.join(", "));
        }
        let (port, rust) = (self.port_time.as_secs_f64(), self.oracle_time.as_secs_f64());
        out += &format!("port {port:.3} s, Rust {rust:.3} s, ratio {:.3}\n", port / rust);
        out + &format!("{} compared, {} differences\n", self.all(), self.different)
    }

    /// Those of some numbers that no answer of a call had.
    pub fn missing(&self, call: &str, numbers: &[u8]) -> Vec<u8> {
        let all = self.numbers();
        let given = all.get(call);
        numbers.iter().filter(|n| !given.is_some_and(|given| given.contains_key(n))).copied().collect()
    }

    /// Those of some things that did not come up.
    pub fn unseen<'a>(&self, things: &[&'a str]) -> Vec<&'a str> {
        things.iter().filter(|what| !self.seen.contains_key(**what)).copied().collect()
    }

    pub fn see(&mut self, what: impl Into<String>) {
        self.see_many(what, 1);
    }

    fn see_many(&mut self, what: impl Into<String>, n: u64) {
        *self.seen.entry(what.into()).or_insert(0) += n;
    }

    fn at_most(&mut self, what: &'static str, n: usize) {
        let most = self.most.entry(what).or_insert(0);
        *most = n.max(*most);
    }
}

fn list(numbers: &BTreeMap<u8, u64>) -> String {
    let words: Vec<String> = numbers.iter().map(|(number, n)| format!("{number:02} {n}")).collect();
    words.join(", ")
}

#[derive(Clone, Copy, PartialEq)]
pub enum Call {
    Sample,
    Job,
    Row(usize),
    Close,
    Fan,
}

impl Call {
    pub fn word(self) -> &'static str {
        match self {
            Call::Sample => "sample",
            Call::Job => "job",
            Call::Row(_) => "row",
            Call::Close => "closings",
            Call::Fan => "fan",
        }
    }
}

/// A call on a copy of a state: its number, what it left and how long it took.
pub fn perform(p: &mut dyn Paver, call: Call, job: &Job, s: &State) -> (u8, State, Duration) {
    let mut s = s.clone();
    let start = Instant::now();
    let (n, counts) = match call {
        Call::Sample => p.sample(job, &mut s.buffers),
        Call::Job => p.job(job, &mut s.buffers),
        Call::Row(front) => p.row(job, front, &mut s.buffers, s.counts),
        Call::Close => p.close(job, &mut s.buffers, s.counts),
        Call::Fan => p.fan(job, &mut s.buffers, s.counts),
    };
    let time = start.elapsed();
    s.counts = counts;
    (n, s, time)
}

/// The first thing in which two answers differ.
pub fn difference(a: &(u8, State, Duration), b: &(u8, State, Duration)) -> Option<String> {
    if a.0 != b.0 {
        return Some(format!("number {} and not {}", b.0, a.0));
    }
    if a.1.counts != b.1.counts {
        return Some(format!("counts {:?} and not {:?}", b.1.counts.list(), a.1.counts.list()));
    }
    let (x, y) = (&a.1.buffers, &b.1.buffers);
    if let Some(i) = (0..x.points.len()).find(|&i| x.points[i].to_bits() != y.points[i].to_bits()) {
        return Some(format!("points[{i}] {:?} and not {:?}", y.points[i], x.points[i]));
    }
    place("quads", &x.quads, &y.quads)
        .or_else(|| place("front_nodes", &x.front_nodes, &y.front_nodes))
        .or_else(|| place("front_lengths", &x.front_lengths, &y.front_lengths))
}

fn place(name: &str, x: &[u16], y: &[u16]) -> Option<String> {
    let i = (0..x.len()).find(|&i| x[i] != y[i])?;
    Some(format!("{name}[{i}] {} and not {}", y[i], x[i]))
}

/// One call of both on the same state: the oracle's number and what it left.
pub fn both(report: &mut Report, port: &mut dyn Paver, call: Call, job: &Job, s: &State, kind: &str, name: &str) -> (u8, State) {
    let a = perform(&mut Oracle, call, job, s);
    let b = perform(port, call, job, s);
    let word = call.word();
    *report.compared.entry(format!("{word}, {kind}")).or_default().entry(a.0).or_insert(0) += 1;
    report.oracle_time += a.2;
    report.port_time += b.2;
    let limit = job.options.corner_limit;
    if limits::corner_limit(limit) && limit != CORNER_LIMIT {
        let changed = report.limits.entry(word).or_default();
        changed[0] += 1;
        changed[1] += difference(&a, &perform(&mut Oracle, call, &with_limit(job, CORNER_LIMIT), s)).is_some() as u64;
    }
    if let Some(d) = difference(&a, &b) {
        report.different += 1;
        report.first.get_or_insert_with(|| Case { call, job: job.clone(), state: s.clone() });
        if report.different <= TOLD {
            let state = if matches!(call, Call::Sample | Call::Job) { String::new() } else { state_lines(&s.buffers, &s.counts) };
            report.differences.push(format!("{name}, {word} ({kind}): {d}\n{}{state}", job_lines(job)));
        }
    }
    (a.0, a.1)
}

/// The same job with another corner limit.
pub fn with_limit(job: &Job, limit: f64) -> Job {
    let mut job = job.clone();
    job.options.corner_limit = limit;
    job
}

/// Loop lengths that a u16 cannot hold become the largest that it can.
pub fn narrow(job: &mut Job) {
    job.lengths.iter_mut().for_each(|n| *n = (*n).min(65_535));
}

/// The numbers that a sampling can answer.
pub const SAMPLE_NUMBERS: [u8; 9] = [0, 1, 2, 3, 4, 5, 6, 7, 10];

/// The sampling of jobs 0 to `count` of a seed, into buffers that held anything.
pub fn samples(port: &mut dyn Paver, seed: u64, count: u64) -> Report {
    let mut report = Report::default();
    for index in 0..count {
        let mut made = traced::job(seed, index);
        narrow(&mut made.job);
        let r = &mut Random::new(seed ^ 0xC0FFEE, index);
        let mut lent = State { buffers: states::noise(r), counts: Counts::default() };
        if r.chance(2) {
            states::shorten(r, &mut lent.buffers);
        }
        let (number, _) = both(&mut report, port, Call::Sample, &made.job, &lent, made.change, &format!("seed {seed} job {index}"));
        see_pairs(&mut report, &made.job, number);
    }
    report
}

/// Which pairs of points a sampling tested, right after it.
pub fn see_pairs(report: &mut Report, job: &Job, number: u8) {
    for (what, n) in equal::SEEN.into_iter().zip(equal::pairs(job, number)) {
        if n > 0 {
            report.see_many(what, n);
        }
    }
}

/// The numbers that a row can answer.
pub const ROW_NUMBERS: [u8; 11] = [0, 1, 2, 3, 4, 5, 6, 20, 21, 22, 25];

/// `count` states and a row on a front of each: from sampled plates row after row on every front until one is refused,
/// then, from the state so reached, near a limit, of another job, and damaged in every way that number 25 names. Each row has the
/// corner limit of its job or one of its own.
pub fn rows(port: &mut dyn Paver, seed: u64, count: u64) -> Report {
    let mut report = Report::default();
    let mut left = count;
    for index in 0.. {
        if left == 0 {
            break;
        }
        let mut made = generate::sampling_job(seed, index);
        narrow(&mut made.job);
        let r = &mut Random::new(seed ^ 0xC0FFEE, index);
        let name = format!("seed {seed} job {index}");
        let mut s = State { buffers: Buffers::new(), counts: Counts::default() };
        let (number, counts) = calls::sample(&made.job, &mut s.buffers);
        s.counts = counts;
        let mut ask = |r: &mut Random, s: &State, front: usize, kind: &str| {
            left = left.saturating_sub(1);
            both(&mut report, port, Call::Row(front), &own_limit(r, &made.job), s, kind, &name).1
        };
        // one of the states on which a row was laid, each as likely as another
        let mut ready = None;
        let mut laid = 0;
        for front in 0..s.counts.fronts {
            loop {
                let given = states::with_noise(r, &s);
                let after = ask(r, &given, front, "row after row");
                if after.counts.quads == s.counts.quads {
                    break;
                }
                laid += 1;
                if r.below(laid) == 0 {
                    ready = Some((s, front));
                }
                s = after;
            }
        }
        if number == 0 {
            let (start, front) = ready.unwrap_or((s.clone(), r.below(s.counts.fronts)));
            let mut full = start.clone();
            states::fill_up(r, &mut full);
            ask(r, &full, front, "near a limit");
            for _ in 0..2 {
                let (damaged, way) = states::one_fault(r, &start);
                ask(r, &damaged, front, way);
            }
        }
        if made.job.lengths.first().is_some_and(|&n| n > 0 && 2 * n <= made.job.xy.len()) {
            let hand = states::by_hand(r, &made.job);
            let (given, front) = (states::with_noise(r, &hand), r.below(hand.counts.fronts));
            ask(r, &given, front, "fronts by hand");
        }
        let fronts = s.counts.fronts;
        let front = r.pick(&[fronts, fronts + 1, 16, usize::MAX]);
        ask(r, &s, front, "no such front");
        if r.chance(5) {
            let mut short = s.clone();
            states::shorten(r, &mut short.buffers);
            ask(r, &short, 0, "a buffer's length");
        }
    }
    report
}

/// The numbers that the closings can answer.
pub const CLOSE_NUMBERS: [u8; 9] = [0, 1, 2, 3, 4, 5, 6, 21, 25];

/// What the closings of many states have to come to.
pub const CLOSE_SEEN: [&str; 10] = [
    "4 nodes closed", "4 nodes kept", "6 nodes closed", "6 nodes kept", "clockwise closed", "6 nodes, splits tied",
    "all three splits tied as the best", "splits 0 and 1 tied as the best", "splits 0 and 2 tied as the best", "splits 1 and 2 tied as the best",
];

/// The numbers that a fan can answer.
pub const FAN_NUMBERS: [u8; 13] = [0, 1, 2, 3, 4, 5, 6, 21, 23, 24, 25, 26, 27];

/// What fans on many states have to come to.
pub const FAN_SEEN: [&str; 8] = [
    "no front, nothing added", "06 nodes granted", "08 nodes granted", "10 nodes granted", "12 nodes granted", "clockwise granted",
    "clearances tied", "clearances tied, another first along y",
];

/// The closings of `count` states.
pub fn closings(port: &mut dyn Paver, seed: u64, count: u64) -> Report {
    on_states(port, Call::Close, seed, count)
}

/// A fan on `count` states.
pub fn fans(port: &mut dyn Paver, seed: u64, count: u64) -> Report {
    on_states(port, Call::Fan, seed, count)
}

/// Small fronts for each job of the generator.
const SMALL: usize = 16;

/// Up to so many points, rows are laid before a call.
const ROWS_UP_TO: usize = 300;

/// One call on what a job left, on its sampled loops as they are and after rows, and on small fronts; each of these now and
/// then damaged in one of the ways that number 25 names. Behind the counts stands noise. The call has the job's corner limit or
/// one of its own.
fn on_states(port: &mut dyn Paver, call: Call, seed: u64, count: u64) -> Report {
    let mut report = Report::default();
    let mut left = count;
    for index in 0.. {
        if left == 0 {
            break;
        }
        let mut made = generate::job(seed, index);
        narrow(&mut made.job);
        let r = &mut Random::new(seed ^ 0xC0FFEE, index);
        let name = format!("seed {seed} job {index}");
        let mut ask = |r: &mut Random, job: &Job, s: &State, kind: &str| {
            left = left.saturating_sub(1);
            let mut given = states::with_noise(r, s);
            let mut kind = kind;
            match r.below(100) {
                0..=15 => (given, kind) = states::one_fault(r, &given),
                16 => {
                    states::shorten(r, &mut given.buffers);
                    kind = "a buffer's length";
                }
                _ => {}
            }
            let job = own_limit(r, job);
            let (number, after) = both(&mut report, port, call, &job, &given, kind, &name);
            if number == 0 && call == Call::Close {
                see_closings(&mut report, job.options.corner_limit, &given, &after);
            } else if number == 0 {
                see_fan(&mut report, &job, &given, &after);
            }
        };
        let mut s = State { buffers: Buffers::new(), counts: Counts::default() };
        let (_, counts) = calls::job(&made.job, &mut s.buffers);
        s.counts = counts;
        ask(r, &made.job, &s, "left by a job");
        let (_, counts) = calls::sample(&made.job, &mut s.buffers);
        s.counts = counts;
        ask(r, &made.job, &s, "sampled loops");
        if (1..=ROWS_UP_TO).contains(&s.counts.points) {
            for front in 0..s.counts.fronts {
                while let (0, counts) = calls::row(&made.job, front, &mut s.buffers, s.counts) {
                    s.counts = counts;
                }
            }
            ask(r, &made.job, &s, "after rows");
        }
        for _ in 0..SMALL {
            let mut small = fronts::small(r, &made.job, call == Call::Fan);
            narrow(&mut small.job);
            ask(r, &small.job, &small.state, small.kind);
        }
    }
    report
}

/// Which fronts were closed, and how often two splits tied.
fn see_closings(report: &mut Report, limit: f64, before: &State, after: &State) {
    let b = &before.buffers;
    let mut added = 0;
    for front in b.fronts(&before.counts) {
        let n = front.len();
        let closed = fronts::closing(b, &front, limit, false).len();
        added += closed;
        match (n, closed) {
            (4 | 6, 0) => report.see(format!("{n} nodes kept")),
            (4 | 6, _) => report.see(format!("{n} nodes closed")),
            _ => report.see("others kept"),
        }
        if n == 6 {
            let values = fronts::splits(b, &front, limit).map(|split| split.1);
            let best = values.iter().flatten().copied().fold(f64::NEG_INFINITY, f64::max);
            if [(0, 1), (0, 2), (1, 2)].into_iter().any(|(i, j)| values[i].is_some() && values[i] == values[j]) {
                report.see("6 nodes, splits tied");
            }
            match values.map(|v| v == Some(best)) {
                [true, true, true] => report.see("all three splits tied as the best"),
                [true, true, _] => report.see("splits 0 and 1 tied as the best"),
                [true, _, true] => report.see("splits 0 and 2 tied as the best"),
                [_, true, true] => report.see("splits 1 and 2 tied as the best"),
                _ => {}
            }
        }
        if closed > 0 && fronts::clockwise(b, &front) {
            report.see("clockwise closed");
        }
    }
    assert!(after.counts.quads == before.counts.quads + added, "the closings by the single functions are those of the Rust");
}

/// On how many nodes fans were granted, and how often grid points tied for the greatest clearance.
fn see_fan(report: &mut Report, job: &Job, before: &State, after: &State) {
    let b = &before.buffers;
    let Some(front) = b.fronts(&before.counts).pop() else {
        report.see("no front, nothing added");
        return;
    };
    report.see(if front.len() > 12 { "more nodes granted".to_string() } else { format!("{:02} nodes granted", front.len()) });
    if fronts::clockwise(b, &front) {
        report.see("clockwise granted");
    }
    let grid = fronts::grid(job, b, before.counts.points, &front);
    let best = fronts::first_best(&grid).expect("a granted fan has a centre");
    if grid.iter().filter(|(_, clear)| *clear == best.1).count() > 1 {
        report.see("clearances tied");
    }
    if fronts::first_best(&fronts::y_outermost(grid)) != Some(best) {
        report.see("clearances tied, another first along y");
    }
    assert!(after.buffers.point(before.counts.points) == best.0, "the centre by the single functions is that of the Rust");
}

/// The numbers that a job can answer.
pub const JOB_NUMBERS: [u8; 10] = [0, 1, 2, 3, 4, 5, 6, 7, 10, 21];

/// Jobs 0 to `count` of a seed and a tenth as many near the limits, and calls on what each left and on a state made from it.
pub fn run(port: &mut dyn Paver, seed: u64, count: u64) -> Report {
    let mut report = Report::default();
    for index in 0..count {
        job_and_after(&mut report, port, traced::job(seed, index), "generator", seed, index);
        if index % 10 == 9 {
            job_and_after(&mut report, port, extremes::near(seed, index / 10), "near the limits", seed, index / 10);
        }
    }
    report
}

/// A job into buffers that held anything; then on what it left, with anything behind, a fan, rows on two fronts and the
/// closings; then the three on another state. Each of these has the job's corner limit or one of its own.
pub fn job_and_after(report: &mut Report, port: &mut dyn Paver, mut made: Made, from: &'static str, seed: u64, index: u64) {
    narrow(&mut made.job);
    let r = &mut Random::new(seed ^ 0xC0FFEE, index);
    let name = format!("seed {seed} job {index}, {from} ({}, {})", made.shape, made.change);
    let mut lent = State { buffers: states::noise(r), counts: Counts::default() };
    if r.chance(2) {
        states::shorten(r, &mut lent.buffers);
    }
    let (number, answer) = both(report, port, Call::Job, &made.job, &lent, from, &name);
    see_pairs(report, &made.job, number);
    if !answer.buffers.fits() {
        return;
    }
    if number == 0 {
        see_job(report, &answer.counts);
        let held = states::with_noise(r, &answer);
        let fronts = answer.counts.fronts;
        let first = r.below(fronts.max(1));
        let mut calls = vec![Call::Fan, Call::Row(first), Call::Close];
        if fronts > 1 {
            calls.insert(2, Call::Row((first + 1) % fronts));
        }
        for call in calls {
            both(report, port, call, &own_limit(r, &made.job), &held, "on the answer", &name);
        }
    }
    let (mut s, kind) = states::state(r, &made.job, &answer);
    if r.chance(2) {
        states::shorten(r, &mut s.buffers);
    }
    let fronts = s.counts.fronts.clamp(1, 17);
    let front = if r.chance(95) { r.below(fronts) } else { r.pick(&[fronts, 16, usize::MAX]) };
    for call in [Call::Row(front), Call::Close, Call::Fan] {
        both(report, port, call, &own_limit(r, &made.job), &s, kind, &name);
    }
}

/// What an accepted job came to.
pub fn see_job(report: &mut Report, c: &Counts) {
    report.see("jobs accepted");
    if c.row_rounds > 0 {
        report.see("jobs that laid rows");
        report.see_many("rows laid", c.row_rounds as u64);
    }
    if c.row_rounds > 0 && c.fronts > 1 {
        report.see("jobs that laid rows and left several fronts");
    }
    if c.row_quads > c.laid {
        report.see("jobs that closed a front");
    }
    for (what, n) in [("passes", c.passes), ("rows", c.row_rounds), ("points", c.points), ("quads", c.quads), ("fronts left", c.fronts)] {
        report.at_most(what, n);
    }
}

/// The jobs and states by name: what each came to, a line for each, and those that did not reach what they are for.
pub fn named(port: &mut dyn Paver) -> (Report, String, Vec<&'static str>) {
    let (mut report, mut text, mut short) = (Report::default(), String::new(), Vec::new());
    let r = &mut Random::new(7, 7);
    for case in extremes::named() {
        let lent = State { buffers: states::noise(r), counts: Counts::default() };
        let (_, sampled) = both(&mut report, port, Call::Sample, &case.job, &lent, "by name", case.name);
        let (number, answer) = both(&mut report, port, Call::Job, &case.job, &lent, "by name", case.name);
        let reached = Reached { sampled: &sampled, number, answer: &answer };
        text += &format!("  {}: {}\n", case.name, if number == 0 { format!("{:?}", answer.counts.list()) } else { format!("refused {number}") });
        if !(case.reached)(&reached) {
            short.push(case.name);
        }
        if number == 0 {
            let held = states::with_noise(r, &answer);
            both(&mut report, port, Call::Fan, &case.job, &held, "by name", case.name);
            for front in 0..answer.counts.fronts {
                both(&mut report, port, Call::Row(front), &case.job, &held, "by name", case.name);
            }
        }
    }
    for case in extremes::closing_states() {
        let (number, _) = both(&mut report, port, Call::Close, &case.job, &states::with_noise(r, &case.state), "by name", case.name);
        text += &format!("  {}: {number}\n", case.name);
        if number != case.number {
            short.push(case.name);
        }
    }
    (report, text, short)
}

/// A paver with one fault: a comparison that does not see it shows nothing.
pub struct Faulty(pub usize);

pub const FAULTS: usize = 6;

impl Faulty {
    fn spoil(&self, n: u8, counts: &mut Counts, b: &mut Buffers) {
        match self.0 {
            0 if n == 0 && counts.points > 5 => b.points[11] = f64::from_bits(b.points[11].to_bits() ^ 1),
            1 if n == 0 && counts.quads > 1 => b.quads.swap(4, 5),
            2 if n == 0 => counts.passes += 1,
            3 if n != 0 && !b.front_lengths.is_empty() => b.front_lengths[0] ^= 1,
            4 if n == 0 && counts.points < 4_096 => b.points[8_191] = -0.0,
            _ => {}
        }
    }
}

impl Paver for Faulty {
    fn sample(&mut self, job: &Job, b: &mut Buffers) -> (u8, Counts) {
        let (n, mut c) = calls::sample(job, b);
        self.spoil(n, &mut c, b);
        (if self.0 == 5 && n == 10 { 7 } else { n }, c)
    }
    fn job(&mut self, job: &Job, b: &mut Buffers) -> (u8, Counts) {
        let (n, mut c) = calls::job(job, b);
        self.spoil(n, &mut c, b);
        (if self.0 == 5 && n == 21 { 22 } else { n }, c)
    }
    fn row(&mut self, job: &Job, front: usize, b: &mut Buffers, c: Counts) -> (u8, Counts) {
        let (n, mut c) = calls::row(job, front, b, c);
        self.spoil(n, &mut c, b);
        (if self.0 == 5 && n == 25 { 22 } else { n }, c)
    }
    fn close(&mut self, job: &Job, b: &mut Buffers, c: Counts) -> (u8, Counts) {
        let (n, mut c) = calls::close(job, b, c);
        self.spoil(n, &mut c, b);
        (if self.0 == 5 && n == 25 { 22 } else { n }, c)
    }
    fn fan(&mut self, job: &Job, b: &mut Buffers, c: Counts) -> (u8, Counts) {
        let (n, mut c) = calls::fan(job, b, c);
        self.spoil(n, &mut c, b);
        (if self.0 == 5 && n == 25 { 22 } else { n }, c)
    }
}
