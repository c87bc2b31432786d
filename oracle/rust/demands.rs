//! Demand 3 pitted against a paver, the oracle itself or the port: each pair of
//! nodes counted never or twice over sampled loops, quads and remaining fronts;
//! the corner test on the answer's points, of each quad with the limit of the call
//! that laid it; the prefix under two pass limits. In each answer, after further
//! rows and closings, and after each fan granted, whose limits are now and then
//! other than the job's.

use crate::calls::{self, Buffers, Counts, Job};
use crate::compare::{with_limit, Paver};
use crate::functions::{least_corner, quad_passes, Point};
use crate::extremes;
use crate::generate::{self, own_limit, Random};
use crate::limits::{corner_limit, MAX_PASSES};
use crate::requests::job_lines;
use std::collections::BTreeMap;
use std::ops::Range;

#[derive(Default)]
pub struct Report {
    pub seen: BTreeMap<String, u64>,
    pub exceptions: Vec<String>,
}

impl Report {
    fn count(&mut self, what: impl Into<String>, n: u64) {
        *self.seen.entry(what.into()).or_insert(0) += n;
    }

    pub fn text(&self) -> String {
        let mut out = String::new();
        for (what, n) in &self.seen {
            out += &format!("{n:>10}  {what}\n");
        }
        for e in &self.exceptions {
            out += &format!("EXCEPTION {e}\n");
        }
        out + &format!("{} exceptions\n", self.exceptions.len())
    }
}

/// A state as the calls give it, and of each quad the corner limit of the call that laid it.
#[derive(Clone)]
struct State {
    buffers: Buffers,
    counts: Counts,
    limits: Vec<f64>,
}

impl State {
    fn empty() -> State {
        State { buffers: Buffers::new(), counts: Counts::default(), limits: Vec::new() }
    }

    /// The counts that a call left: the quads that are new are the call's.
    fn left(&mut self, counts: Counts, job: &Job) {
        self.counts = counts;
        self.limits.resize(counts.quads, job.options.corner_limit);
    }

    /// The points of quad i.
    fn at(&self, i: usize) -> [Point; 4] {
        self.buffers.quad(i).map(|node| self.buffers.point(node))
    }

    /// Whether some quads all pass a limit.
    fn all_pass(&self, mut quads: Range<usize>, limit: f64) -> bool {
        quads.all(|i| quad_passes(self.at(i), limit))
    }
}

fn add_ring(sides: &mut Vec<(usize, usize)>, ring: &[usize]) {
    for i in 0..ring.len() {
        let (a, b) = (ring[i], ring[(i + 1) % ring.len()]);
        sides.push((a.min(b), a.max(b)));
    }
}

/// A pair of nodes that counts neither 0 nor 2 times, or is no pair.
pub fn bad_pair(loops: &[Vec<usize>], quads: &[[usize; 4]], fronts: &[Vec<usize>]) -> Option<((usize, usize), u32)> {
    let mut sides = Vec::new();
    loops.iter().for_each(|ring| add_ring(&mut sides, ring));
    quads.iter().for_each(|quad| add_ring(&mut sides, quad));
    fronts.iter().for_each(|ring| add_ring(&mut sides, ring));
    sides.sort_unstable();
    sides.chunk_by(|p, q| p == q).map(|same| (same[0], same.len() as u32)).find(|((a, b), n)| a == b || *n != 2)
}

/// What demand 3 says of one answer.
fn faults(loops: &[Vec<usize>], sampled: &State, s: &State) -> Option<String> {
    let quads: Vec<[usize; 4]> = (0..s.counts.quads).map(|i| s.buffers.quad(i)).collect();
    if let Some((pair, n)) = bad_pair(loops, &quads, &s.buffers.fronts(&s.counts)) {
        return Some(format!("the pair {pair:?} counts {n} times"));
    }
    for (i, &limit) in s.limits.iter().enumerate() {
        if !quad_passes(s.at(i), limit) {
            return Some(format!("the quad {:?} fails the corner test with the limit {limit:?}", quads[i]));
        }
    }
    if !first_points(sampled, s) {
        return Some("the sampled points are not the first".to_string());
    }
    if s.counts.row_quads + s.counts.core_quads != s.counts.quads {
        return Some("row_quads and core_quads are not the quads".to_string());
    }
    None
}

/// Whether a's points are the first of b's, by their bits.
fn first_points(a: &State, b: &State) -> bool {
    a.counts.points <= b.counts.points
        && (0..2 * a.counts.points).all(|i| a.buffers.points[i].to_bits() == b.buffers.points[i].to_bits())
}

/// Whether a's points and laid quads are the first of b's.
fn prefix(a: &State, b: &State) -> bool {
    first_points(a, b)
        && a.counts.laid <= b.counts.laid
        && a.buffers.quads[..4 * a.counts.laid] == b.buffers.quads[..4 * a.counts.laid]
}

fn with_passes(job: &Job, passes: usize) -> Job {
    let mut job = job.clone();
    job.options.max_row_rounds = passes;
    job
}

fn whole(p: &mut dyn Paver, job: &Job) -> (u8, State) {
    let mut s = State::empty();
    let (n, counts) = p.job(job, &mut s.buffers);
    s.left(counts, job);
    (n, s)
}

fn sampling(p: &mut dyn Paver, job: &Job) -> (u8, State) {
    let mut s = State::empty();
    let (n, counts) = p.sample(job, &mut s.buffers);
    s.left(counts, job);
    (n, s)
}

/// The fan of an answer, with the job's corner limit or one of its own, and demand 3 after it. A fan that is granted is asked for
/// again, with the least corner value of its quads as the limit, which gives 27, and with the f64 below that, which grants it.
fn fan(
    p: &mut dyn Paver, report: &mut Report, r: &mut Random, job: &Job, loops: &[Vec<usize>], sampled: &State, s: &State,
) -> Option<String> {
    let of_job = job.options.corner_limit;
    let mut asked = vec![(own_limit(r, job).options.corner_limit, None)];
    while let Some((limit, wanted)) = asked.pop() {
        let mut after = s.clone();
        let job = with_limit(job, limit);
        let (n, counts) = p.fan(&job, &mut after.buffers, s.counts);
        after.left(counts, &job);
        if wanted.is_some_and(|wanted| n != wanted) {
            return Some(format!("a fan with the limit {limit:?} answers {n}"));
        }
        let again = if wanted.is_some() { " at the limit" } else { "" };
        if n != 0 {
            report.count(format!("fans refused{again}: {n:02}"), 1);
            if !after.buffers.same(&s.buffers) || counts != s.counts {
                return Some(format!("a fan refused with {n} changed the state"));
            }
            continue;
        }
        if let Some(fault) = faults(loops, sampled, &after) {
            return Some(format!("after a fan {fault}"));
        }
        if s.counts.fronts == 0 {
            report.count("fans with no front", 1);
            continue;
        }
        report.count(format!("fans granted{again}"), 1);
        let fanned = s.counts.quads..counts.quads;
        if limit != of_job {
            let what = "fans granted with another limit than the job's";
            report.count(what, 1);
            report.count(format!("{what}, where a quad that was there fails the fan's"), !after.all_pass(0..s.counts.quads, limit) as u64);
            report.count(format!("{what}, where a quad of the fan fails the job's"), !after.all_pass(fanned.clone(), of_job) as u64);
        }
        if wanted.is_none() {
            let least = fanned.map(|i| least_corner(after.at(i))).fold(f64::INFINITY, f64::min);
            asked.extend([(least, Some(27)), (least.next_down(), Some(0))].into_iter().filter(|(limit, _)| corner_limit(*limit)));
        }
    }
    None
}

/// Rows by single calls, then the closings: demand 3 after each, and the fan. Each with the job's corner limit or one of its own.
fn single_calls(
    p: &mut dyn Paver, report: &mut Report, r: &mut Random, job: &Job, loops: &[Vec<usize>], sampled: &State, start: &State,
) -> Option<String> {
    let mut s = start.clone();
    for _ in 0..3 {
        if s.counts.fronts == 0 {
            break;
        }
        let front = r.below(s.counts.fronts);
        let job = &own_limit(r, job);
        let (n, counts) = p.row(job, front, &mut s.buffers, s.counts);
        s.left(counts, job);
        report.count(if n == 0 { "row calls granted".to_string() } else { format!("row calls refused: {n:02}") }, 1);
        if let Some(fault) = faults(loops, sampled, &s) {
            return Some(format!("after a row call {fault}"));
        }
    }
    let own = &own_limit(r, job);
    let (n, counts) = p.close(own, &mut s.buffers, s.counts);
    s.left(counts, own);
    report.count(if n == 0 { "closing calls granted".to_string() } else { format!("closing calls refused: {n:02}") }, 1);
    if let Some(fault) = faults(loops, sampled, &s) {
        return Some(format!("after a closing call {fault}"));
    }
    fan(p, report, r, job, loops, sampled, &s)
}

/// One job under the pass limits `less` and `more`.
fn check(p: &mut dyn Paver, report: &mut Report, r: &mut Random, job: &Job, less: usize, more: usize) -> Option<String> {
    let (n, large) = whole(p, &with_passes(job, more));
    let (m, small) = whole(p, &with_passes(job, less));
    report.count(if n == 0 { "jobs accepted".to_string() } else { format!("jobs refused: {n:02}") }, 1);
    if n != m && n != 21 {
        return Some(format!("numbers {m} and {n} under {less} and {more} passes"));
    }
    let (k, sampled) = sampling(p, job);
    if k != 0 {
        return if k == n { None } else { Some(format!("sampling answers {k}, the job {n}")) };
    }
    let loops = sampled.buffers.fronts(&sampled.counts);
    for (number, s) in [(n, &large), (m, &small)] {
        if number != 0 {
            continue;
        }
        report.count("answers checked", 1);
        if let Some(fault) = faults(&loops, &sampled, s) {
            return Some(fault);
        }
        if let Some(fault) = fan(p, report, r, job, &loops, &sampled, s) {
            return Some(fault);
        }
        if let Some(fault) = single_calls(p, report, r, job, &loops, &sampled, s) {
            return Some(fault);
        }
    }
    if n == 0 {
        let closed = loops.len() - large.counts.fronts;
        let sixes = large.counts.row_quads - large.counts.laid - closed;
        report.count("rows in accepted jobs", large.counts.row_rounds as u64);
        report.count("quads in accepted jobs", large.counts.quads as u64);
        report.count("fronts of four closed", (closed - sixes) as u64);
        report.count("fronts of six closed", sixes as u64);
        report.count("fronts left", large.counts.fronts as u64);
        if large.counts.row_rounds > 0 {
            report.count("accepted jobs with a row", 1);
        }
        if large.counts.points > 4_000 {
            report.count("accepted jobs over 4,000 points", 1);
        }
        if sampled.counts.points > 2_000 {
            report.count("accepted jobs over 2,000 sampled nodes", 1);
        }
    }
    if n == 0 && m == 0 {
        report.count("prefixes checked", 1);
        if small.counts.laid < large.counts.laid {
            report.count("prefixes that are shorter", 1);
        }
        if !prefix(&small, &large) {
            return Some(format!("{less} passes are no prefix of {more}"));
        }
    }
    None
}

/// A plate of 2 rows, changed in one place each time, and a fan with another limit than its job: every change must be seen.
fn tried(p: &mut dyn Paver) -> Report {
    let xy = (0..40).flat_map(|k| generate::on_circle(k as f64, 40.0)).map(|c| 6_400.0 * c).collect();
    let mut job = Job { xy, lengths: vec![40], h: 1_000.0, options: calls::default_options() };
    job.options.max_row_rounds = 2;
    let (_, sampled) = sampling(p, &job);
    let loops = sampled.buffers.fronts(&sampled.counts);
    let (n, right) = whole(p, &job);
    let last = right.counts.quads - 1;
    let mut report = Report::default();
    let mut see = |what: &str, seen: bool| {
        report.count("changes tried on an answer", 1);
        if !seen {
            report.exceptions.push(format!("a change is not seen: {what}"));
        }
    };
    see("none", n == 0 && right.counts.row_rounds == 2 && faults(&loops, &sampled, &right).is_none());
    let mut altered = |what: &str, change: &dyn Fn(&mut State)| {
        let mut s = right.clone();
        change(&mut s);
        see(what, faults(&loops, &sampled, &s).is_some());
    };
    altered("a quad less", &|s| {
        s.counts.quads -= 1;
        s.counts.row_quads -= 1;
        s.limits.pop();
    });
    altered("a quad twice", &|s| s.buffers.quads.copy_within(4 * last - 4..4 * last, 4 * last));
    altered("the spent front used again", &|s| {
        for (k, node) in loops[0].iter().enumerate() {
            s.buffers.front_nodes[k] = *node as u16;
        }
    });
    altered("a front less", &|s| s.counts.fronts = 0);
    altered("a quad turned", &|s| s.buffers.quads[4 * last..4 * last + 4].reverse());
    altered("a row's point moved", &|s| s.buffers.points[2 * s.counts.points - 1] += 5_000.0);
    altered("a sampled point moved by one bit", &|s| {
        s.buffers.points[5] = f64::from_bits(s.buffers.points[5].to_bits() ^ 1)
    });
    let (_, small) = whole(p, &with_passes(&job, 1));
    see("a prefix", prefix(&small, &right) && !prefix(&right, &small));
    let mut s = small.clone();
    s.buffers.points[2 * s.counts.points - 1] += 1e-9;
    see("a prefix's point moved", !prefix(&s, &right));
    let mut s = small.clone();
    s.buffers.quads.swap(0, 1);
    see("a prefix's quad changed", !prefix(&s, &right));
    // an octagon of 8 nodes: the job closes its narrow hole, whose corner values are 0.32, and the fan's are from 0.70 on
    let mut xy: Vec<f64> = (0..8).flat_map(|k| generate::on_circle(k as f64, 8.0)).map(|c| 6_400.0 * c).collect();
    xy.extend([2_000.0, 0.0, 2_600.0, 100.0, 3_200.0, 0.0, 2_600.0, -100.0]);
    let low = with_limit(&Job { xy, lengths: vec![8, 4], h: 10_000.0, options: calls::default_options() }, 0.1);
    let high = with_limit(&low, 0.5);
    let (_, sampled) = sampling(p, &low);
    let loops = sampled.buffers.fronts(&sampled.counts);
    let (_, mut s) = whole(p, &low);
    let (n, counts) = p.fan(&high, &mut s.buffers, s.counts);
    s.left(counts, &high);
    see("none, after a fan with another limit than the job's", n == 0 && s.limits == [0.1, 0.5, 0.5, 0.5, 0.5] && faults(&loops, &sampled, &s).is_none());
    let mut tested_with = |what: &str, of_job: f64, of_fan: f64| {
        s.limits = vec![of_job, of_fan, of_fan, of_fan, of_fan];
        see(what, faults(&loops, &sampled, &s).is_some());
    };
    tested_with("a job's quad tested with the fan's limit", 0.5, 0.5);
    tested_with("a fan's quad that passes a lower limit alone", 0.1, 0.8);
    report
}

/// Where a fault was found: the job, its limits and the fault.
fn found(report: &mut Report, name: &str, job: &Job, less: usize, more: usize, fault: String) {
    report.exceptions.push(format!("{name}, passes {less} and {more}: {fault}\n{}", job_lines(job)));
}

/// Jobs 0 to `count` of a seed.
pub fn run(p: &mut dyn Paver, seed: u64, count: u64) -> Report {
    let mut report = tried(p);
    for index in 0..count {
        let made = generate::job(seed, index);
        report.count("jobs", 1);
        report.count(format!("shape: {}", made.shape), 1);
        report.count(format!("change: {}", made.change), 1);
        let r = &mut Random::new(seed ^ 0x5EED, index);
        let own = made.job.options.max_row_rounds;
        let (less, more) = match own {
            0 => (0, r.pick(&[1, 2, 64])),
            65.. => (own, own),
            _ => (r.below(own + 1), own),
        };
        if let Some(fault) = check(p, &mut report, r, &made.job, less, more) {
            found(&mut report, &format!("seed {seed} job {index} ({}, {})", made.shape, made.change), &made.job, less, more, fault);
        }
    }
    report
}

/// Jobs of a seed and jobs near the limits, in turn, each under two limits of which the smaller mostly stops the rows earlier
/// (of those that lay no row, one in five), until `count` pairs have been accepted under both.
pub fn pairs(p: &mut dyn Paver, seed: u64, count: u64) -> Report {
    let mut report = tried(p);
    let checked = |report: &Report| report.seen.get("prefixes checked").copied().unwrap_or(0);
    for index in 0.. {
        if checked(&report) >= count || !report.exceptions.is_empty() {
            break;
        }
        let made = if index % 8 == 7 { extremes::near(seed, index) } else { generate::sampling_job(seed, index) };
        let r = &mut Random::new(seed ^ 0x5EED, index);
        let more = made.job.options.max_row_rounds.max(r.pick(&[1, 2, 32, 64]));
        let (_, large) = whole(p, &with_passes(&made.job, more));
        if large.counts.row_rounds == 0 && r.chance(80) {
            continue;
        }
        let less = match large.counts.row_rounds {
            // over 64 passes both are refused
            _ if more > MAX_PASSES => more,
            0 => r.below(more + 1),
            _ => r.below(large.counts.passes),
        };
        if let Some(fault) = check(p, &mut report, r, &made.job, less, more) {
            found(&mut report, &format!("seed {seed} job {index} ({}, {})", made.shape, made.change), &made.job, less, more, fault);
        }
    }
    report
}
