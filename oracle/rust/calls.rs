//! The four calls over lent buffers: a job, a row, the closings, the fan.
//! Each answers document 01's number, 0 when it is accepted.

use crate::cut::alt_paving as rust;
use crate::cut::alt_paving::{Options, Paving};
use crate::cut::two_d::Sizing;
pub use crate::cut::two_d::Domain;
use crate::limits::{self, Until};
use crate::quality::CORNER_LIMIT;

/// Lengths of the lent buffers.
pub const POINTS: usize = 8_192;
pub const QUADS: usize = 16_384;
pub const FRONT_NODES: usize = 2_048;
pub const FRONT_LENGTHS: usize = 16;

/// The eight counts, in the order of `done`.
#[derive(Clone, Copy, Debug, Default, PartialEq, Eq)]
pub struct Counts {
    pub points: usize,
    pub quads: usize,
    pub fronts: usize,
    pub row_quads: usize,
    pub core_quads: usize,
    pub row_rounds: usize,
    pub passes: usize,
    pub laid: usize,
}

impl Counts {
    pub fn list(&self) -> [usize; 8] {
        [
            self.points, self.quads, self.fronts, self.row_quads, self.core_quads,
            self.row_rounds, self.passes, self.laid,
        ]
    }

    pub fn of(c: [usize; 8]) -> Counts {
        Counts {
            points: c[0], quads: c[1], fronts: c[2], row_quads: c[3], core_quads: c[4],
            row_rounds: c[5], passes: c[6], laid: c[7],
        }
    }
}

/// A job: pairs, loop lengths (outer first), size and options.
#[derive(Clone, Debug)]
pub struct Job {
    pub xy: Vec<f64>,
    pub lengths: Vec<usize>,
    pub h: f64,
    pub options: Options,
}

/// 2.4, 0.08, 1.2, 32, seam false, and the corner limit of 5 degrees.
pub fn default_options() -> Options {
    Options {
        corner_margin: rust::CORNER_MARGIN,
        min_edge_fraction: rust::MIN_EDGE,
        front_gap: rust::FRONT_GAP,
        max_row_rounds: rust::MAX_ROW_ROUNDS,
        seam: false,
        corner_limit: CORNER_LIMIT,
    }
}

/// The lent buffers, of any lengths.
#[derive(Clone, Debug)]
pub struct Buffers {
    pub points: Vec<f64>,
    pub quads: Vec<u16>,
    pub front_nodes: Vec<u16>,
    pub front_lengths: Vec<u16>,
}

impl Buffers {
    pub fn new() -> Buffers {
        Buffers {
            points: vec![0.0; POINTS],
            quads: vec![0; QUADS],
            front_nodes: vec![0; FRONT_NODES],
            front_lengths: vec![0; FRONT_LENGTHS],
        }
    }

    fn zero(&mut self) {
        self.points.fill(0.0);
        self.quads.fill(0);
        self.front_nodes.fill(0);
        self.front_lengths.fill(0);
    }

    pub fn fits(&self) -> bool {
        self.points.len() == POINTS
            && self.quads.len() == QUADS
            && self.front_nodes.len() == FRONT_NODES
            && self.front_lengths.len() == FRONT_LENGTHS
    }

    /// Equal in every place, f64 by their bits.
    pub fn same(&self, other: &Buffers) -> bool {
        self.points.len() == other.points.len()
            && self.points.iter().zip(&other.points).all(|(a, b)| a.to_bits() == b.to_bits())
            && self.quads == other.quads
            && self.front_nodes == other.front_nodes
            && self.front_lengths == other.front_lengths
    }

    pub fn fronts(&self, counts: &Counts) -> Vec<Vec<usize>> {
        let mut at = 0;
        let mut out = Vec::new();
        for &n in &self.front_lengths[..counts.fronts] {
            out.push(self.front_nodes[at..at + n as usize].iter().map(|&i| i as usize).collect());
            at += n as usize;
        }
        out
    }

    pub fn quad(&self, i: usize) -> [usize; 4] {
        [0, 1, 2, 3].map(|k| self.quads[4 * i + k] as usize)
    }

    pub fn point(&self, i: usize) -> [f64; 2] {
        [self.points[2 * i], self.points[2 * i + 1]]
    }

    /// The state that the buffers hold up to the counts.
    fn read(&self, counts: &Counts) -> Paving {
        Paving {
            points: (0..counts.points).map(|i| [self.points[2 * i], self.points[2 * i + 1], 0.0]).collect(),
            fixed: vec![false; counts.points],
            loops: self.fronts(counts),
            quads: (0..counts.quads).map(|i| self.quad(i)).collect(),
            row_quads: counts.row_quads,
            core_quads: counts.core_quads,
            row_rounds: counts.row_rounds,
            seam_rows: 0,
        }
    }

    /// As long as a state needs that the added limits do not hold; node numbers stay u16.
    fn grow(&mut self, paving: &Paving) {
        assert!(paving.points.len() <= 65_536, "more points than u16 can number");
        let nodes = paving.loops.iter().map(Vec::len).sum();
        self.points.resize(self.points.len().max(2 * paving.points.len()), 0.0);
        self.quads.resize(self.quads.len().max(4 * paving.quads.len()), 0);
        self.front_nodes.resize(self.front_nodes.len().max(nodes), 0);
        self.front_lengths.resize(self.front_lengths.len().max(paving.loops.len()), 0);
    }

    /// A state written from the front of each buffer, zeros behind.
    fn write(&mut self, paving: &Paving) {
        if !limits::ADDED {
            self.grow(paving);
        }
        self.zero();
        for (i, p) in paving.points.iter().enumerate() {
            self.points[2 * i] = p[0];
            self.points[2 * i + 1] = p[1];
        }
        for (place, node) in self.quads.iter_mut().zip(paving.quads.iter().flatten()) {
            *place = *node as u16;
        }
        for (place, node) in self.front_nodes.iter_mut().zip(paving.loops.iter().flatten()) {
            *place = *node as u16;
        }
        for (place, front) in self.front_lengths.iter_mut().zip(&paving.loops) {
            *place = front.len() as u16;
        }
    }
}

fn counts_of(paving: &Paving, passes: usize, laid: usize) -> Counts {
    Counts {
        points: paving.points.len(),
        quads: paving.quads.len(),
        fronts: paving.loops.len(),
        row_quads: paving.row_quads,
        core_quads: paving.core_quads,
        row_rounds: paving.row_rounds,
        passes,
        laid,
    }
}

/// Number 1.
fn shape_fits(job: &Job, buffers: &Buffers) -> bool {
    let sum: u128 = job.lengths.iter().map(|&n| n as u128).sum();
    buffers.fits()
        && (1..=limits::MAX_LOOPS).contains(&job.lengths.len())
        && job.xy.len() % 2 == 0
        && sum == (job.xy.len() / 2) as u128
        && job.xy.len() / 2 <= limits::MAX_PAIRS
}

/// The struct's fields filled without `Domain::new`, whose lengths must fit.
pub fn domain_of(job: &Job) -> Domain {
    let mut pairs = job.xy.chunks_exact(2).map(|p| [p[0], p[1]]);
    let mut loops = job.lengths.iter().map(|&n| pairs.by_ref().take(n).collect::<Vec<_>>());
    let outer = loops.next().unwrap_or_default();
    let holes = loops.collect();
    Domain { outer, holes }
}

/// Document 01's number for an error text of the Rust or of an added limit. Two texts of its sampling have none, too few nodes
/// and an odd number: no side that is kept is as short as 1e-12, so neither can be met.
fn number(error: &str) -> u8 {
    let texts: [(&str, u8); 13] = [
        ("the element size", 2),
        ("limit 3", 3),
        ("the outer loop needs", 4),
        ("limit 5", 5),
        ("a boundary coordinate is not finite", 5),
        ("the domain has no area", 6),
        ("a boundary loop has fewer", 7),
        ("limit 10", 10),
        ("limit 21", 21),
        ("a residual front cannot", 24),
        ("a residual front has no", 26),
        ("the fan closure produced", 27),
        ("checks passed", 0),
    ];
    for (start, n) in texts {
        if error.starts_with(start) {
            return n;
        }
    }
    panic!("an error text of the Rust without a number: {error}")
}

fn run(job: &Job, until: Until) -> Result<Paving, u8> {
    limits::begin(until);
    let sizing = Sizing { size: job.h, all_quad: false };
    rust::mesh_with_stats_options(&domain_of(job), &sizing, &job.options).map_err(|e| number(&e))
}

fn job_until(job: &Job, buffers: &mut Buffers, until: Until) -> (u8, Counts) {
    let answer = if !limits::ADDED || shape_fits(job, buffers) { run(job, until) } else { Err(1) };
    match answer {
        Ok(paving) => {
            buffers.write(&paving);
            let (passes, laid) = limits::passes_and_laid();
            (0, counts_of(&paving, passes, laid))
        }
        Err(n) => {
            buffers.zero();
            (n, Counts::default())
        }
    }
}

/// A whole job.
pub fn job(job: &Job, buffers: &mut Buffers) -> (u8, Counts) {
    job_until(job, buffers, Until::End)
}

/// Sampling alone: the sampled loops as fronts.
pub fn sample(job: &Job, buffers: &mut Buffers) -> (u8, Counts) {
    job_until(job, buffers, Until::Sampling)
}

/// Sampling alone as the Rust does it, with no buffers: the number of nodes, or a refusal's number.
pub fn sample_only(domain: &Domain, h: f64, options: &Options) -> Result<usize, u8> {
    limits::begin(Until::Sampling);
    let sizing = Sizing { size: h, all_quad: false };
    let paving = rust::mesh_with_stats_options(domain, &sizing, options).map_err(|e| number(&e))?;
    Ok(paving.points.len())
}

/// Number 25.
fn state_fits(buffers: &Buffers, c: &Counts) -> bool {
    if c.points > limits::MAX_POINTS || c.quads > limits::MAX_QUADS || c.fronts > limits::MAX_FRONTS {
        return false;
    }
    let lengths = &buffers.front_lengths[..c.fronts];
    let nodes: usize = lengths.iter().map(|&n| n as usize).sum();
    if nodes > limits::MAX_FRONT_NODES || lengths.iter().any(|&n| n < 3) {
        return false;
    }
    let mut seen = vec![false; c.points];
    for &node in &buffers.front_nodes[..nodes] {
        if node as usize >= c.points || std::mem::replace(&mut seen[node as usize], true) {
            return false;
        }
    }
    let most = limits::MOST_STATE_COORDINATE;
    buffers.quads[..4 * c.quads].iter().all(|&node| (node as usize) < c.points)
        && buffers.points[..2 * c.points].iter().all(|&x| -most <= x && x <= most)
        && c.row_quads as u128 + c.core_quads as u128 == c.quads as u128
        && c.laid <= c.quads
        && 6 * c.row_rounds as u128 <= c.row_quads as u128
}

/// Numbers 1 to 6 for the job, then 25.
fn state(job: &Job, buffers: &Buffers, counts: &Counts) -> Result<Paving, u8> {
    if limits::ADDED && !shape_fits(job, buffers) {
        return Err(1);
    }
    match run(job, Until::Checks) {
        Err(0) => {}
        Err(n) => return Err(n),
        Ok(_) => unreachable!("the checks end the run"),
    }
    if limits::ADDED && !state_fits(buffers, counts) {
        return Err(25);
    }
    Ok(buffers.read(counts))
}

/// Writes an accepted call's state; a refused one changes nothing.
fn answer(
    buffers: &mut Buffers, counts: Counts, result: Result<(Paving, usize), u8>,
) -> (u8, Counts) {
    match result {
        Ok((paving, laid)) => {
            buffers.write(&paving);
            (0, counts_of(&paving, counts.passes, laid))
        }
        Err(n) => (n, counts),
    }
}

fn try_row(job: &Job, front: usize, buffers: &Buffers, counts: &Counts) -> Result<(Paving, usize), u8> {
    let mut paving = state(job, buffers, counts)?;
    if limits::ADDED && front >= paving.loops.len() {
        return Err(20);
    }
    let row = rust::next_row(&paving, front, &domain_of(job), job.h, &job.options).ok_or(22u8)?;
    if limits::ADDED {
        limits::room(&paving, row.new_points.len(), row.quads.len()).map_err(|e| number(&e))?;
    }
    rust::commit_row(&mut paving, front, row);
    let laid = paving.quads.len();
    Ok((paving, laid))
}

/// One row on a front of a given state.
pub fn row(job: &Job, front: usize, buffers: &mut Buffers, counts: Counts) -> (u8, Counts) {
    let result = try_row(job, front, buffers, &counts);
    answer(buffers, counts, result)
}

/// A state in the Rust's own form, ready for its rows, closings and fan.
#[derive(Clone)]
pub struct Ready {
    paving: Paving,
    domain: Domain,
    corner_limit: f64,
}

impl Ready {
    pub fn new(job: &Job, buffers: &Buffers, counts: &Counts) -> Result<Ready, u8> {
        Ok(Ready { paving: state(job, buffers, counts)?, domain: domain_of(job), corner_limit: job.options.corner_limit })
    }

    /// The Rust's `next_row` and `commit_row` alone; whether a row was laid.
    pub fn row(&mut self, job: &Job, front: usize) -> bool {
        let row = rust::next_row(&self.paving, front, &self.domain, job.h, &job.options);
        row.map(|row| rust::commit_row(&mut self.paving, front, row)).is_some()
    }

    /// The Rust's `close_small_fronts` alone; the quads then.
    pub fn close(&mut self) -> usize {
        rust::close_small_fronts(&mut self.paving, self.corner_limit);
        self.paving.quads.len()
    }

    /// The Rust's `fan_fill` alone, which leaves its centre also when it fails; the number.
    pub fn fan(&mut self) -> u8 {
        rust::fan_fill(&mut self.paving, &self.domain, self.corner_limit).map_or_else(|e| number(&e), |()| 0)
    }
}

fn try_close(job: &Job, buffers: &Buffers, counts: &Counts) -> Result<(Paving, usize), u8> {
    let mut paving = state(job, buffers, counts)?;
    rust::close_small_fronts(&mut paving, job.options.corner_limit);
    if limits::ADDED {
        limits::room(&paving, 0, 0).map_err(|e| number(&e))?;
    }
    Ok((paving, counts.laid))
}

/// The closings of a given state.
pub fn close(job: &Job, buffers: &mut Buffers, counts: Counts) -> (u8, Counts) {
    let result = try_close(job, buffers, &counts);
    answer(buffers, counts, result)
}

fn try_fan(job: &Job, buffers: &Buffers, counts: &Counts) -> Result<(Paving, usize), u8> {
    let mut paving = state(job, buffers, counts)?;
    if paving.loops.len() > 1 {
        return Err(23);
    }
    rust::fan_fill(&mut paving, &domain_of(job), job.options.corner_limit).map_err(|e| number(&e))?;
    Ok((paving, counts.laid))
}

/// The fan of a given state.
pub fn fan(job: &Job, buffers: &mut Buffers, counts: Counts) -> (u8, Counts) {
    if !limits::ADDED {
        return fan_alone(job, buffers, counts);
    }
    let result = try_fan(job, buffers, &counts);
    answer(buffers, counts, result)
}

/// The Rust's fan alone: what it leaves is written also when it gives an error.
fn fan_alone(job: &Job, buffers: &mut Buffers, counts: Counts) -> (u8, Counts) {
    let mut paving = match state(job, buffers, &counts) {
        Ok(paving) => paving,
        Err(n) => return (n, counts),
    };
    let result = rust::fan_fill(&mut paving, &domain_of(job), job.options.corner_limit);
    buffers.write(&paving);
    (result.err().map_or(0, |e| number(&e)), counts_of(&paving, counts.passes, counts.laid))
}
