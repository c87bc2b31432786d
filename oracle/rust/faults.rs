//! Pavers that each go wrong in one thing, in which points count as equal, in the closings, in the fan or in the corner limit: a
//! comparison that does not see it shows nothing.

use crate::calls::{self, Buffers, Counts, Job};
use crate::compare::{with_limit, Oracle, Paver};
use crate::equal;
use crate::fronts;
use crate::functions::Point;
use crate::limits::{self, MAX_POINTS, MAX_QUADS};
use crate::quality::CORNER_LIMIT;

pub const CLOSE_FAULTS: [&str; 8] = [
    "the last split on a tie",
    "a quad of four nodes not turned",
    "the last front first",
    "laid set to the quads",
    "added to core_quads",
    "refused at 4,096 quads",
    "room asked for before the corner test",
    "a front of four kept",
];

pub const FAN_FAULTS: [&str; 12] = [
    "y outermost",
    "the last grid point on a tie",
    "the centre left after 27",
    "24 before 23",
    "21 before 26",
    "27 before 21",
    "a clearance of 0 taken",
    "added to row_quads",
    "a quad not turned",
    "refused at 4,096 points or quads",
    "zeros not written with no front",
    "a quad that was there tested too",
];

pub const LIMIT_FAULTS: [&str; 5] = [
    "the default limit in a job",
    "the default limit in a row",
    "the default limit in the closings",
    "the default limit in a fan",
    "the limit of the job before in a fan",
];

/// The oracle with one of the faults, by its place in either list.
pub struct Slip(pub usize);

fn put(b: &mut Buffers, at: usize, quads: impl IntoIterator<Item = [usize; 4]>) {
    for (i, q) in quads.into_iter().enumerate() {
        (0..4).for_each(|k| b.quads[4 * (at + i) + k] = q[k] as u16);
    }
}

/// The fan's quads before turning.
fn fan_quads(centre: usize, front: &[usize]) -> Vec<[usize; 4]> {
    let n = front.len();
    (0..n / 2).map(|k| [centre, front[2 * k], front[2 * k + 1], front[(2 * k + 2) % n]]).collect()
}

fn centre_of(job: &Job, b: &Buffers, c: &Counts, front: &[usize]) -> (Point, f64) {
    fronts::first_best(&fronts::grid(job, b, c.points, front)).unwrap_or(([0.0; 2], 0.0))
}

impl Paver for Slip {
    fn sample(&mut self, job: &Job, b: &mut Buffers) -> (u8, Counts) {
        Oracle.sample(job, b)
    }
    fn job(&mut self, job: &Job, b: &mut Buffers) -> (u8, Counts) {
        Oracle.job(job, b)
    }
    fn row(&mut self, job: &Job, front: usize, b: &mut Buffers, c: Counts) -> (u8, Counts) {
        Oracle.row(job, front, b, c)
    }

    fn close(&mut self, job: &Job, b: &mut Buffers, before: Counts) -> (u8, Counts) {
        let old = b.clone();
        let (n, mut c) = calls::close(job, b, before);
        if n != 0 {
            return (n, c);
        }
        let fronts = old.fronts(&before);
        let limit = job.options.corner_limit;
        let asked: usize = fronts.iter().map(|f| if f.len() == 4 { 1 } else if f.len() == 6 { 2 } else { 0 }).sum();
        match self.0 {
            0 => put(b, before.quads, fronts.iter().flat_map(|f| fronts::closing(&old, f, limit, true))),
            1 => {
                let quads = fronts.iter().flat_map(|f| {
                    let quads = fronts::closing(&old, f, limit, false);
                    if quads.len() == 1 { vec![[f[0], f[1], f[2], f[3]]] } else { quads }
                });
                put(b, before.quads, quads);
            }
            2 => put(b, before.quads, fronts.iter().rev().flat_map(|f| fronts::closing(&old, f, limit, false))),
            3 => c.laid = c.quads,
            4 => (c.row_quads, c.core_quads) = (before.row_quads, before.core_quads + c.quads - before.quads),
            5 | 6 => {
                let full = if self.0 == 5 { c.quads == MAX_QUADS && c.quads > before.quads } else { before.quads + asked > MAX_QUADS };
                if full {
                    *b = old;
                    return (21, before);
                }
            }
            _ => {
                if let [front] = &fronts[..] {
                    if front.len() == 4 && c.fronts == 0 {
                        c.fronts = 1;
                        b.front_lengths[0] = 4;
                        (0..4).for_each(|k| b.front_nodes[k] = front[k] as u16);
                    }
                }
            }
        }
        (n, c)
    }

    fn fan(&mut self, job: &Job, b: &mut Buffers, before: Counts) -> (u8, Counts) {
        let old = b.clone();
        let (n, mut c) = calls::fan(job, b, before);
        if !matches!(n, 0 | 21 | 23 | 24 | 26 | 27) {
            return (n, c);
        }
        let fronts = old.fronts(&before);
        let Some(front) = fronts.first() else {
            if self.0 == 10 {
                *b = old;
            }
            return (n, c);
        };
        let limit = job.options.corner_limit;
        let room = before.points < MAX_POINTS && before.quads + front.len() / 2 <= MAX_QUADS;
        match (self.0, n) {
            (0 | 1, 0) => {
                let mut grid = fronts::grid(job, &old, before.points, front);
                if self.0 == 0 {
                    grid = fronts::y_outermost(grid);
                } else {
                    grid.reverse();
                }
                let (p, _) = fronts::first_best(&grid).expect("a granted fan has a centre");
                b.points[2 * before.points..2 * c.points].copy_from_slice(&p);
            }
            (2, 27) => {
                let (p, _) = centre_of(job, &old, &before, front);
                b.points[2 * c.points..2 * c.points + 2].copy_from_slice(&p);
                c.points += 1;
            }
            (3, 23) if front.len() < 4 || front.len() % 2 == 1 => return (24, c),
            (4, 26) if !room => return (21, c),
            (5, 21) if before.points < MAX_POINTS => {
                let mut with = old.clone();
                let (p, _) = centre_of(job, &old, &before, front);
                with.points[2 * before.points..2 * before.points + 2].copy_from_slice(&p);
                let quads = fan_quads(before.points, front);
                if !quads.into_iter().all(|q| fronts::passes(&with, fronts::turned(&with, q), limit)) {
                    return (27, c);
                }
            }
            (6, 26) if fronts::first_best(&fronts::grid(job, &old, before.points, front)).is_some() => return (27, c),
            (7, 0) => (c.core_quads, c.row_quads) = (before.core_quads, before.row_quads + front.len() / 2),
            (8, 0) => put(b, before.quads, fan_quads(before.points, front)),
            (9, 0) if c.points == MAX_POINTS || c.quads == MAX_QUADS => {
                *b = old;
                return (21, before);
            }
            (11, 0) if !(0..before.quads).all(|i| fronts::passes(&old, old.quad(i), limit)) => {
                *b = old;
                return (27, before);
            }
            _ => {}
        }
        (n, c)
    }
}

/// The oracle with one of the limit's faults; a limit outside its range stays.
pub struct OtherLimit {
    which: usize,
    before: f64,
}

impl OtherLimit {
    pub fn new(which: usize) -> OtherLimit {
        OtherLimit { which, before: CORNER_LIMIT }
    }

    fn given(job: &Job, wrong: bool, limit: f64) -> Job {
        if wrong && limits::corner_limit(job.options.corner_limit) { with_limit(job, limit) } else { job.clone() }
    }
}

impl Paver for OtherLimit {
    fn sample(&mut self, job: &Job, b: &mut Buffers) -> (u8, Counts) {
        Oracle.sample(job, b)
    }
    fn job(&mut self, job: &Job, b: &mut Buffers) -> (u8, Counts) {
        if limits::corner_limit(job.options.corner_limit) {
            self.before = job.options.corner_limit;
        }
        Oracle.job(&Self::given(job, self.which == 0, CORNER_LIMIT), b)
    }
    fn row(&mut self, job: &Job, front: usize, b: &mut Buffers, c: Counts) -> (u8, Counts) {
        Oracle.row(&Self::given(job, self.which == 1, CORNER_LIMIT), front, b, c)
    }
    fn close(&mut self, job: &Job, b: &mut Buffers, c: Counts) -> (u8, Counts) {
        Oracle.close(&Self::given(job, self.which == 2, CORNER_LIMIT), b, c)
    }
    fn fan(&mut self, job: &Job, b: &mut Buffers, c: Counts) -> (u8, Counts) {
        let limit = if self.which == 3 { CORNER_LIMIT } else { self.before };
        Oracle.fan(&Self::given(job, self.which >= 3, limit), b, c)
    }
}

/// The oracle with another answer wherever a wrong reading of which points count as equal, by its place in `equal::WRONG`, keeps
/// other points: the last bit of the first point.
pub struct OtherPoints(pub usize);

impl OtherPoints {
    fn spoil(&self, job: &Job, b: &mut Buffers, answer: (u8, Counts)) -> (u8, Counts) {
        if answer.0 == 0 && equal::read_otherwise(job, self.0) {
            b.points[0] = f64::from_bits(b.points[0].to_bits() ^ 1);
        }
        answer
    }
}

impl Paver for OtherPoints {
    fn sample(&mut self, job: &Job, b: &mut Buffers) -> (u8, Counts) {
        let answer = Oracle.sample(job, b);
        self.spoil(job, b, answer)
    }
    fn job(&mut self, job: &Job, b: &mut Buffers) -> (u8, Counts) {
        let answer = Oracle.job(job, b);
        self.spoil(job, b, answer)
    }
    fn row(&mut self, job: &Job, front: usize, b: &mut Buffers, c: Counts) -> (u8, Counts) {
        Oracle.row(job, front, b, c)
    }
    fn close(&mut self, job: &Job, b: &mut Buffers, c: Counts) -> (u8, Counts) {
        Oracle.close(job, b, c)
    }
    fn fan(&mut self, job: &Job, b: &mut Buffers, c: Counts) -> (u8, Counts) {
        Oracle.fan(job, b, c)
    }
}
