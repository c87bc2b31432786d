//! A paver with one deliberate fault under a condition, to see that a run ends at it and what the input is reduced to.

use crate::calls::{Buffers, Counts, Job};
use crate::compare::{with_limit, Paver};
use crate::equal;
use crate::limits::{corner_limit, MOST_CORNER_LIMIT};
use crate::quality::CORNER_LIMIT;

/// Behind these come the wrong readings of which points count as equal, `equal::WRONG`.
pub const WRONGS: [&str; 11] = [
    "the last bit of a point, after a job with a hole and two rows or more",
    "a row on a front of eight nodes is refused with 22",
    "the two quads of a closed front of six are exchanged",
    "the last bit of a fan's centre, when it lies below 0",
    "a pass less is counted when 64 are allowed",
    "a place behind the counts is not 0, after a job with three loops",
    "10 in place of 7",
    "a fan reads behind its counts",
    "a buffer of another length is let through when it is that of the front lengths",
    "the closings have the default corner limit",
    "a corner limit of 0.9 is refused with 3",
];

/// What one is; there is none behind the last.
pub fn name(which: usize) -> Option<&'static str> {
    WRONGS.iter().chain(&equal::WRONG).nth(which).copied()
}

pub struct Wrong<P> {
    pub inner: P,
    pub which: usize,
}

fn flip(x: &mut f64) {
    *x = f64::from_bits(x.to_bits() ^ 1);
}

impl<P: Paver> Paver for Wrong<P> {
    fn sample(&mut self, job: &Job, b: &mut Buffers) -> (u8, Counts) {
        self.inner.sample(job, b)
    }

    fn job(&mut self, job: &Job, b: &mut Buffers) -> (u8, Counts) {
        if self.which == 10 && job.options.corner_limit == MOST_CORNER_LIMIT {
            return self.inner.job(&with_limit(job, 1.0), b);
        }
        let (mut n, mut c) = self.inner.job(job, b);
        match self.which {
            0 if n == 0 && job.lengths.len() > 1 && c.row_rounds > 1 => flip(&mut b.points[2 * c.points - 1]),
            4 if n == 0 && job.options.max_row_rounds == 64 && c.passes > 1 => c.passes -= 1,
            5 if n == 0 && job.lengths.len() > 2 && c.fronts < 16 => b.front_lengths[15] = 1,
            6 if n == 7 => n = 10,
            8 if n == 1 && b.front_lengths.len() != 16 && b.points.len() == 8_192 => n = 2,
            // a point more or less is another answer; here the last bit of the first shows it
            k if k >= WRONGS.len() && n == 0 && equal::read_otherwise(job, k - WRONGS.len()) => flip(&mut b.points[0]),
            _ => {}
        }
        (n, c)
    }

    fn row(&mut self, job: &Job, front: usize, b: &mut Buffers, before: Counts) -> (u8, Counts) {
        let old = b.clone();
        let (n, c) = self.inner.row(job, front, b, before);
        if self.which == 1 && n == 0 && old.front_lengths[front] == 8 {
            *b = old;
            return (22, before);
        }
        (n, c)
    }

    fn close(&mut self, job: &Job, b: &mut Buffers, before: Counts) -> (u8, Counts) {
        let limit = if self.which == 9 && corner_limit(job.options.corner_limit) { CORNER_LIMIT } else { job.options.corner_limit };
        let (n, c) = self.inner.close(&with_limit(job, limit), b, before);
        if self.which == 2 && n == 0 && c.fronts < before.fronts && c.quads == before.quads + 2 * (before.fronts - c.fronts) {
            let at = 4 * before.quads;
            (0..4).for_each(|k| b.quads.swap(at + k, at + 4 + k));
        }
        (n, c)
    }

    fn fan(&mut self, job: &Job, b: &mut Buffers, before: Counts) -> (u8, Counts) {
        let behind = b.points.get(2 * before.points).is_some_and(|x| *x > 0.0);
        let (n, mut c) = self.inner.fan(job, b, before);
        match self.which {
            3 if n == 0 && before.fronts == 1 && b.points[2 * c.points - 1] < 0.0 => flip(&mut b.points[2 * c.points - 2]),
            7 if n == 0 && behind => c.passes ^= 1,
            _ => {}
        }
        (n, c)
    }
}
