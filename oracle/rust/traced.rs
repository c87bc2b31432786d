//! Outlines as a traced drawing has them: points about a thousandth of the size apart, at the limit below which two points count
//! as equal, and next to it. The size is known here, so that the limit is.

use crate::calls::Job;
use crate::functions::{segment_length, Point};
use crate::generate::{self, Made, Random};
use crate::limits::{LEAST_SIZE, MAX_PAIRS, MOST_COORDINATE, MOST_SIZE};
use crate::mixed::{loops_of, set_loops};

type Loop = Vec<Point>;

/// Job `index` of a seed for sampling, three of ten with close points. They are drawn apart: the other jobs are those of
/// `generate::sampling_job`.
pub fn job(seed: u64, index: u64) -> Made {
    let mut made = generate::sampling_job(seed, index);
    let r = &mut Random::new(seed ^ 0x74ACED, index);
    if made.change != "damaged" && r.chance(30) {
        close_points(r, &mut made.job);
        made.change = "close points";
    }
    made
}

/// A sound job with some of its points doubled.
pub fn close_points(r: &mut Random, job: &mut Job) {
    let mut loops = loops_of(job);
    match r.below(20) {
        0 => own_sides(r, job, &loops),
        1 => every_point(r, job.h, &mut loops),
        2..=5 => anywhere(r, job, &mut loops),
        6 => steps(r, job.h, &mut loops),
        _ => near_zero(r, job.h, &mut loops),
    }
    // others where they happen to be, so that the differences are rounded
    for _ in 0..r.below(3) {
        let (which, i) = place(r, &loops);
        let (p, d) = (loops[which][i], apart(r, job.h));
        put(r, &mut loops[which], i, moved(p, d));
    }
    set_loops(job, loops);
}

/// A loop and a point of it.
fn place(r: &mut Random, loops: &[Loop]) -> (usize, usize) {
    let which = r.below(loops.len());
    (which, r.below(loops[which].len()))
}

fn moved(p: Point, d: Point) -> Point {
    [0, 1].map(|k| (p[k] + d[k]).clamp(-MOST_COORDINATE, MOST_COORDINATE))
}

/// A point put behind point i or before it; or point i made the first, and the new one the last, sometimes with more of its kind.
fn put(r: &mut Random, points: &mut Loop, i: usize, q: Point) {
    match r.below(5) {
        0 | 1 => points.insert(i + 1, q),
        2 => points.insert(i, q),
        _ => {
            points.rotate_left(i);
            let first = points[0];
            if r.chance(20) {
                points.push(q);
            }
            points.push(q);
            if r.chance(20) {
                points.push(first);
            }
        }
    }
}

/// A difference: at the limit, next to it, about it or below it, in x, in y or in both, on either side.
fn apart(r: &mut Random, h: f64) -> Point {
    let limit = 0.001 * h;
    let one = |r: &mut Random| match r.below(20) {
        0..=4 => limit,
        5..=8 => limit.next_down(),
        9..=12 => limit.next_up(),
        13..=16 => h * r.between(0.0009, 0.0011),
        17 => r.pick(&[0.0, 1e-13, 1e-12, 1e-9]),
        _ => limit * r.unit(),
    };
    let d = one(r);
    let pair = match r.below(10) {
        0 | 1 => [d, 0.0],
        2 | 3 => [0.0, d],
        4 | 5 => [d, d],
        6 => [limit.next_down(), limit],
        7 => [limit, limit.next_down()],
        _ => [d, one(r)],
    };
    pair.map(|x| if r.chance(50) { x } else { -x })
}

/// The outline moved so that a point is at 0 or a difference or two from it: there sum and difference of the two are exact.
fn near_zero(r: &mut Random, h: f64, loops: &mut [Loop]) {
    let (which, i) = place(r, loops);
    let d = apart(r, h);
    let from = loops[which][i];
    for k in 0..2 {
        let to = d[k] * r.pick(&[0.0, 0.0, 0.0, -0.5, -1.0, 1.0, -2.0]);
        let by = to - from[k];
        if loops.iter().flatten().all(|p| (p[k] + by).abs() <= MOST_COORDINATE) {
            loops.iter_mut().flatten().for_each(|p| p[k] += by);
            loops[which][i][k] = to;
        }
    }
    let q = moved(loops[which][i], d);
    put(r, &mut loops[which], i, q);
}

/// A size of which a thousandth has few digits, and a point that has no more: the limit is met anywhere on the plate.
fn anywhere(r: &mut Random, job: &mut Job, loops: &mut [Loop]) {
    const DIGITS: u32 = 8;
    let limit = f64::from_bits((0.001 * job.h).to_bits() >> (52 - DIGITS) << (52 - DIGITS));
    let h = 1_000.0 * limit;
    if !(LEAST_SIZE..=MOST_SIZE).contains(&h) {
        return;
    }
    job.h = h;
    let unit = f64::from_bits(limit.to_bits() >> 52 << 52) / f64::from(1u32 << DIGITS);
    let (which, i) = place(r, loops);
    let p = loops[which][i].map(|x| (x / unit).round() * unit);
    loops[which][i] = p;
    let d = r.pick(&[[limit, 0.0], [0.0, limit], [limit, limit], [limit - unit, limit], [limit, limit - unit], [limit - unit, 0.0]]);
    let q = moved(p, d.map(|x| if r.chance(50) { x } else { -x }));
    put(r, &mut loops[which], i, q);
}

/// Points in small steps: each is near the one before it, and in the end none is near the last one that was kept.
fn steps(r: &mut Random, h: f64, loops: &mut [Loop]) {
    let (which, i) = place(r, loops);
    let step = [0, 1].map(|_| 0.001 * h * r.between(-0.8, 0.8));
    let mut p = loops[which][i];
    for k in 1..=r.from_to(2, 8) {
        p = moved(p, step);
        let at = if r.chance(50) { i + k } else { loops[which].len() };
        loops[which].insert(at, p);
    }
}

/// Each point of a loop doubled.
fn every_point(r: &mut Random, h: f64, loops: &mut [Loop]) {
    let given: usize = loops.iter().map(Vec::len).sum();
    let which = r.below(loops.len());
    if given + loops[which].len() > MAX_PAIRS {
        return;
    }
    loops[which] = loops[which].iter().flat_map(|&p| [p, moved(p, apart(r, h))]).collect();
}

/// A size so large that the loops' own sides are about as long as the limit.
fn own_sides(r: &mut Random, job: &mut Job, loops: &[Loop]) {
    let (which, i) = place(r, loops);
    let points = &loops[which];
    let side = segment_length(points[i], points[(i + 1) % points.len()]);
    job.h = (1_000.0 * side * r.between(0.2, 1.5)).clamp(LEAST_SIZE, MOST_SIZE);
}
