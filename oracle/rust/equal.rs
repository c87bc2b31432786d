//! Which points of a loop count as equal in sampling (document 02, change 3): the rule, wrong readings of it, and how often the
//! pairs of a job were at its limit.

use crate::calls::Job;
use crate::functions::Point;
use crate::limits;
use crate::mixed::loops_of;

/// Whether two points count as equal, by the differences of x and of y without their signs, and by the size.
type Test = fn(f64, f64, f64) -> bool;

fn equal(x: f64, y: f64, h: f64) -> bool {
    x < 0.001 * h && y < 0.001 * h
}

fn limit_met(x: f64, y: f64, h: f64) -> bool {
    x <= 0.001 * h && y <= 0.001 * h
}

fn divided(x: f64, y: f64, h: f64) -> bool {
    x < h / 1_000.0 && y < h / 1_000.0
}

fn without_size(x: f64, y: f64, _: f64) -> bool {
    x < 0.001 && y < 0.001
}

fn old_limit(x: f64, y: f64, _: f64) -> bool {
    x < 1e-12 && y < 1e-12
}

fn one_enough(x: f64, y: f64, h: f64) -> bool {
    x < 0.001 * h || y < 0.001 * h
}

fn by_distance(x: f64, y: f64, h: f64) -> bool {
    (x * x + y * y).sqrt() < 0.001 * h
}

/// Wrong readings, each with its test for the following point and for the closing pair.
const READINGS: [(Test, Test); 9] = [
    (limit_met, equal),
    (equal, limit_met),
    (divided, divided),
    (without_size, without_size),
    (old_limit, equal),
    (equal, old_limit),
    (one_enough, equal),
    (equal, one_enough),
    (by_distance, by_distance),
];

pub const WRONG: [&str; READINGS.len()] = [
    "a following point at the limit is dropped",
    "a closing point at the limit is popped",
    "points count as equal below h / 1000",
    "points count as equal below 0.001, whatever the size",
    "a following point is dropped below 1e-12",
    "a closing point is popped below 1e-12",
    "a following point is dropped where one coordinate is below the limit",
    "a closing point is popped where one coordinate is below the limit",
    "points count as equal where their distance is below the limit",
];

/// The points that a loop keeps; `tell` is given each pair that was tested, whether it is a closing one, and whether it is equal.
fn kept(points: &[Point], h: f64, (following, closing): (Test, Test), mut tell: impl FnMut(Point, Point, bool, bool)) -> Vec<Point> {
    let mut same = |test: Test, q: Point, p: Point, closes: bool| {
        let same = test((q[0] - p[0]).abs(), (q[1] - p[1]).abs(), h);
        tell(q, p, closes, same);
        same
    };
    let mut out: Vec<Point> = Vec::new();
    for &p in points {
        if !out.last().is_some_and(|&q| same(following, q, p, false)) {
            out.push(p);
        }
    }
    while out.len() > 1 && same(closing, out[0], out[out.len() - 1], true) {
        out.pop();
    }
    out
}

/// Whether a wrong reading, by its place in the list, keeps other points of a job that was accepted.
pub fn read_otherwise(job: &Job, which: usize) -> bool {
    let by = |points: &[Point], tests: (Test, Test)| kept(points, job.h, tests, |_, _, _, _| {});
    loops_of(job).iter().any(|points| by(points, (equal, equal)) != by(points, READINGS[which]))
}

/// What is counted of the pairs tested: first the following points, then as many of the closing pairs. The limit is 0.001 × h;
/// just below and just above it are the f64 next to it.
pub const SEEN: [&str; 34] = [
    "following, x just below the limit", "following, x at the limit", "following, x just above the limit",
    "following, y just below the limit", "following, y at the limit", "following, y just above the limit",
    "following, both just below the limit", "following, both at the limit", "following, both just above the limit",
    "following, x just below and y at the limit", "following, x at and y just below the limit",
    "following, at the limit or next to it, less", "following, at the limit or next to it, greater",
    "following, from 0.0009 h on and dropped", "following, up to 0.0011 h and kept", "following points dropped", "following points kept",
    "closing, x just below the limit", "closing, x at the limit", "closing, x just above the limit",
    "closing, y just below the limit", "closing, y at the limit", "closing, y just above the limit",
    "closing, both just below the limit", "closing, both at the limit", "closing, both just above the limit",
    "closing, x just below and y at the limit", "closing, x at and y just below the limit",
    "closing, at the limit or next to it, less", "closing, at the limit or next to it, greater",
    "closing, from 0.0009 h on and popped", "closing, up to 0.0011 h and kept", "closing points popped", "closing points kept",
];

/// 0, 1 or 2: just below the limit, at it, just above it.
fn at(x: f64, limit: f64) -> Option<usize> {
    [limit.next_down(), limit, limit.next_up()].iter().position(|&near| x == near)
}

/// One pair: the places of the list that it counts for.
fn count(counts: &mut [u64], q: Point, p: Point, h: f64, same: bool) {
    let limit = 0.001 * h;
    let by = [0, 1].map(|k| p[k] - q[k]);
    let [x, y] = by.map(f64::abs);
    let less = |k: usize| at(by[k].abs(), limit).is_none() && by[k].abs() < limit;
    match (at(x, limit), at(y, limit)) {
        (Some(k), None) if less(1) => counts[k] += 1,
        (None, Some(k)) if less(0) => counts[3 + k] += 1,
        (Some(j), Some(k)) if j == k => counts[6 + k] += 1,
        (Some(0), Some(1)) => counts[9] += 1,
        (Some(1), Some(0)) => counts[10] += 1,
        _ => {}
    }
    if let Some(k) = (0..2).find(|&k| at(by[k].abs(), limit).is_some()) {
        counts[if by[k] < 0.0 { 11 } else { 12 }] += 1;
    }
    let most = x.max(y);
    if 0.0009 * h <= most && most <= 0.0011 * h {
        counts[if same { 13 } else { 14 }] += 1;
    }
    counts[if same { 15 } else { 16 }] += 1;
}

/// How often each came up in the loops that the Rust sampled, right after it answered the job with this number. The Rust has to
/// have kept as many points as are counted here.
pub fn pairs(job: &Job, number: u8) -> [u64; SEEN.len()] {
    let mut counts = [0; SEEN.len()];
    if !matches!(number, 0 | 7 | 10 | 21) {
        return counts;
    }
    let (mut sum, mut few) = (0, false);
    for points in loops_of(job) {
        let (following, closing) = counts.split_at_mut(SEEN.len() / 2);
        let tell = |q: Point, p: Point, closes: bool, same: bool| count(if closes { &mut *closing } else { &mut *following }, q, p, job.h, same);
        let n = kept(&points, job.h, (equal, equal), tell).len();
        few = n < 3;
        if few {
            break;
        }
        sum += n;
        if number == 10 && sum == limits::points_kept() {
            break;
        }
    }
    assert!(few == (number == 7) && sum == limits::points_kept(), "the points kept by this rule are those that the Rust keeps");
    counts
}
