//! What an accepted job had that is easily passed over, as the Rust's own functions say.

use crate::calls::Job;
use crate::extremes::equal_lengths;
use crate::functions::{point_in_polygon, project, segment_length, segments_cross, signed_area, Front, Plate, Point};
use crate::limits::{LEAST_CORNER_LIMIT, LEAST_SIZE, MOST_COORDINATE, MOST_CORNER_LIMIT, MOST_SIZE};
use crate::states::State;

/// Pairs of points up to which loops are looked at, and sampled nodes up to which fronts are.
pub const SMALL: usize = 64;

/// All that can be said.
pub const ALL: [&str; 23] = [
    "coordinate at 1,000,000", "size 0.001", "size 1,000,000", "corner_margin 0", "corner_margin 100", "min_edge_fraction 0",
    "min_edge_fraction 1", "front_gap 0", "front_gap 100", "0 passes", "64 passes", "corner_limit 0.02", "corner_limit 0.9", "16 loops", "a hole turned",
    "a loop that touches itself", "a loop that crosses itself", "a hole across the outline", "a hole outside the outline",
    "fronts of equal length", "distance to the boundary met", "length of a new side met", "distance to another front met",
];

fn ring(points: &[Point]) -> impl Iterator<Item = (Point, Point)> + Clone + '_ {
    (0..points.len()).map(move |i| (points[i], points[(i + 1) % points.len()]))
}

/// A point that comes twice, not as neighbours, or one within a side that it is no end of, along one of the axes.
fn touches_itself(points: &[Point]) -> bool {
    let n = points.len();
    let apart = |i: usize, j: usize| (i + 1) % n != j && (j + 1) % n != i;
    let again = (0..n).any(|i| (0..i).any(|j| apart(i, j) && points[i] == points[j]));
    let within = |p: Point, a: Point, b: Point| {
        let between = |k: usize| a[k].min(b[k]) < p[k] && p[k] < a[k].max(b[k]);
        a[0] == b[0] && p[0] == a[0] && between(1) || a[1] == b[1] && p[1] == a[1] && between(0)
    };
    again || (0..n).any(|i| ring(points).any(|(a, b)| within(points[i], a, b)))
}

/// What is to be said of an accepted job, of its sampled loops and of the first row of each.
pub fn met(job: &Job, sampled: &State) -> Vec<&'static str> {
    let mut out = Vec::new();
    let o = &job.options;
    let mut say = |what: &'static str, holds: bool| {
        if holds {
            out.push(what);
        }
    };
    say("coordinate at 1,000,000", job.xy.iter().any(|x| x.abs() == MOST_COORDINATE));
    say("size 0.001", job.h == LEAST_SIZE);
    say("size 1,000,000", job.h == MOST_SIZE);
    say("corner_margin 0", o.corner_margin == 0.0);
    say("corner_margin 100", o.corner_margin == 100.0);
    say("min_edge_fraction 0", o.min_edge_fraction == 0.0);
    say("min_edge_fraction 1", o.min_edge_fraction == 1.0);
    say("front_gap 0", o.front_gap == 0.0);
    say("front_gap 100", o.front_gap == 100.0);
    say("0 passes", o.max_row_rounds == 0);
    say("64 passes", o.max_row_rounds == 64);
    say("corner_limit 0.02", o.corner_limit == LEAST_CORNER_LIMIT);
    say("corner_limit 0.9", o.corner_limit == MOST_CORNER_LIMIT);
    say("16 loops", job.lengths.len() == 16);
    let mut pairs = job.xy.chunks_exact(2).map(|p| [p[0], p[1]]);
    let loops: Vec<Vec<Point>> = job.lengths.iter().map(|&n| pairs.by_ref().take(n).collect()).collect();
    say("a hole turned", loops[1..].iter().any(|hole| signed_area(hole) > 0.0));
    if job.xy.len() / 2 <= SMALL {
        say("a loop that touches itself", loops.iter().any(|points| touches_itself(points)));
        let crosses = |hole: &Vec<Point>| ring(hole).any(|(a, b)| ring(&loops[0]).any(|(c, d)| segments_cross(a, b, c, d)));
        let crossing: Vec<bool> = loops[1..].iter().map(crosses).collect();
        say("a hole across the outline", crossing.contains(&true));
        say("a hole outside the outline", loops[1..].iter().zip(&crossing).any(|(hole, crosses)| !crosses && !point_in_polygon(hole[0], &loops[0])));
        say("a loop that crosses itself", loops.iter().any(|points| {
            let n = points.len();
            let side = |i: usize| (points[i], points[(i + 1) % n]);
            (0..n).any(|i| (0..i).any(|j| segments_cross(side(i).0, side(i).1, side(j).0, side(j).1)))
        }));
    }
    if sampled.counts.points <= SMALL {
        say("fronts of equal length", equal_lengths(sampled) > 0);
        for what in exactly(job, sampled) {
            say(what, true);
        }
    }
    out
}

/// Which distances of a first row equal their limit, none being below it.
fn exactly(job: &Job, s: &State) -> Vec<&'static str> {
    let points: Vec<Point> = (0..s.counts.points).map(|i| s.buffers.point(i)).collect();
    let fronts = s.buffers.fronts(&s.counts);
    let ready: Vec<Front> = fronts.iter().map(|front| Front::new(&points, front)).collect();
    let plate = Plate::new(job);
    let least = |list: &mut dyn Iterator<Item = f64>| list.fold(f64::INFINITY, f64::min);
    let mut out = Vec::new();
    for (f, front) in fronts.iter().enumerate() {
        let n = front.len();
        let at = |i: usize| points[front[i % n]];
        let new: Option<Vec<Point>> = (0..n).map(|i| project(at(i + n - 1), at(i), at(i + 1), job.h)).collect();
        let Some(new) = new else { continue };
        if n < 6 || !new.iter().all(|&p| plate.contains(p)) {
            continue;
        }
        let boundary = least(&mut new.iter().map(|&p| plate.distance_to_boundary(p)));
        let side = least(&mut ring(&new).map(|(a, b)| segment_length(a, b)));
        let others = || ready.iter().enumerate().filter(|(g, _)| *g != f).map(|(_, other)| other);
        let gap = least(&mut new.iter().flat_map(|&p| others().map(move |other| other.distance(p))));
        if boundary == 0.05 * job.h {
            out.push("distance to the boundary met");
        }
        if side == job.options.min_edge_fraction * job.h && side > 0.0 {
            out.push("length of a new side met");
        }
        if gap == job.options.front_gap * job.h && gap > 0.0 {
            out.push("distance to another front met");
        }
    }
    out.sort_unstable();
    out.dedup();
    out
}
