//! Jobs of every kind from a seed, many in little time: small ones for the most part, and among them those in which a distance
//! is met exactly, those with a coordinate or a size at its limit, loops that touch themselves or have points close to each other,
//! and those near the limits.

use crate::calls::{default_options, Job};
use crate::extremes;
use crate::functions::Point;
use crate::generate::{self, Made, Random};
use crate::limits::{LEAST_CORNER_LIMIT, LEAST_SIZE, MOST_COORDINATE, MOST_CORNER_LIMIT, MOST_SIZE};
use crate::traced;

/// Job `index` of a seed.
pub fn job(seed: u64, index: u64) -> Made {
    let r = &mut Random::new(seed ^ 0x313ED, index);
    match r.below(200) {
        0..=7 => extremes::near(seed, index),
        8..=43 => generate::sampling_job(seed, index),
        44..=63 => exact(r),
        64..=69 => changed(r, seed, index, "self-touching", touching),
        70..=73 => changed(r, seed, index, "size 0.001", |_, job| resize(job, LEAST_SIZE)),
        74..=77 => changed(r, seed, index, "size 1,000,000", |_, job| resize(job, MOST_SIZE)),
        78..=85 => changed(r, seed, index, "options at limits", options),
        86..=93 => changed(r, seed, index, "holes moved", holes),
        94..=123 => changed(r, seed, index, "close points", traced::close_points),
        _ => generate::small_job(seed, index),
    }
}

fn changed(r: &mut Random, seed: u64, index: u64, change: &'static str, by: fn(&mut Random, &mut Job)) -> Made {
    let mut made = generate::small_job(seed, index);
    if made.change == "damaged" {
        return made;
    }
    by(r, &mut made.job);
    made.change = change;
    made
}

/// The loops of a sound job.
pub fn loops_of(job: &Job) -> Vec<Vec<Point>> {
    let mut pairs = job.xy.chunks_exact(2).map(|p| [p[0], p[1]]);
    job.lengths.iter().map(|&n| pairs.by_ref().take(n).collect()).collect()
}

pub fn set_loops(job: &mut Job, loops: Vec<Vec<Point>>) {
    job.lengths = loops.iter().map(Vec::len).collect();
    job.xy = loops.into_iter().flatten().flatten().collect();
}

/// A corner, or the middle of a side, comes a second time elsewhere in its loop.
fn touching(r: &mut Random, job: &mut Job) {
    let mut loops = loops_of(job);
    let which = r.below(loops.len());
    let points = &mut loops[which];
    let n = points.len();
    let (i, j) = (r.below(n), r.below(n));
    let (a, b) = (points[i], points[(i + 1) % n]);
    let p = if r.chance(50) { a } else { [0.5 * (a[0] + b[0]), 0.5 * (a[1] + b[1])] };
    points.insert(j, p);
    set_loops(job, loops);
}

/// All of a job's lengths scaled until its size is this; as far as the limits of the coordinates go.
fn resize(job: &mut Job, size: f64) {
    let by = size / job.h;
    job.h = size;
    job.xy.iter_mut().for_each(|x| *x = (*x * by).clamp(-MOST_COORDINATE, MOST_COORDINATE));
}

fn options(r: &mut Random, job: &mut Job) {
    let o = &mut job.options;
    o.corner_margin = r.pick(&[0.0, 0.0, 2.4, 100.0]);
    o.min_edge_fraction = r.pick(&[0.0, 0.0, 0.08, 1.0]);
    o.front_gap = r.pick(&[0.0, 0.0, 1.2, 100.0]);
    o.max_row_rounds = r.pick(&[0, 1, 64, 64, 64]);
    o.corner_limit = r.pick(&[LEAST_CORNER_LIMIT, LEAST_CORNER_LIMIT, default_options().corner_limit, MOST_CORNER_LIMIT]);
}

/// Each hole put anywhere about the outline, across it or outside.
fn holes(r: &mut Random, job: &mut Job) {
    let mut loops = loops_of(job);
    let (mut low, mut high) = ([f64::INFINITY; 2], [f64::NEG_INFINITY; 2]);
    for p in &loops[0] {
        for k in 0..2 {
            low[k] = low[k].min(p[k]);
            high[k] = high[k].max(p[k]);
        }
    }
    if loops.len() == 1 {
        let n = r.from_to(3, 12);
        let reach = 0.3 * (high[0] - low[0]).min(high[1] - low[1]) * r.unit();
        loops.push((0..n).map(|k| generate::on_circle(k as f64, n as f64)).map(|p| [low[0] + reach * p[0], low[1] + reach * p[1]]).collect());
    }
    for hole in loops.iter_mut().skip(1) {
        let from = hole[0];
        let to = [0, 1].map(|k| low[k] + (high[k] - low[k]) * r.between(-0.3, 1.3));
        hole.iter_mut().for_each(|p| *p = [0, 1].map(|k| (p[k] - from[k] + to[k]).clamp(-MOST_COORDINATE, MOST_COORDINATE)));
    }
    set_loops(job, loops);
}

fn rectangle(x: f64, y: f64, w: f64, h: f64) -> Vec<Point> {
    vec![[x, y], [x + w, y], [x + w, y + h], [x, y + h]]
}

/// A distance of the first row that equals its limit, or misses it by the least step: to the boundary, of a side, or to a front.
fn exact(r: &mut Random) -> Made {
    // a twentieth of these is exact
    let h = r.pick(&[20.0, 40.0, 100.0, 1_000.0]);
    let mut job = Job { xy: Vec::new(), lengths: Vec::new(), h, options: default_options() };
    let side = r.from_to(12, 24) as f64 * h;
    let miss = |r: &mut Random, x: f64| match r.below(6) {
        0 => x.next_down(),
        1 => x.next_up(),
        _ => x,
    };
    job.options.max_row_rounds = r.pick(&[1, 2, 32]);
    let (change, loops) = match r.below(3) {
        0 => {
            // a hole a row and a twentieth away from the outline's lower side
            job.options.front_gap = 0.0;
            let width = r.from_to(1, 4) as f64 * h;
            let low = miss(r, 1.05 * h);
            let x = 0.5 * (side - width);
            ("boundary met", vec![rectangle(0.0, 0.0, side, side), vec![[x, low], [x + width, low], [x + width, 5.0 * h], [x, 5.0 * h]]])
        }
        1 => {
            // inner points a size apart, and new sides as long
            job.options.corner_margin = r.pick(&[2.0, 2.5, 3.0]);
            job.options.min_edge_fraction = miss(r, 1.0).min(1.0);
            let long = side + r.pick(&[0.0, 0.0, h]);
            ("edge met", vec![rectangle(0.0, 0.0, side, long)])
        }
        _ => {
            // a hole whose front a row comes as near to as front_gap says
            let gap = r.from_to(1, 3) as f64;
            job.options.front_gap = miss(r, gap);
            let wall = (gap + 1.0) * h;
            let hole = r.from_to(3, 9) as f64 * h;
            ("gap met", vec![rectangle(0.0, 0.0, hole + 2.0 * wall, hole + 2.0 * wall), rectangle(wall, wall, hole, hole)])
        }
    };
    set_loops(&mut job, loops);
    job.options.corner_limit = generate::corner_limit(r);
    Made { job, shape: "exact", change }
}
