//! Jobs from a seed: job `index` of a seed is always the same.

use crate::calls::{self, default_options, Buffers, Job};
use crate::limits::{self, LEAST_CORNER_LIMIT, MOST_CORNER_LIMIT};
use crate::quality::CORNER_LIMIT;
use crate::Options;

/// splitmix64.
pub struct Random(u64);

impl Random {
    pub fn new(seed: u64, index: u64) -> Random {
        let mut r = Random(seed.wrapping_mul(0xD134_2543_DE82_EF95) ^ index.wrapping_mul(0x9E6C_63D0_876A_3F6B));
        r.next();
        r
    }

    pub fn next(&mut self) -> u64 {
        self.0 = self.0.wrapping_add(0x9E37_79B9_7F4A_7C15);
        let mut z = self.0;
        z = (z ^ (z >> 30)).wrapping_mul(0xBF58_476D_1CE4_E5B9);
        z = (z ^ (z >> 27)).wrapping_mul(0x94D0_49BB_1331_11EB);
        z ^ (z >> 31)
    }

    /// Below n.
    pub fn below(&mut self, n: usize) -> usize {
        (self.next() % n as u64) as usize
    }

    /// From least to most, both included.
    pub fn from_to(&mut self, least: usize, most: usize) -> usize {
        least + self.below(most - least + 1)
    }

    pub fn chance(&mut self, percent: usize) -> bool {
        self.below(100) < percent
    }

    pub fn unit(&mut self) -> f64 {
        (self.next() >> 11) as f64 / (1u64 << 53) as f64
    }

    pub fn between(&mut self, least: f64, most: f64) -> f64 {
        least + (most - least) * self.unit()
    }

    pub fn pick<T: Copy>(&mut self, list: &[T]) -> T {
        list[self.below(list.len())]
    }

    /// Evenly spread over the powers of two between the two.
    fn spread(&mut self, least: f64, most: f64) -> f64 {
        let mut x = least;
        let mut steps = 0;
        while x * 2.0 <= most {
            x *= 2.0;
            steps += 1;
        }
        let k = self.below(steps + 1);
        let low = least * (1u64 << k) as f64;
        self.between(low, (low * 2.0).min(most))
    }
}

type Loop = Vec<[f64; 2]>;

/// The point k / n round the unit circle, by additions and products alone, so
/// that a seed means the same everywhere.
pub fn on_circle(k: f64, n: f64) -> [f64; 2] {
    let t = (k / n - 0.5) * 2.0 * std::f64::consts::PI;
    let (mut c, mut s, mut term) = (0.0, 0.0, 1.0);
    for i in 0..30 {
        match i % 4 {
            0 => c += term,
            1 => s += term,
            2 => c -= term,
            _ => s -= term,
        }
        term = term * t / (i + 1) as f64;
    }
    [-c, -s]
}

fn disc(r: &mut Random, centre: [f64; 2], radius: f64, n: usize) -> Loop {
    let turn = r.unit();
    (0..n)
        .map(|k| on_circle((k as f64 + turn) % n as f64, n as f64))
        .map(|p| [centre[0] + radius * p[0], centre[1] + radius * p[1]])
        .collect()
}

fn rectangle(x: f64, y: f64, w: f64, h: f64) -> Loop {
    vec![[x, y], [x + w, y], [x + w, y + h], [x, y + h]]
}

fn star(r: &mut Random) -> Loop {
    let arms = r.from_to(3, 12);
    let inner = r.between(0.2, 0.95);
    (0..2 * arms)
        .map(|k| {
            let p = on_circle(k as f64, 2.0 * arms as f64);
            let s = if k % 2 == 0 { 1.0 } else { inner };
            [s * p[0], s * p[1]]
        })
        .collect()
}

fn radial(r: &mut Random) -> Loop {
    let n = r.from_to(3, 60);
    let least = r.between(0.1, 0.95);
    (0..n)
        .map(|k| {
            let p = on_circle(k as f64, n as f64);
            let s = r.between(least, 1.0);
            [s * p[0], s * p[1]]
        })
        .collect()
}

fn l_shape(r: &mut Random) -> Loop {
    let (w, h) = (r.between(0.5, 2.0), r.between(0.5, 2.0));
    let (a, b) = (w * r.between(0.2, 0.8), h * r.between(0.2, 0.8));
    vec![[0.0, 0.0], [w, 0.0], [w, b], [a, b], [a, h], [0.0, h]]
}

/// A stadium: two half circles and two sides.
fn slot(r: &mut Random) -> Loop {
    let n = r.from_to(2, 20);
    let (length, radius) = (r.between(0.2, 3.0), r.between(0.1, 0.6));
    let mut out = Vec::new();
    for (side, start) in [(length, -0.25), (-length, 0.25)] {
        for k in 0..=n {
            let p = on_circle((start + 1.0 + 0.5 * k as f64 / n as f64) % 1.0, 1.0);
            out.push([side / 2.0 + radius * p[0], radius * p[1]]);
        }
    }
    out
}

/// A comb with square steps.
fn comb(r: &mut Random) -> Loop {
    let teeth = r.from_to(1, 5);
    let (step, depth) = (r.between(0.2, 1.0), r.between(0.1, 0.8));
    let w = step * (2 * teeth + 1) as f64;
    let mut out = vec![[0.0, 0.0], [w, 0.0]];
    for k in (0..=2 * teeth).rev() {
        let y = if k % 2 == 0 { 1.0 } else { 1.0 - depth };
        out.push([step * (k + 1) as f64, y]);
        out.push([step * k as f64, y]);
    }
    out
}

fn several_holes(r: &mut Random) -> Vec<Loop> {
    let mut loops = vec![rectangle(0.0, 0.0, 4.0, 4.0)];
    let wanted = r.from_to(1, 15);
    let alike = r.chance(30);
    let same = r.pick(&[0.125, 0.0625, 0.25]);
    let mut cells: Vec<usize> = (0..16).collect();
    for _ in 0..wanted {
        let cell = cells.swap_remove(r.below(cells.len()));
        let centre = [(cell % 4) as f64 + 0.5, (cell / 4) as f64 + 0.5];
        let size = if alike { same } else { r.between(0.05, 0.45) };
        let hole = if alike || r.chance(50) {
            rectangle(centre[0] - size, centre[1] - size, 2.0 * size, 2.0 * size)
        } else {
            let n = r.from_to(3, 24);
            disc(r, centre, size, n)
        };
        loops.push(hole);
    }
    loops
}

fn random_points(r: &mut Random) -> Loop {
    let n = r.from_to(3, 9);
    (0..n).map(|_| [r.between(-1.0, 1.0), r.between(-1.0, 1.0)]).collect()
}

pub const SHAPES: [&str; 12] = [
    "plate", "disc", "ring", "l-shape", "star", "slot", "several holes", "radial", "comb",
    "plate with a hole", "random points", "ties",
];

fn shape(r: &mut Random, name: &str) -> Vec<Loop> {
    match name {
        "plate" => vec![rectangle(0.0, 0.0, 1.0, r.between(0.1, 1.0))],
        "disc" => {
            let n = if r.chance(50) { r.from_to(3, 24) } else { r.from_to(25, 400) };
            vec![disc(r, [0.0, 0.0], 1.0, n)]
        }
        "ring" => {
            let (n, m) = (r.from_to(3, 80), r.from_to(3, 80));
            let inner = r.between(0.05, 0.9);
            vec![disc(r, [0.0, 0.0], 1.0, n), disc(r, [0.0, 0.0], inner, m)]
        }
        "l-shape" => vec![l_shape(r)],
        "star" => vec![star(r)],
        "slot" => vec![slot(r)],
        "several holes" => several_holes(r),
        "radial" => vec![radial(r)],
        "comb" => vec![comb(r)],
        "plate with a hole" => {
            let side = r.between(0.1, 0.8);
            let at = 0.5 * (1.0 - side) * r.between(0.2, 1.8);
            vec![rectangle(0.0, 0.0, 1.0, 1.0), rectangle(at, at, side, side)]
        }
        _ => vec![random_points(r)],
    }
}

pub const CHANGES: [&str; 9] = [
    "none", "clockwise outer", "self-crossing", "doubled points", "repeated first point",
    "moved hole", "under 2,048 nodes", "under 4,096 points", "damaged",
];

fn self_cross(r: &mut Random, loops: &mut [Loop]) {
    let which = r.below(loops.len());
    let n = loops[which].len();
    let (i, j) = (r.below(n), r.below(n));
    loops[which].swap(i, j);
}

/// A first side of 1e-12, whose points count as equal: the loop's first point is put at the origin.
fn least_first_side(r: &mut Random, points: &mut Loop) {
    if r.chance(50) {
        points.truncate(3);
    }
    let first = points[0];
    for p in points.iter_mut() {
        *p = [p[0] - first[0], p[1] - first[1]];
    }
    let p = r.pick(&[[1e-12, 0.0], [0.0, 1e-12], [-1e-12, 0.0], [0.0, -1e-12], [1e-12, 1e-13]]);
    if points.len() == 3 && r.chance(50) {
        points[1] = p;
    } else {
        points.insert(1, p);
    }
}

/// Points doubled before the size is known; those about a thousandth of the size apart are in traced.rs.
fn double_points(r: &mut Random, loops: &mut [Loop]) {
    if r.chance(40) {
        least_first_side(r, &mut loops[0]);
        return;
    }
    for _ in 0..r.from_to(1, 4) {
        let which = r.below(loops.len());
        let i = r.below(loops[which].len());
        let apart = r.pick(&[0.0, 1e-13, 1e-12, 1e-9, -1e-13, -1e-12, -1e-9]);
        let mut p = loops[which][i];
        match r.below(3) {
            0 => p[0] += apart,
            1 => p[1] += apart,
            _ => p = [p[0] + apart, p[1] + apart],
        }
        let at = r.pick(&[i, i + 1]);
        loops[which].insert(at, p);
    }
}

fn repeat_first(r: &mut Random, loops: &mut [Loop]) {
    for points in loops {
        for _ in 0..r.below(3) {
            let apart = r.pick(&[0.0, 0.0, 1e-13, 1e-12]);
            let p = [points[0][0] + apart, points[0][1]];
            points.push(p);
        }
    }
}

fn perimeter(points: &Loop) -> f64 {
    let n = points.len();
    (0..n).map(|i| crate::functions::segment_length(points[i], points[(i + 1) % n])).sum()
}

/// Unit shapes to coordinates: a scale up to the limit, an offset, whole or not.
fn place(r: &mut Random, loops: &mut [Loop]) -> bool {
    let most = loops.iter().flatten().flatten().fold(0.0f64, |m, c| m.max(c.abs()));
    let scale = match r.below(10) {
        0 => 1.0,
        1 => 1_000_000.0 / most,
        _ => r.spread(0.01, 1_000_000.0 / most),
    };
    let room = (1_000_000.0 - scale * most).max(0.0);
    let offset = if r.chance(50) { [0.0; 2] } else { [r.between(-room, room), r.between(-room, room)] };
    let whole = scale >= 20.0 && r.chance(60);
    for p in loops.iter_mut().flatten() {
        for k in 0..2 {
            p[k] = (p[k] * scale + offset[k]).clamp(-1_000_000.0, 1_000_000.0);
            if whole {
                p[k] = p[k].round();
            }
        }
    }
    whole
}

fn options(r: &mut Random) -> Options {
    let mut o = default_options();
    if r.chance(50) {
        o.max_row_rounds = r.pick(&[0, 1, 2, 32, 64]);
        return o;
    }
    o.corner_margin = match r.below(8) {
        0 => 0.0,
        1 => 1.0,
        2 => 1.25,
        3 => 100.0,
        4 => r.between(0.0, 100.0),
        _ => r.between(0.0, 4.0),
    };
    o.min_edge_fraction = match r.below(6) {
        0 => 0.0,
        1 => 1.0,
        2 => r.unit(),
        _ => r.between(0.0, 0.2),
    };
    o.front_gap = match r.below(6) {
        0 => 0.0,
        1 => 100.0,
        2 => r.between(0.0, 100.0),
        _ => r.between(0.0, 3.0),
    };
    o.max_row_rounds = match r.below(3) {
        0 => r.from_to(0, 64),
        _ => r.pick(&[0, 1, 2, 64]),
    };
    o
}

/// A corner limit: the default in a third, else one within the limits, and seldom one outside.
pub fn corner_limit(r: &mut Random) -> f64 {
    const OUTSIDE: [f64; 8] = [f64::NAN, f64::INFINITY, f64::NEG_INFINITY, 0.0, -0.0, -0.5, 1.0, 5e-324];
    match r.below(100) {
        0..=33 => CORNER_LIMIT,
        34..=41 => LEAST_CORNER_LIMIT,
        42..=49 => MOST_CORNER_LIMIT,
        50 => r.pick(&[LEAST_CORNER_LIMIT.next_up(), MOST_CORNER_LIMIT.next_down()]),
        51 => r.pick(&[LEAST_CORNER_LIMIT.next_down(), MOST_CORNER_LIMIT.next_up()]),
        52 => r.pick(&OUTSIDE),
        _ => r.between(LEAST_CORNER_LIMIT, MOST_CORNER_LIMIT),
    }
}

/// The job of a call on a state: now and then with a corner limit of its own.
pub fn own_limit(r: &mut Random, job: &Job) -> Job {
    let mut job = job.clone();
    if r.chance(40) {
        job.options.corner_limit = corner_limit(r);
    }
    job
}

/// A size near the least that is not refused with the given number.
fn just_under(r: &mut Random, job: &mut Job, refused: u8, low: f64, high: f64, steps: usize) {
    let (mut low, mut high) = (low.max(limits::LEAST_SIZE), high.max(limits::LEAST_SIZE));
    let mut buffers = Buffers::new();
    for _ in 0..steps {
        job.h = 0.5 * (low + high);
        let (n, _) = if refused == 10 { calls::sample(job, &mut buffers) } else { calls::job(job, &mut buffers) };
        if n == refused || n == 10 { low = job.h } else { high = job.h }
    }
    job.h = if r.chance(90) { high } else { low };
}

/// One fault that a number of document 01 is for, or a value just within; the outer loop has three points or more.
pub fn damage(r: &mut Random, job: &mut Job) {
    let odd = [f64::NAN, f64::INFINITY, f64::NEG_INFINITY, -1.0, -0.0, 0.0, 5e-324, 1e300];
    match r.below(16) {
        0 => job.h = r.pick(&odd),
        1 => job.h = r.pick(&[0.0005, 0.0009999999999999998, 1_000_000.0000000001, 1e9]),
        2 => job.options.corner_margin = r.pick(&[f64::NAN, -1e-9, 100.00000000000001, f64::INFINITY]),
        3 => job.options.front_gap = r.pick(&[f64::NAN, -1e-9, 100.00000000000001, f64::INFINITY]),
        4 => job.options.min_edge_fraction = r.pick(&[f64::NAN, -1e-9, 1.0000000000000002, f64::INFINITY]),
        5 => job.options.max_row_rounds = r.pick(&[65, 1_000, usize::MAX]),
        6 => job.options.seam = true,
        7 | 8 => {
            let i = r.below(job.xy.len());
            job.xy[i] = r.pick(&[f64::NAN, f64::INFINITY, 1_000_000.0000000001, -1e300, 1_000_000.0, -0.0]);
        }
        9 => {
            let keep = r.below(3);
            job.xy.drain(2 * keep..2 * job.lengths[0]);
            job.lengths[0] = keep;
        }
        10 => {
            let few = r.below(3);
            let at = [0.0, 0.0, 1.0, 0.0];
            job.xy.extend_from_slice(&at[..2 * few]);
            job.lengths.push(few);
        }
        11 => job.lengths[0] = r.pick(&[0, job.lengths[0] + 1, usize::MAX]),
        12 => job.lengths.resize(r.pick(&[16, 17]), 0),
        13 => drop(job.xy.pop()),
        14 => {
            let wanted = r.from_to(2_040, 2_060);
            let (first, n) = ([job.xy[0], job.xy[1]], job.xy.len() / 2);
            for _ in n..wanted {
                job.xy.splice(0..0, first);
                job.lengths[0] += 1;
            }
        }
        _ => {
            job.lengths.clear();
            if r.chance(50) {
                job.xy.clear();
            }
        }
    }
}

/// Whole squares in which ties stand: a row's distance to another front that
/// equals `front_gap` times h, fronts of equal length, sides of equal length.
fn ties(r: &mut Random) -> Job {
    let h = r.pick(&[1.0, 8.0, 125.0, 1_000.0]);
    let gap = r.from_to(1, 4);
    let mut options = options(r);
    options.corner_margin = 2.4;
    options.min_edge_fraction = 0.08;
    options.front_gap = gap as f64;
    let wall = (gap + r.from_to(1, 2)) as f64 * h;
    let hole = r.from_to(3, 14) as f64 * h;
    let number = r.from_to(1, 3);
    let pitch = hole + wall;
    let mut loops = vec![rectangle(0.0, 0.0, number as f64 * pitch + wall, hole + 2.0 * wall)];
    for k in 0..number {
        loops.push(rectangle(wall + k as f64 * pitch, wall, hole, hole));
    }
    let lengths = loops.iter().map(Vec::len).collect();
    Job { xy: loops.into_iter().flatten().flatten().collect(), lengths, h, options }
}

pub struct Made {
    pub job: Job,
    pub shape: &'static str,
    pub change: &'static str,
}

/// How large the jobs are.
#[derive(Clone, Copy, PartialEq)]
enum Sizes {
    /// Up to the limits, also by a search for a size whose rows reach one.
    Rows,
    /// Up to the limits, without that search.
    Sampling,
    /// Mostly small, and without searches.
    Small,
}

/// Job `index` of a seed.
pub fn job(seed: u64, index: u64) -> Made {
    made(seed, index, Sizes::Rows)
}

/// Job `index` of a seed for sampling alone: no search for a size whose rows reach a limit.
pub fn sampling_job(seed: u64, index: u64) -> Made {
    made(seed, index, Sizes::Sampling)
}

/// Job `index` of a seed, small for the most part: many in little time.
pub fn small_job(seed: u64, index: u64) -> Made {
    made(seed, index, Sizes::Small)
}

/// The corner limit is drawn apart: the rest of a job is the same without it.
fn made(seed: u64, index: u64, sizes: Sizes) -> Made {
    let mut made = with_default_limit(seed, index, sizes);
    made.job.options.corner_limit = corner_limit(&mut Random::new(seed ^ 0xC0421, index));
    made
}

fn with_default_limit(seed: u64, index: u64, sizes: Sizes) -> Made {
    let r = &mut Random::new(seed, index);
    let shape_name = r.pick(&SHAPES);
    if shape_name == "ties" {
        return Made { job: ties(r), shape: shape_name, change: "none" };
    }
    let change = if r.chance(45) { "none" } else { r.pick(&CHANGES) };
    let mut loops = shape(r, shape_name);
    let whole = place(r, &mut loops);
    for points in loops.iter_mut().skip(1) {
        if r.chance(50) {
            points.reverse();
        }
    }
    match change {
        "clockwise outer" => loops[0].reverse(),
        "self-crossing" => self_cross(r, &mut loops),
        "doubled points" => double_points(r, &mut loops),
        "repeated first point" => repeat_first(r, &mut loops),
        "moved hole" => {
            let span = perimeter(&loops[0]) * r.between(-0.3, 0.3);
            for p in loops.iter_mut().skip(1).flatten() {
                p[0] = (p[0] + span).clamp(-1_000_000.0, 1_000_000.0);
            }
        }
        _ => {}
    }
    if r.chance(85) && crate::functions::signed_area(&loops[0]) < 0.0 && change != "clockwise outer" {
        loops[0].reverse();
    }
    let round: f64 = loops.iter().map(perimeter).sum();
    let nodes = if change == "doubled points" && r.chance(60) {
        r.spread(0.5, 6.0)
    } else if sizes == Sizes::Small && r.chance(90) {
        r.spread(2.0, 100.0)
    } else if r.chance(85) { r.spread(2.0, 300.0) } else { r.spread(2.0, 2_400.0) };
    let mut h = (round / nodes).clamp(limits::LEAST_SIZE, limits::MOST_SIZE);
    if whole && h >= 2.0 {
        h = h.round();
    }
    let lengths = loops.iter().map(Vec::len).collect();
    let xy = loops.into_iter().flatten().flatten().collect();
    let mut job = Job { xy, lengths, h, options: options(r) };
    match change {
        "under 2,048 nodes" if sizes != Sizes::Small => {
            job.options.corner_margin = job.options.corner_margin.min(4.0);
            just_under(r, &mut job, 10, round / 4_000.0, round / 100.0, 30);
        }
        "under 4,096 points" if sizes == Sizes::Rows => {
            job.options.max_row_rounds = 64;
            just_under(r, &mut job, 21, round / 1_000.0, round / 50.0, 12);
        }
        "damaged" => damage(r, &mut job),
        _ => {}
    }
    Made { job, shape: shape_name, change }
}
