//! Small fronts for the closings and the fan, from a seed: convex and not, clockwise, symmetric so that splits and grid
//! points tie, and states at the limits. And what the Rust's own functions say of the splits of six nodes and of a fan's grid.

use crate::calls::{default_options, Buffers, Counts, Job};
use crate::functions::{self, Front, Plate, Point};
use crate::generate::{self, on_circle, Random};
use crate::limits::{MAX_FRONT_NODES, MAX_POINTS, MAX_QUADS, MOST_COORDINATE};
use crate::states::State;
use crate::Options;

/// A call's job and state, and what the state is.
pub struct Small {
    pub job: Job,
    pub state: State,
    pub kind: &'static str,
}

/// A front's nodes by their places, and what they are. An exact front keeps its places but for whole steps and powers of two.
struct Nodes {
    at: Vec<Point>,
    kind: &'static str,
    exact: bool,
}

fn any_point(r: &mut Random) -> Point {
    [r.between(-1.0, 1.0), r.between(-1.0, 1.0)]
}

/// n places going round, each on the unit circle.
fn round(r: &mut Random, n: usize, even: bool) -> Vec<Point> {
    let turn = r.unit();
    let mut places: Vec<f64> = (0..n).map(|k| if even { (k as f64 + turn) / n as f64 } else { r.unit() }).collect();
    places.sort_by(f64::total_cmp);
    places.into_iter().map(|t| on_circle(t % 1.0, 1.0)).collect()
}

/// Corners at the odd places, the middles of their sides at the even ones.
fn middles(corners: &[Point]) -> Vec<Point> {
    let n = corners.len();
    (0..n)
        .flat_map(|k| {
            let (a, b) = (corners[(k + n - 1) % n], corners[k]);
            [[0.5 * (a[0] + b[0]), 0.5 * (a[1] + b[1])], b]
        })
        .collect()
}

/// Six nodes that are their own mirror image, in whole numbers: two splits are each other's image.
fn mirrored(r: &mut Random) -> Vec<Point> {
    let mut whole = |least: f64, most: f64| r.between(least, most).round();
    let half = [[whole(50.0, 1_000.0), whole(0.0, 900.0)], [whole(50.0, 1_000.0), -whole(0.0, 900.0)], [whole(50.0, 1_000.0), -whole(500.0, 1_000.0)]];
    let image = |p: Point| [-p[0], p[1]];
    let top = whole(500.0, 1_000.0);
    let mut six = if r.chance(40) {
        // a drop: the split along the axis halves the sharp end, so that the two others are the best
        let mut whole = |least: f64, most: f64| r.between(least, most).round();
        let (a, b) = ([whole(600.0, 900.0), -whole(200.0, 400.0)], [whole(450.0, 650.0), -whole(900.0, 1_050.0)]);
        vec![[0.0, 1_000.0], image(a), image(b), [0.0, -whole(1_150.0, 1_300.0)], b, a]
    } else if r.chance(50) {
        // the axis goes through two nodes
        vec![[0.0, top], image(half[0]), image(half[1]), [0.0, -top], half[1], half[0]]
    } else {
        // the axis goes through the middles of two sides
        let first = [half[0][0], top];
        vec![image(first), image(half[1]), image(half[2]), half[2], half[1], first]
    };
    if r.chance(50) {
        six.iter_mut().for_each(|p| *p = [p[1], -p[0]]);
    }
    if r.chance(20) {
        // about the line x = y
        six.iter_mut().for_each(|p| *p = [p[0] + p[1], p[1] - p[0]]);
    }
    six
}

/// A rectangle with the middles of its sides, in whole numbers: the middle line's grid points tie. Aslant, with sides and
/// grid steps that are exact, the first of them along x is not the first along y.
fn oblong(r: &mut Random) -> Vec<Point> {
    let (a, b) = if r.chance(30) {
        ([12.0 * r.from_to(1, 40) as f64, 0.0], [0.0, 12.0 * r.from_to(1, 40) as f64])
    } else {
        let short = r.pick(&[2.0, 4.0, 8.0]);
        let long = short * r.pick(&[2.0, 8.0]);
        let (down, up) = if r.chance(60) { (long, short) } else { (short, long) };
        ([down, -down], [up, up])
    };
    middles(&[[0.0, 0.0], a, [a[0] + b[0], a[1] + b[1]], b])
}

/// Within it lie only grid points that stand on it: the greatest clearance is 0.
fn sliver() -> Vec<Point> {
    vec![[0.0, 0.0], [6.0, 5.875], [12.0, 12.0], [4.0, 4.0]]
}

/// The nodes of one front; 3 to 12 of them.
fn nodes(r: &mut Random, fan: bool) -> Nodes {
    let n = if fan { r.pick(&[3, 4, 5, 6, 6, 6, 6, 7, 8, 8, 8, 9, 10, 10, 11, 12, 12]) } else { r.pick(&[3, 4, 4, 4, 4, 5, 6, 6, 6, 6, 6, 7, 8, 9, 10, 11, 12]) };
    let mut given = match r.below(if fan { 13 } else { 12 }) {
        0 | 1 => Nodes { at: round(r, n, true), kind: "regular", exact: false },
        2 => Nodes { at: round(r, n, false), kind: "convex", exact: false },
        3 | 4 => {
            // evenly spaced, then moved a little
            let mut at = round(r, n, true);
            let by = r.pick(&[0.02, 0.1, 0.3]);
            at.iter_mut().for_each(|p| *p = [p[0] + by * r.unit(), p[1] + by * r.unit()]);
            Nodes { at, kind: "nearly regular", exact: false }
        }
        5 => {
            let mut at = round(r, n, true);
            let least = r.between(0.1, 0.9);
            at.iter_mut().for_each(|p| {
                let s = r.between(least, 1.0);
                *p = [s * p[0], s * p[1]]
            });
            Nodes { at, kind: "not convex", exact: false }
        }
        6 => Nodes { at: (0..n).map(|_| any_point(r)).collect(), kind: "points in any order", exact: false },
        7 if r.chance(50) => {
            let (a, b) = (any_point(r), r.pick(&[[1.0, 0.0], [0.0, 1.0], [1.0, 1.0], [0.0, 0.0]]));
            let at = (0..n).map(|_| r.unit()).map(|t| [a[0] + t * b[0], a[1] + t * b[1]]).collect();
            Nodes { at, kind: "in a line", exact: false }
        }
        7 | 8 => {
            let (n, even) = (r.from_to(3, 6), r.chance(70));
            let corners = round(r, n, even);
            Nodes { at: middles(&corners), kind: "corners and middles", exact: false }
        }
        9 | 10 => Nodes { at: mirrored(r), kind: "six mirrored", exact: true },
        11 => Nodes { at: oblong(r), kind: "oblong", exact: true },
        _ if r.chance(30) => Nodes { at: sliver(), kind: "clearance of 0", exact: true },
        _ => Nodes { at: oblong(r), kind: "oblong", exact: true },
    };
    if given.kind != "clearance of 0" {
        if r.chance(35) {
            given.at.reverse();
            given.at.rotate_left(1);
        }
        // middles stay at the even places, mostly
        let n = given.at.len();
        let turn = r.below(n);
        given.at.rotate_left(if n % 2 == 0 && r.chance(60) { turn & !1 } else { turn });
    }
    if !given.exact && r.chance(15) {
        let flat = r.pick(&[0.5, 0.1, 0.01]);
        given.at.iter_mut().for_each(|p| p[1] *= flat);
    }
    given
}

fn outline(job: &Job) -> Option<(Point, f64)> {
    let n = *job.lengths.first()?;
    if n == 0 || 2 * n > job.xy.len() {
        return None;
    }
    let (mut low, mut high) = ([f64::INFINITY; 2], [f64::NEG_INFINITY; 2]);
    for p in job.xy[..2 * n].chunks_exact(2) {
        for k in 0..2 {
            low[k] = low[k].min(p[k]);
            high[k] = high[k].max(p[k]);
        }
    }
    let centre = [0.5 * (low[0] + high[0]), 0.5 * (low[1] + high[1])];
    let reach = 0.5 * (high[0] - low[0]).min(high[1] - low[1]);
    let fits = |x: f64| x.abs() <= MOST_COORDINATE;
    (fits(centre[0]) && fits(centre[1]) && fits(reach)).then_some((centre, reach))
}

/// A square plate that leaves room for a front, now and then with a hole over part of it.
fn roomy(r: &mut Random, centre: Point, reach: f64) -> Job {
    let square = |x: f64, y: f64, s: f64| [[x - s, y - s], [x + s, y - s], [x + s, y + s], [x - s, y + s]];
    let size = if r.chance(50) { MOST_COORDINATE } else { (4.0 * reach).clamp(1.0, 100_000.0) };
    let middle = if size == MOST_COORDINATE { [0.0, 0.0] } else { centre };
    let mut loops = square(middle[0], middle[1], size).to_vec();
    let mut lengths = vec![4];
    if r.chance(15) {
        let s = reach * r.pick(&[0.1, 0.5, 0.9]);
        loops.extend(square(centre[0] + s * r.unit(), centre[1] + s * r.unit(), s));
        lengths.push(4);
    }
    let xy = loops.into_iter().flatten().map(|x| x.clamp(-MOST_COORDINATE, MOST_COORDINATE)).collect();
    let options = Options { corner_limit: generate::corner_limit(r), ..default_options() };
    Job { xy, lengths, h: 1.0, options }
}

/// A state with these fronts: their nodes numbered in turn or in any order, other points and quads beside them.
fn built(r: &mut Random, fronts: &[Vec<Point>], reach: f64) -> State {
    let mut s = State { buffers: Buffers::new(), counts: Counts { fronts: fronts.len(), ..Counts::default() } };
    let (b, c) = (&mut s.buffers, &mut s.counts);
    let nodes: usize = fronts.iter().map(Vec::len).sum();
    c.points = nodes + r.pick(&[0, 0, 1, 2, 20]);
    let mut numbers: Vec<usize> = (0..c.points).collect();
    if r.chance(60) {
        for i in (1..c.points).rev() {
            numbers.swap(i, r.below(i + 1));
        }
    }
    for i in 0..2 * c.points {
        b.points[i] = r.between(-reach, reach);
    }
    let mut at = 0;
    for (f, front) in fronts.iter().enumerate() {
        b.front_lengths[f] = front.len() as u16;
        for p in front {
            b.points[2 * numbers[at]] = p[0];
            b.points[2 * numbers[at] + 1] = p[1];
            if at < MAX_FRONT_NODES {
                b.front_nodes[at] = numbers[at] as u16;
            }
            at += 1;
        }
    }
    for x in b.points[..2 * c.points].iter_mut().filter(|x| **x == 0.0) {
        *x = r.pick(&[0.0, -0.0]);
    }
    if c.points > 0 {
        c.quads = r.pick(&[0, 0, 1, 7, 40]);
    }
    for i in 0..4 * c.quads {
        b.quads[i] = r.below(c.points) as u16;
    }
    c.row_quads = r.from_to(0, c.quads);
    c.core_quads = c.quads - c.row_quads;
    c.row_rounds = r.from_to(0, c.row_quads / 6);
    c.laid = r.from_to(0, c.quads);
    c.passes = r.pick(&[0, 1, 33, usize::MAX]);
    s
}

/// Points and quads added until there are 4,095 or 4,096, or until the call has just room, or wants one quad more.
pub fn to_a_limit(r: &mut Random, s: &mut State, points: usize, quads: usize) -> &'static str {
    let (b, c) = (&mut s.buffers, &mut s.counts);
    let (up_to, of_quads, kind) = match r.below(7) {
        0 => (MAX_POINTS - 1, 0, "4,095 points"),
        1 => (MAX_POINTS, 0, "4,096 points"),
        2 => (0, MAX_QUADS - 1, "4,095 quads"),
        3 => (0, MAX_QUADS, "4,096 quads"),
        4 => (MAX_POINTS, MAX_QUADS, "4,096 points and quads"),
        5 => (MAX_POINTS - points, MAX_QUADS - quads, "just room"),
        _ => (0, MAX_QUADS - quads + 1, "room but for one quad"),
    };
    for _ in c.points..up_to {
        let p = any_point(r);
        b.points[2 * c.points] = p[0];
        b.points[2 * c.points + 1] = p[1];
        c.points += 1;
    }
    if c.points > 0 {
        for _ in c.quads..of_quads.min(MAX_QUADS) {
            for k in 0..4 {
                b.quads[4 * c.quads + k] = r.below(c.points) as u16;
            }
            c.quads += 1;
            if r.chance(50) { c.row_quads += 1 } else { c.core_quads += 1 }
        }
    }
    kind
}

/// Fronts of 2,048 or 2,049 nodes in all.
fn long(r: &mut Random, fan: bool) -> Small {
    let all = r.pick(&[MAX_FRONT_NODES, MAX_FRONT_NODES, MAX_FRONT_NODES + 1]);
    let number = if fan { r.pick(&[1, 1, 1, 2]) } else { r.pick(&[1, 2, 16]) };
    let fronts: Vec<Vec<Point>> = (0..number)
        .map(|f| {
            let n = all / number + if f == 0 { all % number } else { 0 };
            (0..n).map(|k| on_circle(k as f64, n as f64)).map(|p| [100.0 * p[0], 100.0 * p[1]]).collect()
        })
        .collect();
    let job = roomy(r, [0.0, 0.0], 100.0);
    let state = built(r, &fronts, 100.0);
    Small { job, state, kind: if all > MAX_FRONT_NODES { "2,049 front nodes" } else { "2,048 front nodes" } }
}

/// A state of small fronts, in the outline of a job or in a plate with room for them.
pub fn small(r: &mut Random, made: &Job, fan: bool) -> Small {
    if r.chance(1) {
        return long(r, fan);
    }
    let number = match (r.below(20), fan) {
        (0, true) => 0,
        (1, true) | (0..=5, false) => r.from_to(2, 4),
        (2, true) | (6, false) => r.from_to(5, 16),
        _ => 1,
    };
    let given: Vec<Nodes> = (0..number).map(|_| nodes(r, fan)).collect();
    let exact = given.iter().any(|g| g.exact);
    let inside = if exact || r.chance(60) { None } else { outline(made) };
    let (centre, reach) = match inside {
        Some((centre, reach)) => (centre, reach * r.between(0.05, 1.0)),
        None if exact => {
            let step = f64::from(1u32 << r.below(9)) / r.pick(&[1.0, 1_024.0]);
            if r.chance(20) { ([0.0, 0.0], step) } else { ([step * r.from_to(0, 800) as f64, -step * r.from_to(0, 800) as f64], step) }
        }
        None => {
            let reach = r.pick(&[1.0, 1.0, 30.0, 1_000.0, 50_000.0, 1e-3, 1e-12, 1e-170, 1e9]);
            let any = any_point(r);
            (if reach < 1_000_000.0 { [1_000.0 * any[0], 1_000.0 * any[1]] } else { [0.0, 0.0] }, reach)
        }
    };
    let whole = !exact && reach >= 20.0 && r.chance(40);
    let fronts: Vec<Vec<Point>> = given
        .iter()
        .map(|g| {
            let put = |p: &Point| [0, 1].map(|k| (centre[k] + reach * p[k]).clamp(-1e9, 1e9));
            g.at.iter().map(put).map(|p| if whole { p.map(f64::round) } else { p }).collect()
        })
        .collect();
    let mut job = if inside.is_some() { made.clone() } else { roomy(r, centre, reach * if exact { 1_000.0 } else { 1.0 }) };
    let mut state = built(r, &fronts, reach.clamp(1e-3, 1e6));
    let mut kind = match given.len() {
        0 => "no front",
        1 => given[0].kind,
        _ => "several fronts",
    };
    if r.chance(15) {
        let n: usize = given.first().map_or(0, |g| g.at.len());
        let closed = given.iter().map(|g| [0, 0, 0, 0, 1, 0, 2].get(g.at.len()).copied().unwrap_or(0)).sum();
        kind = if fan { to_a_limit(r, &mut state, 1, n / 2) } else { to_a_limit(r, &mut state, 0, closed) };
    }
    if inside.is_none() && r.chance(5) {
        generate::damage(r, &mut job);
        kind = "a damaged job";
    }
    Small { job, state, kind }
}

/// Whether a front goes round clockwise.
pub fn clockwise(b: &Buffers, front: &[usize]) -> bool {
    let points: Vec<Point> = front.iter().map(|&i| b.point(i)).collect();
    functions::signed_area(&points) < 0.0
}

fn quad_at(b: &Buffers, q: [usize; 4]) -> [Point; 4] {
    q.map(|i| b.point(i))
}

/// Turned if its area is negative.
pub fn turned(b: &Buffers, mut q: [usize; 4]) -> [usize; 4] {
    if functions::signed_quad_area(quad_at(b, q)) < 0.0 {
        q.reverse();
    }
    q
}

pub fn passes(b: &Buffers, q: [usize; 4], limit: f64) -> bool {
    functions::quad_passes(quad_at(b, q), limit)
}

/// The three splits of six nodes, and the least corner value of those that pass the limit.
pub fn splits(b: &Buffers, front: &[usize], limit: f64) -> [([[usize; 4]; 2], Option<f64>); 3] {
    [0, 1, 2].map(|shift| {
        let v = |i: usize| front[(i + shift) % 6];
        let quads = [turned(b, [v(0), v(1), v(2), v(3)]), turned(b, [v(0), v(3), v(4), v(5)])];
        let good = quads.iter().all(|&q| passes(b, q, limit));
        let least = || quads.iter().map(|&q| functions::least_corner(quad_at(b, q))).fold(f64::INFINITY, f64::min);
        (quads, good.then(least))
    })
}

/// The quads that close a front, none when it is kept; `last` takes the last split on a tie.
pub fn closing(b: &Buffers, front: &[usize], limit: f64, last: bool) -> Vec<[usize; 4]> {
    match front.len() {
        4 => {
            let q = turned(b, [front[0], front[1], front[2], front[3]]);
            if passes(b, q, limit) { vec![q] } else { Vec::new() }
        }
        6 => {
            let mut best: Option<([[usize; 4]; 2], f64)> = None;
            for (quads, value) in splits(b, front, limit) {
                let Some(value) = value else { continue };
                if best.is_none_or(|(_, kept)| value > kept || last && value == kept) {
                    best = Some((quads, value));
                }
            }
            best.map_or(Vec::new(), |(quads, _)| quads.to_vec())
        }
        _ => Vec::new(),
    }
}

/// The grid points of a front that count, x outermost, with their clearances.
pub fn grid(job: &Job, b: &Buffers, points: usize, nodes: &[usize]) -> Vec<(Point, f64)> {
    let all: Vec<Point> = (0..points).map(|i| b.point(i)).collect();
    let (front, plate) = (Front::new(&all, nodes), Plate::new(job));
    let (mut low, mut high) = ([f64::INFINITY; 2], [f64::NEG_INFINITY; 2]);
    for &i in nodes {
        for k in 0..2 {
            low[k] = low[k].min(all[i][k]);
            high[k] = high[k].max(all[i][k]);
        }
    }
    let step = |k: usize, i: usize| low[k] + (high[k] - low[k]) * i as f64 / 12.0;
    (0..169)
        .map(|i| [step(0, i / 13), step(1, i % 13)])
        .filter(|&p| plate.contains(p) && front.contains(p))
        .map(|p| (p, front.distance(p)))
        .collect()
}

/// The first point of the greatest clearance.
pub fn first_best(grid: &[(Point, f64)]) -> Option<(Point, f64)> {
    let mut best: Option<(Point, f64)> = None;
    for &(p, clear) in grid {
        if best.is_none_or(|(_, most)| clear > most) {
            best = Some((p, clear));
        }
    }
    best
}

/// The same points with y outermost. Points of one y stand in the order of x.
pub fn y_outermost(mut grid: Vec<(Point, f64)>) -> Vec<(Point, f64)> {
    grid.sort_by(|a, b| a.0[1].total_cmp(&b.0[1]));
    grid
}
