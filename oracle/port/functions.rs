//! The port's single functions against the Rust's, by bits.

use crate::port::{self, Point};
use oracle::calls::{default_options, Job};
use oracle::functions as rust;
use oracle::generate::Random;
use std::collections::BTreeMap;

/// One list of calls of one function.
struct Tally {
    name: &'static str,
    kinds: BTreeMap<&'static str, u64>,
    calls: u64,
    differ: u64,
}

impl Tally {
    fn new(name: &'static str) -> Tally {
        Tally { name, kinds: BTreeMap::new(), calls: 0, differ: 0 }
    }

    fn count(&mut self, kind: &'static str) {
        *self.kinds.entry(kind).or_insert(0) += 1;
    }

    fn see(&mut self, same: bool, what: impl FnOnce() -> String) {
        self.calls += 1;
        if !same {
            self.differ += 1;
            if self.differ <= 3 {
                println!("DIFFERENCE in {}: {}", self.name, what());
            }
        }
    }

    /// Two f64, by their bits. Rust leaves the bits of a NaN open, so two NaNs are equal.
    fn number(&mut self, port: f64, rust: f64, input: impl FnOnce() -> String) {
        let same = port.to_bits() == rust.to_bits() || port.is_nan() && rust.is_nan();
        self.count(if rust.is_nan() {
            "NaN"
        } else if rust.is_infinite() {
            "infinite"
        } else if rust == 0.0 {
            "zero"
        } else if rust < 0.0 {
            "negative"
        } else {
            "positive"
        });
        self.see(same, || format!("{:016X} and not {:016X} for {}", port.to_bits(), rust.to_bits(), input()));
    }

    fn truth(&mut self, port: bool, rust: bool, input: impl FnOnce() -> String) {
        self.count(if rust { "true" } else { "false" });
        self.see(port == rust, || format!("{port} and not {rust} for {}", input()));
    }

    fn line(&self) -> String {
        let kinds: Vec<String> = self.kinds.iter().map(|(k, n)| format!("{k} {n}")).collect();
        format!("{:>22}: {:>9} calls, {} differ ({})", self.name, self.calls, self.differ, kinds.join(", "))
    }
}

fn bits(list: &[f64]) -> String {
    let words: Vec<String> = list.iter().map(|x| format!("x{:016X}", x.to_bits())).collect();
    words.join(" ")
}

/// A way to draw coordinates: whole numbers in which points meet and sides lie level, and
/// sizes from below the thresholds to a job's limit and a state's.
#[derive(Clone, Copy)]
struct Scale {
    size: f64,
    whole: bool,
}

fn scale(r: &mut Random) -> Scale {
    match r.below(8) {
        0 | 1 => Scale { size: 4.0, whole: true },
        2 => Scale { size: 1_000_000.0, whole: true },
        3 => Scale { size: 1_000_000.0, whole: false },
        4 => Scale { size: 1_000_000_000.0, whole: false },
        5 => Scale { size: r.pick(&[1e-12, 1e-9, 3e-9, 1e-6, 1e-160]), whole: false },
        _ => Scale { size: 1.0, whole: false },
    }
}

fn coordinate(r: &mut Random, s: Scale) -> f64 {
    let x = match r.below(20) {
        0 => s.size,
        1 => -s.size,
        2 => r.pick(&[0.0, -0.0]),
        _ => r.between(-s.size, s.size),
    };
    if s.whole { x.round() } else { x }
}

fn point(r: &mut Random, s: Scale) -> Point {
    [coordinate(r, s), coordinate(r, s)]
}

/// The next f64 above or below.
fn beside(r: &mut Random, x: f64) -> f64 {
    if r.chance(50) { x.next_up() } else { x.next_down() }
}

/// A ring of up to `most` points, now and then doubled or level with the one before.
fn ring(r: &mut Random, s: Scale, most: usize) -> Vec<f64> {
    let n = if r.chance(3) { r.below(3) } else { r.from_to(3.min(most), most) };
    let mut out: Vec<f64> = Vec::with_capacity(2 * n);
    for i in 0..n {
        let mut p = point(r, s);
        if i > 0 {
            let last = [out[2 * i - 2], out[2 * i - 1]];
            match r.below(10) {
                0 => p = last,
                1 | 2 => p[1] = last[1],
                3 => p[0] = last[0],
                4 => p = [beside(r, last[0]), last[1]],
                _ => {}
            }
        }
        out.extend_from_slice(&p);
    }
    out
}

/// A point on, near, level with or far from a side of some coordinates, and which.
fn seeker(r: &mut Random, s: Scale, coords: &[f64]) -> (Point, &'static str) {
    let n = coords.len() / 2;
    if n == 0 {
        return (point(r, s), "anywhere");
    }
    let i = r.below(n);
    let j = if r.chance(80) { (i + 1) % n } else { r.below(n) };
    let a = [coords[2 * i], coords[2 * i + 1]];
    let b = [coords[2 * j], coords[2 * j + 1]];
    let any = r.unit();
    let t = r.pick(&[0.0, 0.25, 0.5, 0.75, any]);
    let on = [a[0] + t * (b[0] - a[0]), a[1] + t * (b[1] - a[1])];
    match r.below(8) {
        0 => (a, "on a vertex"),
        1 => (on, "on a side"),
        2 => ([beside(r, on[0]), on[1]], "near a side"),
        3 => ([on[0], beside(r, on[1])], "near a side"),
        4 => ([coordinate(r, s), a[1]], "level with a vertex"),
        5 => {
            let far = Scale { size: 1_000_000_000.0, whole: false };
            (point(r, far), "far")
        }
        _ => (point(r, s), "anywhere"),
    }
}

/// Four points that may coincide, lie in a line, or make a good quad.
fn four(r: &mut Random, s: Scale) -> [Point; 4] {
    let mut q = [point(r, s), point(r, s), point(r, s), point(r, s)];
    match r.below(8) {
        0 => q[r.below(4)] = q[r.below(4)],
        1 => {
            let (i, j) = (r.below(4), r.below(4));
            q[i][1] = q[j][1];
        }
        2 => {
            let t = r.unit();
            q[2] = [q[0][0] + t * (q[1][0] - q[0][0]), q[0][1] + t * (q[1][1] - q[0][1])];
        }
        3 | 4 | 5 => {
            // near a rectangle, so that corner values lie on both sides of the limit
            let (w, h) = (s.size * r.unit(), s.size * r.unit());
            let lean = r.pick(&[0.0, 1.0, 5.0, 11.0, 11.43, 12.0]) * h;
            let o = point(r, s);
            q = [o, [o[0] + w, o[1]], [o[0] + w + lean, o[1] + h], [o[0] + lean, o[1] + h]];
            if r.chance(20) {
                q.reverse();
            }
        }
        _ => {}
    }
    q
}

fn job_of(xy: &[f64], lengths: &[u16]) -> Job {
    let lengths = lengths.iter().map(|&n| n as usize).collect();
    Job { xy: xy.to_vec(), lengths, h: 1.0, options: default_options() }
}

fn pairs(coords: &[f64]) -> Vec<Point> {
    coords.chunks_exact(2).map(|p| [p[0], p[1]]).collect()
}

/// An outline of up to 16 loops.
fn outline(r: &mut Random, s: Scale) -> (Vec<f64>, Vec<u16>) {
    let loops = match r.below(8) {
        0 => r.below(17),
        1..=4 => 1,
        _ => r.from_to(1, 4),
    };
    let (mut coords, mut lengths) = (Vec::new(), Vec::new());
    for _ in 0..loops {
        let part = ring(r, s, 8);
        lengths.push((part.len() / 2) as u16);
        coords.extend(part);
    }
    (coords, lengths)
}

/// Points and a front over them.
fn front(r: &mut Random, s: Scale) -> (Vec<f64>, Vec<u16>) {
    let points = ring(r, s, 14);
    let n = points.len() / 2;
    let most = if r.chance(25) { 40 } else { 12 };
    let nodes = if n == 0 { 0 } else { r.from_to(0, most) };
    let nodes = (0..nodes).map(|_| r.below(n) as u16).collect();
    (points, nodes)
}

/// COUNT calls of each function; the answer says whether all were equal.
pub fn run(seed: u64, count: u64) -> bool {
    type Calls = fn(&mut Random, &mut Tally);
    let all: [(&'static str, Calls); 17] = [
        ("side length", |r, t| {
            let s = scale(r);
            let a = point(r, s);
            let b = if r.chance(10) { a } else { point(r, s) };
            t.number(port::side_length(a, b), rust::segment_length(a, b), || bits(&[a, b].concat()));
        }),
        ("distance in paving", |r, t| {
            let s = scale(r);
            let [p, a, b] = side(r, s, t);
            t.number(port::segment_distance(1e-18, p, a, b), rust::paving_segment_distance(p, a, b), || bits(&[p, a, b].concat()));
        }),
        ("distance in the domain", |r, t| {
            let s = scale(r);
            let [p, a, b] = side(r, s, t);
            t.number(port::segment_distance(0.0, p, a, b), rust::domain_segment_distance(p, a, b), || bits(&[p, a, b].concat()));
        }),
        ("segments cross", |r, t| {
            let s = scale(r);
            let q = four(r, s);
            t.truth(port::segments_cross(q), rust::segments_cross(q[0], q[1], q[2], q[3]), || bits(&q.concat()));
        }),
        ("corner test", |r, t| {
            let s = scale(r);
            let q = four(r, s);
            t.truth(port::corners_pass(q), rust::quad_ok(q), || bits(&q.concat()));
        }),
        ("least corner", |r, t| {
            let s = scale(r);
            let q = four(r, s);
            // which of -0 and 0 is the least is left open by Rust: two zeros count as equal
            let one_zero = |x: f64| if x == 0.0 { 0.0 } else { x };
            t.number(one_zero(port::least_corner(q)), one_zero(rust::least_corner(q)), || bits(&q.concat()));
        }),
        ("area of a quad", |r, t| {
            let s = scale(r);
            let q = four(r, s);
            t.number(port::quad_area(q), rust::signed_quad_area(q), || bits(&q.concat()));
        }),
        ("area of a ring", |r, t| {
            let s = scale(r);
            let ring = ring(r, s, 12);
            t.number(port::signed_area(&ring), rust::signed_area(&pairs(&ring)), || bits(&ring));
        }),
        ("point in polygon", |r, t| {
            let s = scale(r);
            let ring = ring(r, s, 12);
            let (p, kind) = seeker(r, s, &ring);
            t.count(kind);
            t.truth(port::in_polygon(p, &ring), rust::point_in_polygon(p, &pairs(&ring)), || bits(&[&p[..], &ring].concat()));
        }),
        ("sharp at a place", |r, t| {
            let s = scale(r);
            let ring = ring(r, s, 12);
            let n = ring.len() / 2;
            let i = if r.chance(95) { r.below(n.max(1)) } else { r.pick(&[n, n + 1, usize::MAX]) };
            if i >= n {
                t.count("no such place");
            }
            let wanted = i < n && rust::sharp(&pairs(&ring), i);
            t.truth(port::sharp_at(&ring, i), wanted, || format!("{i} {}", bits(&ring)));
        }),
        ("area of the domain", |r, t| {
            let s = scale(r);
            let (xy, lengths) = outline(r, s);
            let wanted = rust::domain_area(&job_of(&xy, &lengths));
            t.number(port::domain_area(&xy, &lengths), wanted, || format!("{lengths:?} {}", bits(&xy)));
        }),
        ("domain contains", |r, t| {
            let s = scale(r);
            let (xy, lengths) = outline(r, s);
            let (p, kind) = seeker(r, s, &xy);
            t.count(kind);
            let wanted = rust::domain_contains(&job_of(&xy, &lengths), p);
            t.truth(port::contains(p, &xy, &lengths), wanted, || format!("{lengths:?} {}", bits(&[&p[..], &xy].concat())));
        }),
        ("distance to boundary", |r, t| {
            let s = scale(r);
            let (xy, lengths) = outline(r, s);
            let (p, kind) = seeker(r, s, &xy);
            t.count(kind);
            let wanted = rust::distance_to_boundary(&job_of(&xy, &lengths), p);
            t.number(port::distance_to_boundary(p, &xy, &lengths), wanted, || format!("{lengths:?} {}", bits(&[&p[..], &xy].concat())));
        }),
        ("length of a front", |r, t| {
            let s = scale(r);
            let (points, nodes) = front(r, s);
            let wide: Vec<usize> = nodes.iter().map(|&n| n as usize).collect();
            let wanted = rust::Front::new(&pairs(&points), &wide).length();
            t.number(port::front_length(&points, &nodes), wanted, || format!("{nodes:?} {}", bits(&points)));
        }),
        ("distance to a front", |r, t| {
            let s = scale(r);
            let (points, nodes) = front(r, s);
            let (p, kind) = seeker(r, s, &points);
            t.count(kind);
            let wide: Vec<usize> = nodes.iter().map(|&n| n as usize).collect();
            let wanted = rust::Front::new(&pairs(&points), &wide).distance(p);
            t.number(port::front_distance(p, &points, &nodes), wanted, || format!("{nodes:?} {}", bits(&[&p[..], &points].concat())));
        }),
        ("within a front", |r, t| {
            let s = scale(r);
            let (points, nodes) = front(r, s);
            let (p, kind) = seeker(r, s, &points);
            t.count(kind);
            let wide: Vec<usize> = nodes.iter().map(|&n| n as usize).collect();
            let wanted = rust::Front::new(&pairs(&points), &wide).contains(p);
            t.truth(port::in_front(p, &points, &nodes), wanted, || format!("{nodes:?} {}", bits(&[&p[..], &points].concat())));
        }),
        ("numbers that do not fit", |r, t| unfit(r, t)),
    ];
    let mut good = true;
    let (mut calls, mut differ) = (0, 0);
    for (k, (name, call)) in all.into_iter().enumerate() {
        let r = &mut Random::new(seed, k as u64);
        let mut tally = Tally::new(name);
        for _ in 0..count {
            call(r, &mut tally);
        }
        println!("{}", tally.line());
        good &= tally.differ == 0;
        calls += tally.calls;
        differ += tally.differ;
    }
    let mut tally = Tally::new("65,536 points or so");
    many_points(&mut tally);
    println!("{}", tally.line());
    good &= tally.differ == 0;
    calls += tally.calls;
    differ += tally.differ;
    println!("{calls} compared, {differ} differ");
    good
}

/// Fronts among about as many points as a u16 counts: node numbers up to the last point's, and the one behind it.
fn many_points(t: &mut Tally) {
    for n in 65_534..=65_537 {
        let points: Vec<f64> = (0..n * 2).map(|k| (k * k % 977) as f64 * 0.25).collect();
        let p = [120.0, 110.0];
        for length in [1, 4, 15, 16, 17, 33] {
            for at in [0, length - 1] {
                for greatest in [n - 2, n - 1, n] {
                    let Ok(greatest) = u16::try_from(greatest) else { continue };
                    let mut nodes: Vec<u16> = (0..length as u16).map(|k| k * 7).collect();
                    nodes[at] = greatest;
                    let input = || format!("{nodes:?} among {n} points");
                    if (greatest as usize) < n {
                        let wide: Vec<usize> = nodes.iter().map(|&n| n as usize).collect();
                        let front = rust::Front::new(&pairs(&points), &wide);
                        t.number(port::front_length(&points, &nodes), front.length(), input);
                        t.truth(port::in_front(p, &points, &nodes), front.contains(p), input);
                        t.number(port::front_distance(p, &points, &nodes), front.distance(p), input);
                    } else {
                        t.count("no such point");
                        t.number(port::front_length(&points, &nodes), f64::NAN, input);
                        t.truth(port::in_front(p, &points, &nodes), false, input);
                        t.number(port::front_distance(p, &points, &nodes), f64::NAN, input);
                    }
                }
            }
        }
    }
}

/// A side, now and then of no or nearly no length, and a point by it.
fn side(r: &mut Random, s: Scale, t: &mut Tally) -> [Point; 3] {
    let a = point(r, s);
    let b = match r.below(8) {
        0 => a,
        1 => [a[0] + r.pick(&[1e-9, 9.999999999999999e-10, 1.0000000000000002e-9, 1e-10, 5e-324]), a[1]],
        2 => [coordinate(r, s), a[1]],
        _ => point(r, s),
    };
    if a == b {
        t.count("side of no length");
    }
    let (p, kind) = seeker(r, s, &[a, b].concat());
    t.count(kind);
    [p, a, b]
}

/// Loop lengths and node numbers for which there are no points: NaN and false.
fn unfit(r: &mut Random, t: &mut Tally) {
    let s = scale(r);
    let p = point(r, s);
    if r.chance(50) {
        let (xy, mut lengths) = outline(r, s);
        let more = r.pick(&[1, 2, 65_535]);
        if lengths.is_empty() || r.chance(50) {
            lengths.push(more);
        } else {
            let i = r.below(lengths.len());
            lengths[i] = lengths[i].saturating_add(more);
        }
        let input = || format!("{lengths:?} {}", bits(&xy));
        t.number(port::domain_area(&xy, &lengths), f64::NAN, input);
        t.truth(port::contains(p, &xy, &lengths), false, input);
        t.number(port::distance_to_boundary(p, &xy, &lengths), f64::NAN, input);
    } else {
        let (mut points, mut nodes) = front(r, s);
        let at = r.below(nodes.len() + 1);
        nodes.insert(at, r.pick(&[(points.len() / 2) as u16, 65_535]));
        if r.chance(30) {
            points.push(1.0);
        }
        let input = || format!("{nodes:?} {}", bits(&points));
        t.number(port::front_length(&points, &nodes), f64::NAN, input);
        t.truth(port::in_front(p, &points, &nodes), false, input);
        t.number(port::front_distance(p, &points, &nodes), f64::NAN, input);
    }
}
