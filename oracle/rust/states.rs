//! States for single row, closing and fan calls, from a seed: what a job gives,
//! fronts made by hand, and damaged ones.

use crate::calls::{self, Buffers, Counts, Job};
use crate::generate::{on_circle, Random};

#[derive(Clone)]
pub struct State {
    pub buffers: Buffers,
    pub counts: Counts,
}

/// Numbers that earlier use might have left.
pub fn noise(r: &mut Random) -> Buffers {
    let mut b = Buffers::new();
    b.points.iter_mut().for_each(|x| *x = f64::from_bits(r.next()));
    for list in [&mut b.quads, &mut b.front_nodes, &mut b.front_lengths] {
        for four in list.chunks_mut(4) {
            let x = r.next();
            four.iter_mut().enumerate().for_each(|(k, place)| *place = (x >> (16 * k)) as u16);
        }
    }
    b
}

/// The front nodes of a state, as far as the buffer goes.
fn nodes_held(s: &State) -> usize {
    let nodes: usize = s.buffers.front_lengths[..s.counts.fronts].iter().map(|&n| n as usize).sum();
    nodes.min(calls::FRONT_NODES)
}

/// The state with noise beyond its counts, which no call may read.
pub fn with_noise(r: &mut Random, s: &State) -> State {
    let mut b = noise(r);
    let c = s.counts;
    let nodes = nodes_held(s);
    b.points[..2 * c.points].copy_from_slice(&s.buffers.points[..2 * c.points]);
    b.quads[..4 * c.quads].copy_from_slice(&s.buffers.quads[..4 * c.quads]);
    b.front_nodes[..nodes].copy_from_slice(&s.buffers.front_nodes[..nodes]);
    b.front_lengths[..c.fronts].copy_from_slice(&s.buffers.front_lengths[..c.fronts]);
    State { buffers: b, counts: c }
}

/// One of the buffers of another length.
pub fn shorten(r: &mut Random, b: &mut Buffers) {
    match r.below(5) {
        0 => drop(b.points.pop()),
        1 => drop(b.quads.pop()),
        2 => b.front_nodes.push(7),
        3 => b.front_lengths.clear(),
        _ => b.points.push(1.0),
    }
}

fn polygon(r: &mut Random, n: usize, centre: [f64; 2], radius: f64) -> Vec<[f64; 2]> {
    let rough = r.pick(&[0.0, 0.0, 0.05, 0.5]);
    let flat = r.pick(&[1.0, 1.0, 0.5, 0.1]);
    let mut points: Vec<[f64; 2]> = (0..n)
        .map(|k| {
            let p = on_circle(k as f64, n as f64);
            let s = radius * (1.0 - rough * r.unit());
            [centre[0] + s * p[0], centre[1] + flat * s * p[1]]
        })
        .collect();
    if r.chance(30) {
        points.reverse();
    }
    if r.chance(30) {
        points.iter_mut().for_each(|p| *p = [p[0].round(), p[1].round()]);
    }
    points
}

/// Fronts made by hand within the box of the job's outer loop.
pub fn by_hand(r: &mut Random, job: &Job) -> State {
    let outer = &job.xy[..2 * job.lengths[0]];
    let (mut low, mut high) = ([f64::INFINITY; 2], [f64::NEG_INFINITY; 2]);
    for p in outer.chunks_exact(2) {
        for k in 0..2 {
            low[k] = low[k].min(p[k]);
            high[k] = high[k].max(p[k]);
        }
    }
    let fronts = r.pick(&[1, 1, 1, 1, 2, 3, 16]);
    let mut s = State { buffers: Buffers::new(), counts: Counts { fronts, ..Counts::default() } };
    let mut at = 0;
    for f in 0..fronts {
        let n = r.pick(&[3, 4, 4, 5, 6, 6, 6, 7, 8, 10, 12, 20, 40]);
        let centre = [r.between(low[0], high[0]), r.between(low[1], high[1])];
        let radius = 0.5 * (high[0] - low[0]).min(high[1] - low[1]) * r.unit();
        let start = s.counts.points;
        for p in polygon(r, n, centre, radius) {
            s.buffers.points[2 * s.counts.points] = p[0];
            s.buffers.points[2 * s.counts.points + 1] = p[1];
            s.counts.points += 1;
        }
        for k in 0..n {
            s.buffers.front_nodes[at + k] = (start + k) as u16;
        }
        s.buffers.front_lengths[f] = n as u16;
        at += n;
    }
    s
}

/// Quads and points added until a limit of 4,096 is near.
pub fn fill_up(r: &mut Random, s: &mut State) {
    let short = r.below(60);
    if r.chance(50) {
        s.counts.points = s.counts.points.max(4_096 - short);
    }
    let quads = if s.counts.points > 3 { s.counts.quads.max(4_096 - r.below(60)) } else { s.counts.quads };
    for i in s.counts.quads..quads {
        for k in 0..4 {
            s.buffers.quads[4 * i + k] = r.below(s.counts.points) as u16;
        }
    }
    s.counts.core_quads += quads - s.counts.quads;
    s.counts.quads = quads;
}

/// One fault that number 25 is for, or a value just within.
pub fn damage(r: &mut Random, s: &mut State) {
    let c = &mut s.counts;
    let b = &mut s.buffers;
    let odd = [4_096, 4_097, 16, 17, 2_048, 65_535, usize::MAX, 0];
    let nodes: usize = b.front_lengths[..c.fronts].iter().map(|&n| n as usize).sum();
    match r.below(15) {
        0 => c.points = r.pick(&odd),
        1 => c.quads = r.pick(&odd),
        2 => c.fronts = r.pick(&odd),
        3 => c.row_quads = r.pick(&[usize::MAX, c.row_quads + 1, c.quads]),
        4 => c.core_quads = r.pick(&[usize::MAX, c.core_quads + 1, c.quads]),
        5 => c.row_rounds = r.pick(&[usize::MAX, c.row_quads / 6, c.row_quads / 6 + 1, usize::MAX / 6 + 2]),
        6 => c.laid = r.pick(&[usize::MAX, c.quads, c.quads + 1]),
        7 => c.passes = r.pick(&[usize::MAX, 65, 0]),
        8 if c.fronts > 0 => b.front_lengths[r.below(c.fronts)] = r.pick(&[0, 1, 2, 3, 4, 6, 2_048, 65_535]),
        9 if nodes > 0 => b.front_nodes[r.below(nodes)] = r.pick(&[0, 65_535, c.points as u16]),
        10 if nodes > 1 => b.front_nodes[r.below(nodes)] = b.front_nodes[r.below(nodes)],
        11 if c.quads > 0 => b.quads[r.below(4 * c.quads)] = r.pick(&[65_535, c.points as u16]),
        12 if c.points > 0 => {
            b.points[r.below(2 * c.points)] =
                r.pick(&[f64::NAN, f64::INFINITY, 1e9, 1_000_000_000.0000001, -1e9, -1e300, -0.0, 5e-324])
        }
        13 if nodes > 2 => {
            let (i, j) = (r.below(nodes), r.below(nodes));
            b.front_nodes.swap(i, j);
        }
        _ if c.points > 0 => {
            let (i, j) = (r.below(c.points), r.below(c.points));
            for k in 0..2 {
                b.points[2 * i + k] = b.points[2 * j + k];
            }
        }
        _ => c.laid = 1,
    }
}

/// A way to break a sound state, that number 25 names, or to go just as far as it allows.
type Way = (&'static str, fn(&mut Random, &mut Counts, &mut Buffers, usize));

const WAYS: [Way; 22] = [
    ("points over 4,096", |r, c, _, _| c.points = r.pick(&[4_097, 65_536, usize::MAX])),
    ("quads over 4,096", |r, c, _, _| {
        c.quads = r.pick(&[4_097, 65_536, usize::MAX]);
        c.core_quads = c.quads - c.row_quads;
    }),
    ("fronts over 16", |r, c, _, _| c.fronts = r.pick(&[17, 65_536, usize::MAX])),
    ("front nodes over 2,048", |r, c, b, _| {
        if c.fronts > 0 {
            b.front_lengths[r.below(c.fronts)] = r.pick(&[2_049, 65_535])
        }
    }),
    ("a front of 0 to 3 nodes", |r, c, b, _| {
        if c.fronts > 0 {
            b.front_lengths[c.fronts - 1] = r.below(4) as u16
        }
    }),
    ("a front node not below the points", |r, c, b, nodes| {
        if nodes > 0 {
            b.front_nodes[r.below(nodes)] = r.pick(&[c.points as u16, 65_535])
        }
    }),
    ("a quad's node not below the points", |r, c, b, _| {
        if c.quads > 0 {
            b.quads[r.below(4 * c.quads)] = r.pick(&[c.points as u16, 65_535])
        }
    }),
    ("fewer points than nodes", |r, c, _, _| c.points = r.below(c.points.max(1))),
    ("a front node repeated in its front", |r, c, b, _| {
        if c.fronts > 0 {
            let n = b.front_lengths[0] as usize;
            b.front_nodes[r.below(n)] = b.front_nodes[r.below(n)];
        }
    }),
    ("a front node repeated in two fronts", |r, c, b, nodes| {
        if c.fronts > 1 {
            let n = b.front_lengths[0] as usize;
            b.front_nodes[r.from_to(n, nodes - 1)] = b.front_nodes[r.below(n)];
        }
    }),
    ("a coordinate not finite", |r, c, b, _| {
        if c.points > 0 {
            b.points[r.below(2 * c.points)] = r.pick(&[f64::NAN, f64::INFINITY, f64::NEG_INFINITY])
        }
    }),
    ("a coordinate over 1,000,000,000", |r, c, b, _| {
        if c.points > 0 {
            b.points[r.below(2 * c.points)] = r.pick(&[1_000_000_000.0000001, -1_000_000_000.0000001, 1e300])
        }
    }),
    ("a coordinate of 1,000,000,000", |r, c, b, _| {
        if c.points > 0 {
            b.points[r.below(2 * c.points)] = r.pick(&[1e9, -1e9])
        }
    }),
    ("row_quads off", |r, c, _, _| c.row_quads = r.pick(&[c.row_quads + 1, usize::MAX])),
    ("core_quads off", |r, c, _, _| c.core_quads = r.pick(&[c.core_quads + 1, usize::MAX, c.quads.wrapping_sub(c.row_quads).wrapping_sub(1)])),
    ("row_quads and core_quads wrap to the quads", |_, c, _, _| {
        c.row_quads = usize::MAX;
        c.core_quads = c.quads + 1;
    }),
    ("quads fewer than their kinds", |_, c, _, _| c.quads = c.quads.saturating_sub(1)),
    ("laid over the quads", |r, c, _, _| c.laid = r.pick(&[c.quads + 1, usize::MAX])),
    ("laid as the quads", |_, c, _, _| c.laid = c.quads),
    ("six times row_rounds over row_quads", |r, c, _, _| {
        c.row_rounds = r.pick(&[c.row_quads / 6 + 1, usize::MAX, usize::MAX / 6 + 1])
    }),
    ("six times row_rounds as far as row_quads", |_, c, _, _| c.row_rounds = c.row_quads / 6),
    ("passes begun of any number", |r, c, _, _| c.passes = r.pick(&[usize::MAX, 65, 0])),
];

/// The state after one of the ways, and which.
pub fn one_fault(r: &mut Random, s: &State) -> (State, &'static str) {
    let mut s = s.clone();
    let nodes = nodes_held(&s);
    let (name, way) = WAYS[r.below(WAYS.len())];
    way(r, &mut s.counts, &mut s.buffers, nodes);
    (s, name)
}

/// A state to call on: of a job, by hand, near a limit, or damaged.
pub fn state(r: &mut Random, job: &Job, answer: &State) -> (State, &'static str) {
    let (mut s, mut kind) = (answer.clone(), "after a job");
    let can = !job.lengths.is_empty() && job.lengths[0] > 0 && 2 * job.lengths[0] <= job.xy.len();
    match r.below(10) {
        0..=2 if can => (s, kind) = (by_hand(r, job), "fronts by hand"),
        3..=5 => {
            let (n, counts) = calls::sample(job, &mut s.buffers);
            s.counts = counts;
            kind = if n == 0 { "sampled loops" } else { "after a job" };
        }
        _ => {}
    }
    if r.chance(5) {
        fill_up(r, &mut s);
        kind = "near a limit";
    }
    if r.chance(20) {
        damage(r, &mut s);
        kind = "damaged";
        return (s, kind);
    }
    (with_noise(r, &s), kind)
}
