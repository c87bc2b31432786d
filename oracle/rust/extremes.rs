//! Jobs at the limits: by name, each with what it has to reach, and from a seed.

use crate::calls::{self, default_options, Buffers, Counts, Job};
use crate::functions::{Front, Point};
use crate::generate::{corner_limit, on_circle, Made, Random};
use crate::limits::{MAX_LOOPS, MAX_PAIRS, MAX_PASSES, MAX_PLANNED, MAX_POINTS};
use crate::states::State;

type Loop = Vec<Point>;

fn job_of(loops: Vec<Loop>, h: f64) -> Job {
    let lengths = loops.iter().map(Vec::len).collect();
    Job { xy: loops.into_iter().flatten().flatten().collect(), lengths, h, options: default_options() }
}

fn square(x: f64, y: f64, side: f64) -> Loop {
    vec![[x, y], [x + side, y], [x + side, y + side], [x, y + side]]
}

fn ring(n: usize, radius: f64) -> Loop {
    (0..n).map(|k| on_circle(k as f64, n as f64)).map(|p| [radius * p[0], radius * p[1]]).collect()
}

fn whole(mut loops: Vec<Loop>) -> Vec<Loop> {
    loops.iter_mut().flatten().for_each(|p| *p = [p[0].round(), p[1].round()]);
    loops
}

/// The polygon of `corners` sharp corners whose sides each get `inner` inner points, a size apart and in the middle.
fn cornered(corners: usize, inner: usize, radius: f64, h: f64) -> Job {
    let points = ring(corners, radius * h);
    let side = crate::functions::segment_length(points[0], points[1]) / h;
    let mut job = job_of(vec![points], h);
    job.options.corner_margin = (0.5 * (side - inner as f64)).clamp(0.0, 100.0);
    job
}

/// A square plate with `holes` square holes on a grid of four by four.
fn holed(holes: usize, pitch: f64, hole: f64, h: f64) -> Job {
    let mut loops = vec![square(0.0, 0.0, 4.0 * pitch)];
    for k in 0..holes {
        let at = |i: usize| i as f64 * pitch + 0.5 * (pitch - hole);
        loops.push(square(at(k % 4), at(k / 4), hole));
    }
    job_of(loops, h)
}

fn with(mut job: Job, change: impl Fn(&mut Job)) -> Job {
    change(&mut job);
    job
}

/// What both calls gave: the sampled state, the number and the answer.
pub struct Reached<'a> {
    pub sampled: &'a State,
    pub number: u8,
    pub answer: &'a State,
}

impl Reached<'_> {
    fn counts(&self) -> Counts {
        self.answer.counts
    }

    /// Sampled fronts whose computed lengths are equal to another's.
    pub fn of_equal_length(&self) -> usize {
        equal_lengths(self.sampled)
    }
}

/// Fronts of a state whose computed lengths are equal to another's.
pub fn equal_lengths(s: &State) -> usize {
    let points: Vec<Point> = (0..s.counts.points).map(|i| s.buffers.point(i)).collect();
    let lengths: Vec<f64> = s.buffers.fronts(&s.counts).iter().map(|front| Front::new(&points, front).length()).collect();
    lengths.iter().filter(|a| lengths.iter().filter(|b| a == b).count() > 1).count()
}

pub struct Named {
    pub name: &'static str,
    pub job: Job,
    pub reached: fn(&Reached) -> bool,
}

/// The jobs by name.
///
/// No job reaches 21 by its closings. With S sampled nodes, rows leave at most 4,096 points and so at most 4,096 - S quads; a
/// front has as many nodes as its sampled loop, and closing it adds one quad for four nodes or two for six, in all at most
/// S / 3. So only the call for closings is refused so (`closing_states`).
pub fn named() -> Vec<Named> {
    let disc = |n: usize, radius: f64| job_of(whole(vec![ring(n, radius)]), 1_000.0);
    let large = job_of(vec![square(0.0, 0.0, 515_800.0)], 1_000.0);
    let strip = |pairs: usize| {
        // two rows of points so near to each other that none come between
        let half = pairs / 2;
        let mut points: Loop = (0..half).map(|k| [400.0 * k as f64, 0.0]).collect();
        points.extend((0..pairs - half).rev().map(|k| [400.0 * k as f64, 5_000.0]));
        job_of(vec![points], 1_000.0)
    };
    vec![
        Named { name: "21 by rows, disc of 200 points", job: disc(200, 32_000.0), reached: |r| r.number == 21 },
        Named {
            name: "64 passes, a row on each",
            job: with(cornered(6, 0, 100.0, 1_000.0), |job| job.options.max_row_rounds = 64),
            reached: |r| r.number == 0 && r.counts().passes == MAX_PASSES && r.counts().row_rounds == MAX_PASSES && r.counts().points == 6 * 65,
        },
        Named {
            name: "64 passes, the last lays no row",
            job: with(cornered(6, 0, 89.0, 1_000.0), |job| job.options.max_row_rounds = 64),
            reached: |r| r.number == 0 && r.counts().passes == MAX_PASSES && r.counts().row_rounds == MAX_PASSES - 1,
        },
        Named {
            name: "31 rows on 128 nodes: 4,096 points",
            job: with(cornered(8, 15, 188.0, 1_000.0), |job| job.options.max_row_rounds = 31),
            reached: |r| r.number == 0 && r.sampled.counts.points == 128 && r.counts().points == MAX_POINTS && r.counts().row_rounds == 31,
        },
        Named {
            name: "15 rows on 256 nodes: 4,096 points",
            job: with(cornered(8, 31, 70.0, 1_000.0), |job| job.options.max_row_rounds = 15),
            reached: |r| r.number == 0 && r.sampled.counts.points == 256 && r.counts().points == MAX_POINTS && r.counts().row_rounds == 15,
        },
        Named {
            name: "21 by the 16th row on 256 nodes",
            job: cornered(8, 31, 70.0, 1_000.0),
            reached: |r| r.number == 21,
        },
        Named {
            name: "2,048 sampled nodes, no pass",
            job: with(large.clone(), |job| job.options.max_row_rounds = 0),
            reached: |r| r.number == 0 && r.counts().points == MAX_PLANNED && r.counts().passes == 0,
        },
        Named {
            name: "2,048 sampled nodes and a row: 4,096 points",
            job: with(large.clone(), |job| job.options.max_row_rounds = 1),
            reached: |r| r.number == 0 && r.counts().points == MAX_POINTS && r.counts().quads == MAX_PLANNED,
        },
        Named { name: "2,048 sampled nodes, 21 by the second row", job: large.clone(), reached: |r| r.number == 21 },
        Named {
            name: "2,050 nodes planned: 10",
            job: job_of(vec![square(0.0, 0.0, 515_900.0), square(-1_000.0, -1_000.0, 3.0)], 1_000.0),
            reached: |r| r.number == 10,
        },
        Named {
            name: "2,048 pairs",
            job: strip(MAX_PAIRS),
            reached: |r| r.number == 0 && r.counts().points == MAX_PAIRS,
        },
        Named { name: "2,049 pairs: 1", job: strip(MAX_PAIRS + 1), reached: |r| r.number == 1 },
        Named {
            name: "16 loops, rows on all",
            job: holed(15, 20_000.0, 10_000.0, 1_000.0),
            reached: |r| r.number == 0 && r.sampled.counts.fronts == MAX_LOOPS && r.counts().row_rounds >= MAX_LOOPS,
        },
        Named {
            name: "16 loops of 128 nodes, 2,048 in all, a row on each: 4,096 points",
            job: with(holed(15, 12_000.0, 8_000.0, 500.0), |job| {
                // 31 inner points on each side of the outline, as many as a hole has by its points
                job.options.corner_margin = 0.5 * (48_000.0 - 31.0 * 500.0) / 500.0;
                let around: Loop = job.xy[8..].chunks_exact(8).flat_map(|hole| divided(hole, 32)).collect();
                let outline = job.xy[..8].to_vec();
                job.xy = outline.into_iter().chain(around.into_iter().flatten()).collect();
                job.lengths = std::iter::once(4).chain([128; 15]).collect();
                job.options.max_row_rounds = 1;
            }),
            reached: |r| {
                let (sampled, c) = (r.sampled.counts, r.counts());
                r.number == 0 && sampled.fronts == MAX_LOOPS && sampled.points == MAX_PLANNED && c.points == MAX_POINTS && c.row_rounds == MAX_LOOPS
            },
        },
        Named { name: "17 loops: 1", job: holed(16, 20_000.0, 10_000.0, 1_000.0), reached: |r| r.number == 1 },
        Named {
            name: "two fronts of equal length",
            job: job_of(vec![vec![[0.0, 0.0], [40_000.0, 0.0], [40_000.0, 20_000.0], [0.0, 20_000.0]], square(5_000.0, 5_000.0, 10_000.0), square(25_000.0, 5_000.0, 10_000.0)], 1_000.0),
            reached: |r| r.number == 0 && r.of_equal_length() == 2 && r.counts().row_rounds > 2,
        },
        Named {
            name: "15 fronts of equal length",
            job: holed(15, 25_000.0, 11_000.0, 1_000.0),
            reached: |r| r.number == 0 && r.of_equal_length() == 15 && r.counts().row_rounds >= 15,
        },
        Named {
            name: "a front of six closed after 64 passes",
            job: with(cornered(6, 0, 92.0, 1_000.0), |job| job.options.max_row_rounds = 64),
            reached: |r| r.number == 0 && r.counts().laid == 6 * 64 && r.counts().quads == 6 * 64 + 2 && r.counts().fronts == 0,
        },
        Named {
            name: "4,096 points and a front of four closed",
            job: with(job_of(vec![square(0.0, 0.0, 514_800.0), square(250_000.0, 250_000.0, 3_000.0)], 1_000.0), |job| job.options.max_row_rounds = 1),
            reached: |r| r.number == 0 && r.counts().points >= MAX_POINTS - 8 && r.counts().quads == r.counts().laid + 1 && r.counts().fronts == 1,
        },
    ]
}

/// The sides of a square each in `parts`, all round.
fn divided(square: &[f64], parts: usize) -> Loop {
    let corner = |i: usize| [square[2 * (i % 4)], square[2 * (i % 4) + 1]];
    let mut out = Vec::new();
    for i in 0..4 {
        let (a, b) = (corner(i), corner(i + 1));
        for k in 0..parts {
            let t = k as f64 / parts as f64;
            out.push([a[0] + t * (b[0] - a[0]), a[1] + t * (b[1] - a[1])]);
        }
    }
    out
}

/// A state for a single closing call at the limit of quads, and the number that it has to get.
pub struct AtLimit {
    pub name: &'static str,
    pub job: Job,
    pub state: State,
    pub number: u8,
}

/// Closings that just fit and that do not: a front of six or four nodes, or one that no closing passes, and so many quads.
pub fn closing_states() -> Vec<AtLimit> {
    let six = vec![[0.0, 0.0], [1.0, 0.0], [2.0, 0.0], [2.0, 1.0], [1.0, 1.0], [0.0, 1.0]];
    let four = square(0.0, 0.0, 1.0);
    let flat = vec![[0.0, 0.0], [1.0, 0.0], [2.0, 0.0], [3.0, 0.0]];
    let cases: [(&str, &Loop, usize, u8); 6] = [
        ("closings, six nodes and 4,094 quads", &six, 4_094, 0),
        ("closings, six nodes and 4,095 quads: 21", &six, 4_095, 21),
        ("closings, six nodes and 4,096 quads: 21", &six, 4_096, 21),
        ("closings, four nodes and 4,095 quads", &four, 4_095, 0),
        ("closings, four nodes and 4,096 quads: 21", &four, 4_096, 21),
        ("closings, four nodes in a line and 4,096 quads", &flat, 4_096, 0),
    ];
    cases
        .into_iter()
        .map(|(name, front, quads, number)| {
            let mut buffers = Buffers::new();
            for (i, p) in front.iter().enumerate() {
                buffers.points[2 * i..2 * i + 2].copy_from_slice(p);
                buffers.front_nodes[i] = i as u16;
            }
            buffers.front_lengths[0] = front.len() as u16;
            let counts = Counts { points: front.len(), quads, fronts: 1, core_quads: quads, ..Counts::default() };
            AtLimit { name, job: job_of(vec![square(-5.0, -5.0, 10.0)], 1.0), state: State { buffers, counts }, number }
        })
        .collect()
}

/// The sampled nodes of a job as it stands, 0 when it is refused.
fn sampled(job: &Job) -> usize {
    calls::sample_only(&calls::domain_of(job), job.h, &job.options).unwrap_or(0)
}

/// As many passes as 4,096 points allow on so many nodes, one less or one more.
fn to_the_last_row(r: &mut Random, job: &mut Job) {
    let rows = MAX_POINTS / sampled(job).max(1);
    job.options.max_row_rounds = (rows.max(1) - 1 + r.pick(&[0, 0, 1, 2])).saturating_sub(r.below(2)).min(MAX_PASSES);
}

/// The size brought near the least that samples without 10: up to 2,048 nodes or just over.
fn to_the_last_node(r: &mut Random, job: &mut Job, round: f64) {
    let (mut low, mut high) = (round / 6_000.0, round / 500.0);
    for _ in 0..24 {
        job.h = 0.5 * (low + high);
        if sampled(job) == 0 { low = job.h } else { high = job.h }
    }
    job.h = if r.chance(85) { high } else { low };
}

fn round_of(job: &Job) -> f64 {
    let mut pairs = job.xy.chunks_exact(2).map(|p| [p[0], p[1]]);
    let loops: Vec<Loop> = job.lengths.iter().map(|&n| pairs.by_ref().take(n).collect()).collect();
    loops.iter().map(|l| (0..l.len()).map(|i| crate::functions::segment_length(l[i], l[(i + 1) % l.len()])).sum::<f64>()).sum()
}

/// Job `index` of a seed, near one limit or two.
pub fn near(seed: u64, index: u64) -> Made {
    let r = &mut Random::new(seed ^ 0x11117, index);
    let h = r.pick(&[0.001, 1.0, 8.0, 125.0, 1_000.0, 999.5]);
    let (change, mut job) = match r.below(20) {
        0..=4 => {
            // the polygon is used up after about so many rows
            let corners = r.from_to(6, 11);
            let rows = r.from_to(60, 66) as f64;
            let mut job = cornered(corners, r.below(3), 1.41 * rows + r.between(0.0, 8.0), h);
            job.options.max_row_rounds = r.pick(&[62, 63, 64, 64, 64]);
            ("64 passes", job)
        }
        5..=10 => {
            let corners = r.from_to(6, 11);
            let inner = r.from_to(5, 40);
            let rows = MAX_POINTS / (corners * (inner + 1));
            let mut job = cornered(corners, inner, 1.45 * rows as f64 + inner as f64, h);
            to_the_last_row(r, &mut job);
            ("4,096 points, corners", job)
        }
        11..=14 => {
            let n = r.from_to(3, 90);
            let mut job = job_of(vec![ring(n, h * r.between(20.0, 60.0))], h);
            to_the_last_row(r, &mut job);
            ("4,096 points, discs", job)
        }
        15 | 16 => {
            let loops = match r.below(3) {
                0 => vec![square(0.0, 0.0, 1_000.0)],
                1 => vec![ring(r.from_to(3, 60), 1_000.0)],
                _ => vec![ring(r.from_to(3, 60), 1_000.0), ring(r.from_to(3, 60), 400.0)],
            };
            let mut job = job_of(loops, 1.0);
            let round = round_of(&job);
            to_the_last_node(r, &mut job, round);
            job.options.max_row_rounds = r.below(3);
            ("2,048 nodes", job)
        }
        17 => {
            let holes = r.from_to(14, 16);
            let mut job = holed(holes, 100.0, r.between(20.0, 95.0), 1.0);
            job.h = round_of(&job) / r.between(50.0, 600.0);
            job.options.max_row_rounds = r.from_to(0, 64);
            ("16 loops", job)
        }
        18 => {
            let n = r.from_to(MAX_PAIRS - 4, MAX_PAIRS + 1);
            let radius = r.between(200.0, 2_000.0);
            let mut job = job_of(vec![ring(n, h * radius)], h);
            job.options.max_row_rounds = r.below(3);
            ("2,048 pairs", job)
        }
        _ => {
            let mut job = holed(15, 100.0, r.between(20.0, 60.0), 1.0);
            job.h = round_of(&job) / r.between(700.0, 2_000.0);
            to_the_last_row(r, &mut job);
            ("16 loops, 4,096 points", job)
        }
    };
    if r.chance(30) {
        job.options.front_gap = r.pick(&[0.0, 1.0, 100.0]);
    }
    if r.chance(20) {
        job.options.min_edge_fraction = r.pick(&[0.0, 0.5]);
    }
    job.options.corner_limit = corner_limit(r);
    Made { job, shape: "near a limit", change }
}
