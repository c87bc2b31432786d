//! Single functions of the Rust, open to a comparison one by one.

use crate::calls::{domain_of, Job};
use crate::cut::{alt_paving as rust, two_d};
use crate::quality;

pub type Point = [f64; 2];

pub fn sqrt(x: f64) -> f64 {
    x.sqrt()
}

pub fn min(a: f64, b: f64) -> f64 {
    a.min(b)
}

pub fn max(a: f64, b: f64) -> f64 {
    a.max(b)
}

pub fn clamp(x: f64, least: f64, most: f64) -> f64 {
    x.clamp(least, most)
}

/// Rounded half away from zero.
pub fn round(x: f64) -> f64 {
    x.round()
}

/// Rounded half away from zero, as a number of inner points.
pub fn round_as_usize(x: f64) -> usize {
    x.round() as usize
}

/// The length of a side as sampling and front length take it.
pub fn segment_length(a: Point, b: Point) -> f64 {
    ((b[0] - a[0]).powi(2) + (b[1] - a[1]).powi(2)).sqrt()
}

pub fn signed_area(points: &[Point]) -> f64 {
    rust::signed_area(points)
}

/// Sharp at place i of a loop (`turn_at` with the first measure).
pub fn sharp(points: &[Point], i: usize) -> bool {
    rust::turn_at(points, i)
}

pub fn project(prev: Point, cur: Point, next: Point, h: f64) -> Option<Point> {
    rust::project(prev, cur, next, h, true)
}

pub fn segments_cross(a: Point, b: Point, c: Point, d: Point) -> bool {
    rust::segments_cross(a, b, c, d)
}

pub fn loop_is_simple(points: &[Point]) -> bool {
    let nodes: Vec<[f64; 3]> = points.iter().map(|p| [p[0], p[1], 0.0]).collect();
    let ids: Vec<usize> = (0..points.len()).collect();
    rust::loop_is_simple(&nodes, &ids)
}

/// The paving's own: a side with squared length up to 1e-18 is a point.
pub fn paving_segment_distance(p: Point, a: Point, b: Point) -> f64 {
    rust::point_segment_distance(p, a, b)
}

/// The domain's: a side with squared length 0 is a point.
pub fn domain_segment_distance(p: Point, a: Point, b: Point) -> f64 {
    two_d::point_segment_distance(p, a, b)
}

pub fn point_in_polygon(p: Point, polygon: &[Point]) -> bool {
    two_d::point_in_polygon(p, polygon)
}

pub fn domain_area(job: &Job) -> f64 {
    domain_of(job).area()
}

/// What `Domain::new` says to the job's loops.
pub fn domain_new(job: &Job) -> String {
    let given = domain_of(job);
    match two_d::Domain::new(given.outer, given.holes) {
        Ok(_) => "done".to_string(),
        Err(why) => format!("refused\t{why:?}"),
    }
}

pub fn domain_contains(job: &Job, p: Point) -> bool {
    domain_of(job).contains(p)
}

pub fn distance_to_boundary(job: &Job, p: Point) -> f64 {
    domain_of(job).distance_to_boundary(p)
}

/// A plate's outline, ready for many calls.
pub struct Plate(two_d::Domain);

impl Plate {
    pub fn new(job: &Job) -> Plate {
        Plate(domain_of(job))
    }
    pub fn area(&self) -> f64 {
        self.0.area()
    }
    pub fn contains(&self, p: Point) -> bool {
        self.0.contains(p)
    }
    pub fn distance_to_boundary(&self, p: Point) -> f64 {
        self.0.distance_to_boundary(p)
    }
}

/// One front and its points, ready for many calls.
pub struct Front(rust::Paving);

impl Front {
    pub fn new(points: &[Point], nodes: &[usize]) -> Front {
        Front(rust::Paving {
            points: points.iter().map(|p| [p[0], p[1], 0.0]).collect(),
            fixed: vec![false; points.len()],
            loops: vec![nodes.to_vec()],
            quads: Vec::new(),
            row_quads: 0,
            core_quads: 0,
            row_rounds: 0,
            seam_rows: 0,
        })
    }
    pub fn length(&self) -> f64 {
        rust::front_length(&self.0, 0)
    }
    /// `distance_to_fronts` goes over one front as `loop_distance` does.
    pub fn distance(&self, p: Point) -> f64 {
        rust::loop_distance(&self.0, p, 0)
    }
    pub fn contains(&self, p: Point) -> bool {
        rust::point_in_loops(&self.0, p)
    }
}

/// The least corner value, as the closing of six nodes folds them.
pub fn least_corner(q: [Point; 4]) -> f64 {
    quality::corner_values(q).into_iter().fold(f64::INFINITY, f64::min)
}

pub fn corner_values(q: [Point; 4]) -> [f64; 4] {
    quality::corner_values(q)
}

/// The corner test with the default limit.
pub fn quad_ok(q: [Point; 4]) -> bool {
    quad_passes(q, quality::CORNER_LIMIT)
}

/// The corner test with a limit.
pub fn quad_passes(q: [Point; 4], limit: f64) -> bool {
    let points = q.map(|p| [p[0], p[1], 0.0]);
    rust::quad_ok(&points, [0, 1, 2, 3], limit)
}

pub fn signed_quad_area(q: [Point; 4]) -> f64 {
    let points = q.map(|p| [p[0], p[1], 0.0]);
    rust::signed_quad_area(&points, [0, 1, 2, 3])
}

/// One loop sampled: its nodes, or the error text.
pub fn sample_loop(points: &[Point], h: f64, ccw: bool, options: &crate::Options) -> Result<Vec<Point>, String> {
    crate::limits::begin(crate::limits::Until::End);
    rust::sample_loop(points, h, ccw, options)
}
