//! The geometry's functions at outlines of 4, 64 and 1,024 points.

use crate::clock::{least, line};
use crate::port::{self, Point};
use oracle::calls::{default_options, Job};
use oracle::functions as rust;
use oracle::generate::{on_circle, Random};

/// So many that a stretch in which the machine is slow does not fill them.
const ROUNDS: usize = 100;

/// A rough disc of n points, its radius near 1,000.
fn disc(r: &mut Random, n: usize) -> Vec<f64> {
    (0..n)
        .flat_map(|k| {
            let p = on_circle(k as f64, n as f64);
            let s = r.between(900.0, 1_000.0);
            [s * p[0], s * p[1]]
        })
        .collect()
}

pub fn run() {
    let r = &mut Random::new(2, 0);
    let some: Vec<Point> = (0..4_096).map(|_| [r.between(-1_000.0, 1_000.0), r.between(-1_000.0, 1_000.0)]).collect();
    let at = |i: usize| some[i % 4_096];
    let quad = |i: usize| {
        let o = at(i);
        let w = 1.0 + (i % 7) as f64;
        [o, [o[0] + w, o[1]], [o[0] + w, o[1] + 3.0], [o[0] + 0.5, o[1] + 3.0]]
    };
    let few = 4_096;
    line("side length", least(ROUNDS, few, |i| port::side_length(at(i), at(i + 1)), |i| rust::segment_length(at(i), at(i + 1))));
    line(
        "distance to a side, in paving",
        least(ROUNDS, few, |i| port::segment_distance(1e-18, at(i), at(i + 1), at(i + 2)), |i| rust::paving_segment_distance(at(i), at(i + 1), at(i + 2))),
    );
    line(
        "distance to a side, in the domain",
        least(ROUNDS, few, |i| port::segment_distance(0.0, at(i), at(i + 1), at(i + 2)), |i| rust::domain_segment_distance(at(i), at(i + 1), at(i + 2))),
    );
    line(
        "segments cross",
        least(
            ROUNDS,
            few,
            |i| port::segments_cross([at(i), at(i + 1), at(i + 2), at(i + 3)]),
            |i| rust::segments_cross(at(i), at(i + 1), at(i + 2), at(i + 3)),
        ),
    );
    line("corner test, good quads", least(ROUNDS, few, |i| port::corners_pass(quad(i)), |i| rust::quad_ok(quad(i))));
    line("least corner", least(ROUNDS, few, |i| port::least_corner(quad(i)), |i| rust::least_corner(quad(i))));
    line("area of a quad", least(ROUNDS, few, |i| port::quad_area(quad(i)), |i| rust::signed_quad_area(quad(i))));
    for n in [4, 64, 1_024] {
        let coords = disc(r, n);
        let points: Vec<Point> = coords.chunks_exact(2).map(|p| [p[0], p[1]]).collect();
        let lengths = [n as u16];
        let job = Job { xy: coords.clone(), lengths: vec![n], h: 1.0, options: default_options() };
        let plate = rust::Plate::new(&job);
        let nodes: Vec<u16> = (0..n as u16).collect();
        let wide: Vec<usize> = (0..n).collect();
        let front = rust::Front::new(&points, &wide);
        let m = 400_000 / (n + 40);
        let name = |what: &str| format!("{what}, {n} points");
        line(&name("area of a ring"), least(ROUNDS, m, |_| port::signed_area(&coords), |_| rust::signed_area(&points)));
        line(&name("point in polygon"), least(ROUNDS, m, |i| port::in_polygon(at(i), &coords), |i| rust::point_in_polygon(at(i), &points)));
        line(&name("sharp at a place"), least(ROUNDS, m, |i| port::sharp_at(&coords, i % n), |i| rust::sharp(&points, i % n)));
        line(&name("area of the domain"), least(ROUNDS, m, |_| port::domain_area(&coords, &lengths), |_| plate.area()));
        line(&name("domain contains"), least(ROUNDS, m, |i| port::contains(at(i), &coords, &lengths), |i| plate.contains(at(i))));
        line(
            &name("distance to boundary"),
            least(ROUNDS, m, |i| port::distance_to_boundary(at(i), &coords, &lengths), |i| plate.distance_to_boundary(at(i))),
        );
        line(&name("length of a front"), least(ROUNDS, m, |_| port::front_length(&coords, &nodes), |_| front.length()));
        line(&name("distance to a front"), least(ROUNDS, m, |i| port::front_distance(at(i), &coords, &nodes), |i| front.distance(at(i))));
        line(&name("within a front"), least(ROUNDS, m, |i| port::in_front(at(i), &coords, &nodes), |i| front.contains(at(i))));
    }
}
