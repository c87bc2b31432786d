//! The port's calls, from the static libraries that tools/build makes of the crates exports*.
//! A slice goes over as its address and its length.

pub mod calls {
    extern "C" {
        pub fn pave_root(x: f64) -> f64;
        pub fn pave_side_length(ax: f64, ay: f64, bx: f64, by: f64) -> f64;
        pub fn pave_segment_distance(short: f64, x: f64, y: f64, ax: f64, ay: f64, bx: f64, by: f64) -> f64;
        pub fn pave_segments_cross(ax: f64, ay: f64, bx: f64, by: f64, cx: f64, cy: f64, dx: f64, dy: f64) -> bool;
        pub fn pave_corners_pass(ax: f64, ay: f64, bx: f64, by: f64, cx: f64, cy: f64, dx: f64, dy: f64) -> bool;
        pub fn pave_least_corner(ax: f64, ay: f64, bx: f64, by: f64, cx: f64, cy: f64, dx: f64, dy: f64) -> f64;
        pub fn pave_quad_area(ax: f64, ay: f64, bx: f64, by: f64, cx: f64, cy: f64, dx: f64, dy: f64) -> f64;
        pub fn pave_signed_area(points: *const f64, n: usize) -> f64;
        pub fn pave_in_polygon(x: f64, y: f64, points: *const f64, n: usize) -> bool;
        pub fn pave_sharp_at(points: *const f64, n: usize, i: usize) -> bool;
        pub fn pave_domain_area(coords: *const f64, n: usize, lengths: *const u16, loops: usize) -> f64;
        pub fn pave_contains(x: f64, y: f64, coords: *const f64, n: usize, lengths: *const u16, loops: usize) -> bool;
        pub fn pave_distance_to_boundary(x: f64, y: f64, coords: *const f64, n: usize, lengths: *const u16, loops: usize) -> f64;
        pub fn pave_front_length(points: *const f64, n: usize, nodes: *const u16, m: usize) -> f64;
        pub fn pave_front_distance(x: f64, y: f64, points: *const f64, n: usize, nodes: *const u16, m: usize) -> f64;
        pub fn pave_sample(
            coords: *const f64, n: usize, lengths: *const u16, loops: usize, h: f64, corner_margin: f64, min_edge_fraction: f64,
            front_gap: f64, max_row_rounds: u64, seam: bool, corner_limit: f64, points: *mut f64, np: usize, quads: *mut u16, nq: usize,
            front_nodes: *mut u16, nn: usize, front_lengths: *mut u16, nl: usize, counts: *mut u64, nc: usize,
        ) -> u32;
        pub fn pave_job(
            coords: *const f64, n: usize, lengths: *const u16, loops: usize, h: f64, corner_margin: f64, min_edge_fraction: f64,
            front_gap: f64, max_row_rounds: u64, seam: bool, corner_limit: f64, points: *mut f64, np: usize, quads: *mut u16, nq: usize,
            front_nodes: *mut u16, nn: usize, front_lengths: *mut u16, nl: usize, counts: *mut u64, nc: usize,
        ) -> u32;
        pub fn pave_row(
            coords: *const f64, n: usize, lengths: *const u16, loops: usize, h: f64, corner_margin: f64, min_edge_fraction: f64,
            front_gap: f64, max_row_rounds: u64, seam: bool, corner_limit: f64, front: u64, points: *mut f64, np: usize,
            quads: *mut u16, nq: usize, front_nodes: *mut u16, nn: usize, front_lengths: *mut u16, nl: usize, counts: *mut u64, nc: usize,
        ) -> u32;
        pub fn pave_close(
            coords: *const f64, n: usize, lengths: *const u16, loops: usize, h: f64, corner_margin: f64, min_edge_fraction: f64,
            front_gap: f64, max_row_rounds: u64, seam: bool, corner_limit: f64, points: *mut f64, np: usize, quads: *mut u16, nq: usize,
            front_nodes: *mut u16, nn: usize, front_lengths: *mut u16, nl: usize, counts: *mut u64, nc: usize,
        ) -> u32;
        pub fn pave_fan(
            coords: *const f64, n: usize, lengths: *const u16, loops: usize, h: f64, corner_margin: f64, min_edge_fraction: f64,
            front_gap: f64, max_row_rounds: u64, seam: bool, corner_limit: f64, points: *mut f64, np: usize, quads: *mut u16, nq: usize,
            front_nodes: *mut u16, nn: usize, front_lengths: *mut u16, nl: usize, counts: *mut u64, nc: usize,
        ) -> u32;
        pub fn pave_in_front(x: f64, y: f64, points: *const f64, n: usize, nodes: *const u16, m: usize) -> bool;
    }
}

use oracle::calls::{Buffers, Job};
use oracle::Options;

pub type Point = [f64; 2];

/// A job as the calls take it.
pub struct PortJob<'a> {
    pub coords: &'a [f64],
    pub lengths: &'a [u16],
    pub h: f64,
    pub options: Options,
}

/// The oracle's job with the loop lengths as the calls take them.
pub fn port_job<'a>(job: &'a Job, lengths: &'a [u16]) -> PortJob<'a> {
    PortJob { coords: &job.xy, lengths, h: job.h, options: job.options }
}

pub fn lengths_of(job: &Job) -> Vec<u16> {
    job.lengths.iter().map(|&n| n as u16).collect()
}

// No call requires anything: each takes every number and every slice.

pub fn root(x: f64) -> f64 {
    unsafe { calls::pave_root(x) }
}

pub fn side_length(a: Point, b: Point) -> f64 {
    unsafe { calls::pave_side_length(a[0], a[1], b[0], b[1]) }
}

pub fn segment_distance(short: f64, p: Point, a: Point, b: Point) -> f64 {
    unsafe { calls::pave_segment_distance(short, p[0], p[1], a[0], a[1], b[0], b[1]) }
}

pub fn segments_cross(q: [Point; 4]) -> bool {
    unsafe { calls::pave_segments_cross(q[0][0], q[0][1], q[1][0], q[1][1], q[2][0], q[2][1], q[3][0], q[3][1]) }
}

pub fn corners_pass(q: [Point; 4]) -> bool {
    unsafe { calls::pave_corners_pass(q[0][0], q[0][1], q[1][0], q[1][1], q[2][0], q[2][1], q[3][0], q[3][1]) }
}

pub fn least_corner(q: [Point; 4]) -> f64 {
    unsafe { calls::pave_least_corner(q[0][0], q[0][1], q[1][0], q[1][1], q[2][0], q[2][1], q[3][0], q[3][1]) }
}

pub fn quad_area(q: [Point; 4]) -> f64 {
    unsafe { calls::pave_quad_area(q[0][0], q[0][1], q[1][0], q[1][1], q[2][0], q[2][1], q[3][0], q[3][1]) }
}

pub fn signed_area(points: &[f64]) -> f64 {
    unsafe { calls::pave_signed_area(points.as_ptr(), points.len()) }
}

pub fn in_polygon(p: Point, points: &[f64]) -> bool {
    unsafe { calls::pave_in_polygon(p[0], p[1], points.as_ptr(), points.len()) }
}

pub fn sharp_at(points: &[f64], i: usize) -> bool {
    unsafe { calls::pave_sharp_at(points.as_ptr(), points.len(), i) }
}

pub fn domain_area(coords: &[f64], lengths: &[u16]) -> f64 {
    unsafe { calls::pave_domain_area(coords.as_ptr(), coords.len(), lengths.as_ptr(), lengths.len()) }
}

pub fn contains(p: Point, coords: &[f64], lengths: &[u16]) -> bool {
    unsafe { calls::pave_contains(p[0], p[1], coords.as_ptr(), coords.len(), lengths.as_ptr(), lengths.len()) }
}

pub fn distance_to_boundary(p: Point, coords: &[f64], lengths: &[u16]) -> f64 {
    unsafe { calls::pave_distance_to_boundary(p[0], p[1], coords.as_ptr(), coords.len(), lengths.as_ptr(), lengths.len()) }
}

pub fn front_length(points: &[f64], nodes: &[u16]) -> f64 {
    unsafe { calls::pave_front_length(points.as_ptr(), points.len(), nodes.as_ptr(), nodes.len()) }
}

pub fn front_distance(p: Point, points: &[f64], nodes: &[u16]) -> f64 {
    unsafe { calls::pave_front_distance(p[0], p[1], points.as_ptr(), points.len(), nodes.as_ptr(), nodes.len()) }
}

pub fn in_front(p: Point, points: &[f64], nodes: &[u16]) -> bool {
    unsafe { calls::pave_in_front(p[0], p[1], points.as_ptr(), points.len(), nodes.as_ptr(), nodes.len()) }
}

pub fn sample(job: &PortJob, b: &mut Buffers, counts: &mut [u64]) -> u32 {
    let o = &job.options;
    unsafe {
        calls::pave_sample(
            job.coords.as_ptr(), job.coords.len(), job.lengths.as_ptr(), job.lengths.len(), job.h, o.corner_margin, o.min_edge_fraction,
            o.front_gap, o.max_row_rounds as u64, o.seam, o.corner_limit, b.points.as_mut_ptr(), b.points.len(), b.quads.as_mut_ptr(),
            b.quads.len(), b.front_nodes.as_mut_ptr(), b.front_nodes.len(), b.front_lengths.as_mut_ptr(), b.front_lengths.len(), counts.as_mut_ptr(), counts.len(),
        )
    }
}

pub fn job(job: &PortJob, b: &mut Buffers, counts: &mut [u64]) -> u32 {
    let o = &job.options;
    unsafe {
        calls::pave_job(
            job.coords.as_ptr(), job.coords.len(), job.lengths.as_ptr(), job.lengths.len(), job.h, o.corner_margin, o.min_edge_fraction,
            o.front_gap, o.max_row_rounds as u64, o.seam, o.corner_limit, b.points.as_mut_ptr(), b.points.len(), b.quads.as_mut_ptr(),
            b.quads.len(), b.front_nodes.as_mut_ptr(), b.front_nodes.len(), b.front_lengths.as_mut_ptr(), b.front_lengths.len(), counts.as_mut_ptr(), counts.len(),
        )
    }
}

pub fn row(job: &PortJob, front: u64, b: &mut Buffers, counts: &mut [u64]) -> u32 {
    let o = &job.options;
    unsafe {
        calls::pave_row(
            job.coords.as_ptr(), job.coords.len(), job.lengths.as_ptr(), job.lengths.len(), job.h, o.corner_margin, o.min_edge_fraction,
            o.front_gap, o.max_row_rounds as u64, o.seam, o.corner_limit, front, b.points.as_mut_ptr(), b.points.len(), b.quads.as_mut_ptr(),
            b.quads.len(), b.front_nodes.as_mut_ptr(), b.front_nodes.len(), b.front_lengths.as_mut_ptr(), b.front_lengths.len(), counts.as_mut_ptr(), counts.len(),
        )
    }
}

pub fn close(job: &PortJob, b: &mut Buffers, counts: &mut [u64]) -> u32 {
    let o = &job.options;
    unsafe {
        calls::pave_close(
            job.coords.as_ptr(), job.coords.len(), job.lengths.as_ptr(), job.lengths.len(), job.h, o.corner_margin, o.min_edge_fraction,
            o.front_gap, o.max_row_rounds as u64, o.seam, o.corner_limit, b.points.as_mut_ptr(), b.points.len(), b.quads.as_mut_ptr(),
            b.quads.len(), b.front_nodes.as_mut_ptr(), b.front_nodes.len(), b.front_lengths.as_mut_ptr(), b.front_lengths.len(), counts.as_mut_ptr(), counts.len(),
        )
    }
}

pub fn fan(job: &PortJob, b: &mut Buffers, counts: &mut [u64]) -> u32 {
    let o = &job.options;
    unsafe {
        calls::pave_fan(
            job.coords.as_ptr(), job.coords.len(), job.lengths.as_ptr(), job.lengths.len(), job.h, o.corner_margin, o.min_edge_fraction,
            o.front_gap, o.max_row_rounds as u64, o.seam, o.corner_limit, b.points.as_mut_ptr(), b.points.len(), b.quads.as_mut_ptr(),
            b.quads.len(), b.front_nodes.as_mut_ptr(), b.front_nodes.len(), b.front_lengths.as_mut_ptr(), b.front_lengths.len(), counts.as_mut_ptr(), counts.len(),
        )
    }
}
