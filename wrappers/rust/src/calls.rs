//! The library's calls as they are. A slice goes over as its address and its number of elements.
//! `examples/declarations` holds each to the source of the crates `exports*`.

use crate::lent::Counts;

extern "C" {
    pub fn pave_sample(
        coords: *const f64, coords_len: usize,
        loop_lengths: *const u16, loop_lengths_len: usize,
        h: f64,
        corner_margin: f64, min_edge_fraction: f64, front_gap: f64, max_row_rounds: u64, seam: bool, corner_limit: f64,
        points: *mut f64, points_len: usize,
        quads: *mut u16, quads_len: usize,
        front_nodes: *mut u16, front_nodes_len: usize,
        front_lengths: *mut u16, front_lengths_len: usize,
        counts: *mut Counts, counts_len: usize,
    ) -> u32;
    pub fn pave_job(
        coords: *const f64, coords_len: usize,
        loop_lengths: *const u16, loop_lengths_len: usize,
        h: f64,
        corner_margin: f64, min_edge_fraction: f64, front_gap: f64, max_row_rounds: u64, seam: bool, corner_limit: f64,
        points: *mut f64, points_len: usize,
        quads: *mut u16, quads_len: usize,
        front_nodes: *mut u16, front_nodes_len: usize,
        front_lengths: *mut u16, front_lengths_len: usize,
        counts: *mut Counts, counts_len: usize,
    ) -> u32;
    pub fn pave_row(
        coords: *const f64, coords_len: usize,
        loop_lengths: *const u16, loop_lengths_len: usize,
        h: f64,
        corner_margin: f64, min_edge_fraction: f64, front_gap: f64, max_row_rounds: u64, seam: bool, corner_limit: f64,
        front: u64,
        points: *mut f64, points_len: usize,
        quads: *mut u16, quads_len: usize,
        front_nodes: *mut u16, front_nodes_len: usize,
        front_lengths: *mut u16, front_lengths_len: usize,
        counts: *mut Counts, counts_len: usize,
    ) -> u32;
    pub fn pave_close(
        coords: *const f64, coords_len: usize,
        loop_lengths: *const u16, loop_lengths_len: usize,
        h: f64,
        corner_margin: f64, min_edge_fraction: f64, front_gap: f64, max_row_rounds: u64, seam: bool, corner_limit: f64,
        points: *mut f64, points_len: usize,
        quads: *mut u16, quads_len: usize,
        front_nodes: *mut u16, front_nodes_len: usize,
        front_lengths: *mut u16, front_lengths_len: usize,
        counts: *mut Counts, counts_len: usize,
    ) -> u32;
    pub fn pave_fan(
        coords: *const f64, coords_len: usize,
        loop_lengths: *const u16, loop_lengths_len: usize,
        h: f64,
        corner_margin: f64, min_edge_fraction: f64, front_gap: f64, max_row_rounds: u64, seam: bool, corner_limit: f64,
        points: *mut f64, points_len: usize,
        quads: *mut u16, quads_len: usize,
        front_nodes: *mut u16, front_nodes_len: usize,
        front_lengths: *mut u16, front_lengths_len: usize,
        counts: *mut Counts, counts_len: usize,
    ) -> u32;

    pub fn pave_root(x: f64) -> f64;
    pub fn pave_side_length(ax: f64, ay: f64, bx: f64, by: f64) -> f64;
    pub fn pave_segment_distance(short: f64, x: f64, y: f64, ax: f64, ay: f64, bx: f64, by: f64) -> f64;
    pub fn pave_segments_cross(ax: f64, ay: f64, bx: f64, by: f64, cx: f64, cy: f64, dx: f64, dy: f64) -> bool;
    pub fn pave_corners_pass(ax: f64, ay: f64, bx: f64, by: f64, cx: f64, cy: f64, dx: f64, dy: f64) -> bool;
    pub fn pave_least_corner(ax: f64, ay: f64, bx: f64, by: f64, cx: f64, cy: f64, dx: f64, dy: f64) -> f64;
    pub fn pave_quad_area(ax: f64, ay: f64, bx: f64, by: f64, cx: f64, cy: f64, dx: f64, dy: f64) -> f64;
    pub fn pave_signed_area(points: *const f64, points_len: usize) -> f64;
    pub fn pave_in_polygon(x: f64, y: f64, points: *const f64, points_len: usize) -> bool;
    pub fn pave_sharp_at(points: *const f64, points_len: usize, i: usize) -> bool;
    pub fn pave_domain_area(coords: *const f64, coords_len: usize, loop_lengths: *const u16, loop_lengths_len: usize) -> f64;
    pub fn pave_contains(
        x: f64, y: f64, coords: *const f64, coords_len: usize, loop_lengths: *const u16, loop_lengths_len: usize,
    ) -> bool;
    pub fn pave_distance_to_boundary(
        x: f64, y: f64, coords: *const f64, coords_len: usize, loop_lengths: *const u16, loop_lengths_len: usize,
    ) -> f64;
    pub fn pave_front_length(points: *const f64, points_len: usize, nodes: *const u16, nodes_len: usize) -> f64;
    pub fn pave_front_distance(
        x: f64, y: f64, points: *const f64, points_len: usize, nodes: *const u16, nodes_len: usize,
    ) -> f64;
    pub fn pave_in_front(x: f64, y: f64, points: *const f64, points_len: usize, nodes: *const u16, nodes_len: usize) -> bool;
    pub fn pave_text(input: *const u8, input_len: usize, output: *mut u8, output_len: usize) -> u64;
    pub fn pave_recheck(input: *const u8, input_len: usize, output: *mut u8, output_len: usize) -> u64;
}
