//! The measures that the paving works with: the square root, sides, rings, quads, outlines and fronts.
//!
//! A point is `[x, y]`. A ring is a slice of coordinates, x then y of each point. Where numbers do not fit together the answer
//! is [`Misfit`], and not the library's NaN or false.

use crate::calls;
use std::fmt;

pub type Point = [f64; 2];

/// Coordinates that are odd in number, loop lengths that ask for more points than there are, or a place or a node number that
/// no point has.
///
/// ```
/// use paving::geometry::{signed_area, Misfit};
///
/// assert_eq!(signed_area(&[0.0, 0.0, 1.0]), Err(Misfit));
/// assert_eq!(Misfit.to_string(), "coordinates, lengths or node numbers do not fit together");
/// ```
#[derive(Clone, Copy, Debug, PartialEq, Eq)]
pub struct Misfit;

impl fmt::Display for Misfit {
    fn fmt(&self, f: &mut fmt::Formatter) -> fmt::Result {
        write!(f, "coordinates, lengths or node numbers do not fit together")
    }
}

impl std::error::Error for Misfit {}

fn fit(fits: bool) -> Result<(), Misfit> {
    if fits { Ok(()) } else { Err(Misfit) }
}

fn ring_fits(points: &[f64]) -> Result<(), Misfit> {
    fit(points.len() % 2 == 0)
}

fn outline_fits(coords: &[f64], loop_lengths: &[u16]) -> Result<(), Misfit> {
    let wanted: usize = loop_lengths.iter().map(|&n| n as usize).sum();
    fit(coords.len() % 2 == 0 && wanted <= coords.len() / 2)
}

fn front_fits(points: &[f64], nodes: &[u16]) -> Result<(), Misfit> {
    fit(points.len() % 2 == 0 && nodes.iter().all(|&node| (node as usize) < points.len() / 2))
}

// Every call below takes every number and every slice: the tests above make a misfit an error, and are not asked for by the
// library. A slice is valid for its length.

/// The square root: the f64 nearest to the exact root.
///
/// ```
/// assert_eq!(paving::geometry::root(2.0).to_bits(), 0x3FF6A09E667F3BCD);
/// ```
pub fn root(x: f64) -> f64 {
    unsafe { calls::pave_root(x) }
}

/// The length of the side from a to b.
///
/// ```
/// assert_eq!(paving::geometry::side_length([0.0, 0.0], [3.0, 4.0]), 5.0);
/// ```
pub fn side_length(a: Point, b: Point) -> f64 {
    unsafe { calls::pave_side_length(a[0], a[1], b[0], b[1]) }
}

/// The distance from p to the side from a to b. A side whose squared length is at most `short` counts as a point.
///
/// ```
/// use paving::geometry::segment_distance;
///
/// assert_eq!(segment_distance(0.0, [1.0, 2.0], [0.0, 0.0], [3.0, 0.0]), 2.0);
/// assert_eq!(segment_distance(100.0, [3.0, 4.0], [0.0, 0.0], [3.0, 0.0]), 5.0);
/// ```
pub fn segment_distance(short: f64, p: Point, a: Point, b: Point) -> f64 {
    unsafe { calls::pave_segment_distance(short, p[0], p[1], a[0], a[1], b[0], b[1]) }
}

/// Whether the open sides from a to b and from c to d cross.
///
/// ```
/// use paving::geometry::segments_cross;
///
/// assert!(segments_cross([0.0, 0.0], [2.0, 2.0], [0.0, 2.0], [2.0, 0.0]));
/// assert!(!segments_cross([0.0, 0.0], [2.0, 2.0], [2.0, 2.0], [2.0, 0.0]));
/// ```
pub fn segments_cross(a: Point, b: Point, c: Point, d: Point) -> bool {
    unsafe { calls::pave_segments_cross(a[0], a[1], b[0], b[1], c[0], c[1], d[0], d[1]) }
}

/// The corner test of the quad a b c d with the default limit: every corner value is finite and above
/// [`Options::CORNER_LIMIT`](crate::Options::CORNER_LIMIT), the sine of 5 degrees.
///
/// ```
/// use paving::geometry::corners_pass;
///
/// assert!(corners_pass([[0.0, 0.0], [1.0, 0.0], [1.0, 1.0], [0.0, 1.0]]));
/// assert!(!corners_pass([[0.0, 0.0], [0.0, 1.0], [1.0, 1.0], [1.0, 0.0]]));
/// ```
pub fn corners_pass(quad: [Point; 4]) -> bool {
    let [a, b, c, d] = quad;
    unsafe { calls::pave_corners_pass(a[0], a[1], b[0], b[1], c[0], c[1], d[0], d[1]) }
}

/// The least corner value of the quad a b c d: at each corner the cross product of its two sides over their lengths.
///
/// ```
/// use paving::geometry::least_corner;
///
/// assert_eq!(least_corner([[0.0, 0.0], [1.0, 0.0], [1.0, 1.0], [0.0, 1.0]]), 1.0);
/// assert_eq!(least_corner([[0.0, 0.0], [5.0, 0.0], [8.0, 4.0], [3.0, 4.0]]), 0.8);
/// ```
pub fn least_corner(quad: [Point; 4]) -> f64 {
    let [a, b, c, d] = quad;
    unsafe { calls::pave_least_corner(a[0], a[1], b[0], b[1], c[0], c[1], d[0], d[1]) }
}

/// The signed area of the quad a b c d, positive when it runs counter-clockwise.
///
/// ```
/// assert_eq!(paving::geometry::quad_area([[0.0, 0.0], [2.0, 0.0], [2.0, 3.0], [0.0, 3.0]]), 6.0);
/// ```
pub fn quad_area(quad: [Point; 4]) -> f64 {
    let [a, b, c, d] = quad;
    unsafe { calls::pave_quad_area(a[0], a[1], b[0], b[1], c[0], c[1], d[0], d[1]) }
}

/// The signed area of a ring, positive when it runs counter-clockwise.
///
/// ```
/// assert_eq!(paving::geometry::signed_area(&[0.0, 0.0, 4.0, 0.0, 0.0, 3.0]), Ok(6.0));
/// ```
pub fn signed_area(points: &[f64]) -> Result<f64, Misfit> {
    ring_fits(points)?;
    Ok(unsafe { calls::pave_signed_area(points.as_ptr(), points.len()) })
}

/// Whether p is within a ring.
///
/// ```
/// use paving::geometry::in_polygon;
///
/// let triangle = [0.0, 0.0, 4.0, 0.0, 0.0, 3.0];
/// assert_eq!(in_polygon([1.0, 1.0], &triangle), Ok(true));
/// assert_eq!(in_polygon([3.0, 2.0], &triangle), Ok(false));
/// ```
pub fn in_polygon(p: Point, points: &[f64]) -> Result<bool, Misfit> {
    ring_fits(points)?;
    Ok(unsafe { calls::pave_in_polygon(p[0], p[1], points.as_ptr(), points.len()) })
}

/// Whether the corner at place i of a ring is sharp, which is a turn above 30 degrees.
///
/// ```
/// use paving::geometry::{sharp_at, Misfit};
///
/// let house = [0.0, 0.0, 4.0, 0.0, 4.0, 3.0, 2.0, 3.5, 0.0, 3.0];
/// assert_eq!(sharp_at(&house, 0), Ok(true));
/// assert_eq!(sharp_at(&house, 3), Ok(false));
/// assert_eq!(sharp_at(&house, 5), Err(Misfit));
/// ```
pub fn sharp_at(points: &[f64], i: usize) -> Result<bool, Misfit> {
    ring_fits(points)?;
    fit(i < points.len() / 2)?;
    Ok(unsafe { calls::pave_sharp_at(points.as_ptr(), points.len(), i) })
}

/// The area within the outer loop and outside the holes.
///
/// ```
/// use paving::geometry::{domain_area, Misfit};
///
/// let coords = [0.0, 0.0, 9.0, 0.0, 9.0, 9.0, 0.0, 9.0, 3.0, 3.0, 6.0, 3.0, 6.0, 6.0, 3.0, 6.0];
/// assert_eq!(domain_area(&coords, &[4, 4]), Ok(72.0));
/// assert_eq!(domain_area(&coords, &[4, 5]), Err(Misfit));
/// ```
pub fn domain_area(coords: &[f64], loop_lengths: &[u16]) -> Result<f64, Misfit> {
    outline_fits(coords, loop_lengths)?;
    Ok(unsafe { calls::pave_domain_area(coords.as_ptr(), coords.len(), loop_lengths.as_ptr(), loop_lengths.len()) })
}

/// Whether p is within the outer loop and outside every hole.
///
/// ```
/// use paving::geometry::contains;
///
/// let coords = [0.0, 0.0, 9.0, 0.0, 9.0, 9.0, 0.0, 9.0, 3.0, 3.0, 6.0, 3.0, 6.0, 6.0, 3.0, 6.0];
/// assert_eq!(contains([1.0, 5.0], &coords, &[4, 4]), Ok(true));
/// assert_eq!(contains([4.0, 5.0], &coords, &[4, 4]), Ok(false));
/// ```
pub fn contains(p: Point, coords: &[f64], loop_lengths: &[u16]) -> Result<bool, Misfit> {
    outline_fits(coords, loop_lengths)?;
    Ok(unsafe { calls::pave_contains(p[0], p[1], coords.as_ptr(), coords.len(), loop_lengths.as_ptr(), loop_lengths.len()) })
}

/// The distance from p to the nearest side; infinite where there is none.
///
/// ```
/// use paving::geometry::distance_to_boundary;
///
/// let coords = [0.0, 0.0, 9.0, 0.0, 9.0, 9.0, 0.0, 9.0, 3.0, 3.0, 6.0, 3.0, 6.0, 6.0, 3.0, 6.0];
/// assert_eq!(distance_to_boundary([2.5, 5.0], &coords, &[4, 4]), Ok(0.5));
/// assert_eq!(distance_to_boundary([2.5, 5.0], &[], &[]), Ok(f64::INFINITY));
/// ```
pub fn distance_to_boundary(p: Point, coords: &[f64], loop_lengths: &[u16]) -> Result<f64, Misfit> {
    outline_fits(coords, loop_lengths)?;
    Ok(unsafe {
        calls::pave_distance_to_boundary(p[0], p[1], coords.as_ptr(), coords.len(), loop_lengths.as_ptr(), loop_lengths.len())
    })
}

/// The length of a front: node numbers, each of a point of a list of coordinates.
///
/// ```
/// use paving::geometry::{front_length, Misfit};
///
/// let points = [0.0, 0.0, 4.0, 0.0, 0.0, 3.0];
/// assert_eq!(front_length(&points, &[0, 1, 2]), Ok(12.0));
/// assert_eq!(front_length(&points, &[0, 1, 3]), Err(Misfit));
/// ```
pub fn front_length(points: &[f64], nodes: &[u16]) -> Result<f64, Misfit> {
    front_fits(points, nodes)?;
    Ok(unsafe { calls::pave_front_length(points.as_ptr(), points.len(), nodes.as_ptr(), nodes.len()) })
}

/// The distance from p to a front; infinite where it has no nodes.
///
/// ```
/// use paving::geometry::front_distance;
///
/// let points = [0.0, 0.0, 4.0, 0.0, 0.0, 3.0];
/// assert_eq!(front_distance([1.0, 0.5], &points, &[0, 1, 2]), Ok(0.5));
/// assert_eq!(front_distance([1.0, 0.5], &points, &[]), Ok(f64::INFINITY));
/// ```
pub fn front_distance(p: Point, points: &[f64], nodes: &[u16]) -> Result<f64, Misfit> {
    front_fits(points, nodes)?;
    Ok(unsafe { calls::pave_front_distance(p[0], p[1], points.as_ptr(), points.len(), nodes.as_ptr(), nodes.len()) })
}

/// Whether p is within a front.
///
/// ```
/// use paving::geometry::in_front;
///
/// let points = [0.0, 0.0, 4.0, 0.0, 0.0, 3.0];
/// assert_eq!(in_front([1.0, 1.0], &points, &[0, 1, 2]), Ok(true));
/// assert_eq!(in_front([3.0, 2.0], &points, &[0, 1, 2]), Ok(false));
/// ```
pub fn in_front(p: Point, points: &[f64], nodes: &[u16]) -> Result<bool, Misfit> {
    front_fits(points, nodes)?;
    Ok(unsafe { calls::pave_in_front(p[0], p[1], points.as_ptr(), points.len(), nodes.as_ptr(), nodes.len()) })
}
