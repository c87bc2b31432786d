//! The calls over buffers of the caller's own. [`Paving`](crate::Paving) holds such buffers itself and is simpler to use.
//!
//! ```
//! use paving::lent::{self, Counts, Lent, FRONT_LENGTHS, FRONT_NODES, POINTS, QUADS};
//! use paving::Job;
//!
//! let (mut points, mut quads) = (vec![0.0; POINTS], vec![0; QUADS]);
//! let (mut front_nodes, mut front_lengths) = (vec![0; FRONT_NODES], vec![0; FRONT_LENGTHS]);
//! let mut counts = Counts::default();
//! let mut lent = Lent {
//!     points: &mut points,
//!     quads: &mut quads,
//!     front_nodes: &mut front_nodes,
//!     front_lengths: &mut front_lengths,
//!     counts: &mut counts,
//! };
//! let job = Job::new(&[0.0, 0.0, 10000.0, 0.0, 10000.0, 10000.0, 0.0, 10000.0], &[4], 1000.0);
//! lent::sample(&job, &mut lent)?;
//! assert_eq!(lent.counts.points, 24);
//! lent::row(&job, 0, &mut lent)?;
//! assert_eq!((lent.counts.points, lent.counts.quads), (48, 24));
//! assert_eq!(lent.quads[..4], [0, 1, 25, 24]);
//! # Ok::<(), paving::Refusal>(())
//! ```

use crate::calls;
use crate::{Job, Refusal};

/// The length that `points` must have: x, then y, of each point.
pub const POINTS: usize = 8192;
/// The length that `quads` must have: four node numbers of each quad.
pub const QUADS: usize = 16384;
/// The length that `front_nodes` must have: the nodes of all fronts, front after front.
pub const FRONT_NODES: usize = 2048;
/// The length that `front_lengths` must have: how many nodes each front has.
pub const FRONT_LENGTHS: usize = 16;
/// How many counts there are.
pub const COUNTS: usize = 8;

/// The eight counts of an answer, laid out as the library's slice of eight u64.
#[repr(C)]
#[derive(Clone, Copy, Debug, Default, PartialEq, Eq)]
pub struct Counts {
    pub points: u64,
    /// `row_quads` and `core_quads` together.
    pub quads: u64,
    /// Fronts that remain.
    pub fronts: u64,
    /// Quads of rows and closings.
    pub row_quads: u64,
    /// Quads of the fan.
    pub core_quads: u64,
    /// Rows laid.
    pub row_rounds: u64,
    /// Passes begun; only a job changes it.
    pub passes_begun: u64,
    /// The quads when the rows stopped.
    pub laid: u64,
}

const _: () = assert!(std::mem::size_of::<Counts>() == COUNTS * std::mem::size_of::<u64>());

impl Counts {
    /// The counts in document 01's order.
    ///
    /// ```
    /// use paving::Counts;
    ///
    /// let list = [4, 1, 0, 1, 0, 0, 1, 0];
    /// assert_eq!(Counts::of(list).points, 4);
    /// assert_eq!(Counts::of(list).list(), list);
    /// ```
    pub fn list(self) -> [u64; COUNTS] {
        [
            self.points, self.quads, self.fronts, self.row_quads, self.core_quads, self.row_rounds, self.passes_begun, self.laid,
        ]
    }

    /// The counts from a list in document 01's order.
    pub fn of(list: [u64; COUNTS]) -> Counts {
        let [points, quads, fronts, row_quads, core_quads, row_rounds, passes_begun, laid] = list;
        Counts { points, quads, fronts, row_quads, core_quads, row_rounds, passes_begun, laid }
    }
}

/// The lent buffers. Another length than [`POINTS`], [`QUADS`], [`FRONT_NODES`] or [`FRONT_LENGTHS`] is refused with
/// [`Refusal::Shape`].
///
/// Quad i has the nodes `quads[4 * i..4 * i + 4]`, and node n is the point `points[2 * n..2 * n + 2]`. Front k has the
/// `front_lengths[k]` nodes that follow those of the fronts before it in `front_nodes`.
#[derive(Debug)]
pub struct Lent<'a> {
    pub points: &'a mut [f64],
    pub quads: &'a mut [u16],
    pub front_nodes: &'a mut [u16],
    pub front_lengths: &'a mut [u16],
    pub counts: &'a mut Counts,
}

/// A call with all its parameters; `front` for the row alone.
macro_rules! call {
    ($name:ident, $job:ident, $lent:ident $(, $front:ident)?) => {{
        let options = &$job.options;
        // The slices are valid for their lengths, and no two that are written overlap, since they are borrowed as &mut.
        // The call asks for nothing else: it takes all contents and all lengths.
        let number = unsafe {
            calls::$name(
                $job.coords.as_ptr(), $job.coords.len(),
                $job.loop_lengths.as_ptr(), $job.loop_lengths.len(),
                $job.h,
                options.corner_margin, options.min_edge_fraction, options.front_gap, options.max_row_rounds, options.seam,
                options.corner_limit,
                $($front,)?
                $lent.points.as_mut_ptr(), $lent.points.len(),
                $lent.quads.as_mut_ptr(), $lent.quads.len(),
                $lent.front_nodes.as_mut_ptr(), $lent.front_nodes.len(),
                $lent.front_lengths.as_mut_ptr(), $lent.front_lengths.len(),
                $lent.counts, COUNTS,
            )
        };
        Refusal::result(number)
    }};
}

/// The loops sampled into nodes: each is a front, no quad is laid. What the buffers held counts for nothing. Refused: zeros in
/// every place of every buffer and in the counts. The module has an example.
pub fn sample(job: &Job, lent: &mut Lent) -> Result<(), Refusal> {
    call!(pave_sample, job, lent)
}

/// The whole job: sampling, passes of rows, closings. What the buffers held counts for nothing. Refused: zeros in every place of
/// every buffer and in the counts.
///
/// ```
/// use paving::lent::{self, Counts, Lent};
/// use paving::{Job, Refusal};
///
/// let job = Job::new(&[0.0, 0.0, 3000.0, 0.0, 3000.0, 3000.0, 0.0, 3000.0], &[4], 1000.0);
/// let mut short = [7.0; 100];
/// let mut lent = Lent {
///     points: &mut short,
///     quads: &mut [],
///     front_nodes: &mut [],
///     front_lengths: &mut [],
///     counts: &mut Counts::default(),
/// };
/// assert_eq!(lent::job(&job, &mut lent), Err(Refusal::Shape));
/// assert_eq!(short, [0.0; 100]);
/// ```
pub fn job(job: &Job, lent: &mut Lent) -> Result<(), Refusal> {
    call!(pave_job, job, lent)
}

/// One row laid on front `front`, counted from 0, of the state in the buffers; the new front takes its place. Refused: nothing
/// is changed. The module has an example.
pub fn row(job: &Job, front: u64, lent: &mut Lent) -> Result<(), Refusal> {
    call!(pave_row, job, lent, front)
}

/// The fronts of four and six nodes of the state in the buffers closed, where the quads pass the corner test; the others are
/// kept. Refused: nothing is changed. [`Paving::close`](crate::Paving::close) has an example.
pub fn close(job: &Job, lent: &mut Lent) -> Result<(), Refusal> {
    call!(pave_close, job, lent)
}

/// The one front of the state in the buffers filled by quads round a centre; with no front it is done and adds nothing. Refused:
/// nothing is changed. [`Paving::fan`](crate::Paving::fan) has an example.
pub fn fan(job: &Job, lent: &mut Lent) -> Result<(), Refusal> {
    call!(pave_fan, job, lent)
}
