//! The job: outline, size and options.

/// The options, in sizes h where they are lengths.
///
/// ```
/// use paving::Options;
///
/// let defaults = Options::default();
/// assert_eq!((defaults.corner_margin, defaults.min_edge_fraction, defaults.front_gap), (2.4, 0.08, 1.2));
/// assert_eq!((defaults.max_row_rounds, defaults.seam), (32, false));
/// assert_eq!(defaults.corner_limit, 0.08715574274765817);
/// let two_passes = Options { max_row_rounds: 2, ..defaults };
/// # assert_eq!(two_passes.max_row_rounds, 2);
/// ```
#[derive(Clone, Copy, Debug, PartialEq)]
pub struct Options {
    /// What a sharp corner takes from each of its sides in sampling: 0 to 100.
    pub corner_margin: f64,
    /// The shortest side of a new row: 0 to 1.
    pub min_edge_fraction: f64,
    /// The least distance of a new row to another front: 0 to 100.
    pub front_gap: f64,
    /// The most passes: up to 64.
    pub max_row_rounds: u64,
    /// Not offered: true is refused.
    pub seam: bool,
    /// What every corner value of a quad has to be above: 0.02 to 0.9. Every row, closing and fan tests its own quads with the
    /// limit of its own call; two calls on one paving may have two limits.
    pub corner_limit: f64,
}

impl Options {
    pub const CORNER_MARGIN: f64 = 2.4;
    pub const MIN_EDGE_FRACTION: f64 = 0.08;
    pub const FRONT_GAP: f64 = 1.2;
    pub const MAX_ROW_ROUNDS: u64 = 32;
    /// The sine of 5 degrees.
    pub const CORNER_LIMIT: f64 = 0.08715574274765817;
}

impl Default for Options {
    fn default() -> Options {
        Options {
            corner_margin: Options::CORNER_MARGIN,
            min_edge_fraction: Options::MIN_EDGE_FRACTION,
            front_gap: Options::FRONT_GAP,
            max_row_rounds: Options::MAX_ROW_ROUNDS,
            seam: false,
            corner_limit: Options::CORNER_LIMIT,
        }
    }
}

/// An outline to pave, its tiles' size and the options. Nothing is tested here; the calls refuse what they cannot take.
///
/// ```
/// use paving::{Job, Options, Paving};
///
/// // a plate of 20 by 20 mm with a square hole
/// let coords = [
///     0.0, 0.0, 20000.0, 0.0, 20000.0, 20000.0, 0.0, 20000.0, // outer, counter-clockwise
///     8000.0, 8000.0, 11000.0, 8000.0, 11000.0, 11000.0, 8000.0, 11000.0, // hole
/// ];
/// let job = Job::new(&coords, &[4, 4], 1000.0);
/// let one_pass = Job { options: Options { max_row_rounds: 1, ..job.options }, ..job };
/// assert_eq!(Paving::job(&job)?.counts().row_rounds, 2);
/// assert_eq!(Paving::job(&one_pass)?.counts().row_rounds, 1);
/// # Ok::<(), paving::Refusal>(())
/// ```
#[derive(Clone, Copy, Debug)]
pub struct Job<'a> {
    /// x, then y, of each point, loop after loop.
    pub coords: &'a [f64],
    /// How many points each loop has: the outer one, counter-clockwise, then the holes, in any direction.
    pub loop_lengths: &'a [u16],
    /// The size of a tile.
    pub h: f64,
    pub options: Options,
}

impl<'a> Job<'a> {
    /// A job with the default options.
    pub fn new(coords: &'a [f64], loop_lengths: &'a [u16], h: f64) -> Job<'a> {
        Job { coords, loop_lengths, h, options: Options::default() }
    }
}
