//! Paving of cradle plates: four-sided tiles laid in rows inward from the outline of a flat plate.
//!
//! Safe functions and types over the calls of the library that `tools/build` makes. No dependency. Every call takes all
//! contents of all slices and answers a result or a [`Refusal`], and ends; that is proved of the library.
//!
//! A [`Job`] is an outline, a size and [`Options`]. [`Paving::job`] paves it:
//!
//! ```
//! use paving::{Job, Paving};
//!
//! // document 01's square, of side 3 mm with tiles of 1 mm
//! let job = Job::new(&[0.0, 0.0, 3000.0, 0.0, 3000.0, 3000.0, 0.0, 3000.0], &[4], 1000.0);
//! let paving = Paving::job(&job)?;
//! assert_eq!(paving.points().collect::<Vec<_>>(), [[0.0, 0.0], [3000.0, 0.0], [3000.0, 3000.0], [0.0, 3000.0]]);
//! assert_eq!(paving.quads().collect::<Vec<_>>(), [[0, 1, 2, 3]]);
//! assert_eq!(paving.fronts().count(), 0);
//! # Ok::<(), paving::Refusal>(())
//! ```
//!
//! A refused job says why:
//!
//! ```
//! use paving::{Job, Paving, Refusal};
//!
//! let clockwise = Job::new(&[0.0, 0.0, 0.0, 3000.0, 3000.0, 3000.0, 3000.0, 0.0], &[4], 1000.0);
//! let refusal = Paving::job(&clockwise).unwrap_err();
//! assert_eq!(refusal, Refusal::Area);
//! assert_eq!(refusal.number(), 6);
//! ```
//!
//! What is left of a plate after the job, [`Paving::row`], [`Paving::close`] and [`Paving::fan`] work on. [`lent`] has the same
//! calls over buffers of the caller's own, and [`geometry`] the measures.
//!
//! Threads: no call keeps anything between calls. [`Job`] and [`Paving`] can be sent to and shared between threads.

mod calls;
pub mod geometry;
mod job;
pub mod lent;
pub mod list;
mod paving;
mod refusal;
pub mod text;

pub use job::{Job, Options};
pub use lent::Counts;
pub use paving::Paving;
pub use refusal::Refusal;
