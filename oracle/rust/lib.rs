//! The Rust mesher's rows, closings and fan, as an oracle for the port.
//!
//! `cut` is made at build time from the Rust source; the rest is what stands
//! around it: document 01's measures (`quality`), the added limits (`limits`),
//! calls over lent buffers (`calls`), the texts (`text`, `requests`), a tile list
//! read back (`recheck`), single functions (`functions`), jobs, states, texts and
//! tile lists from a seed (`generate`, `traced`, `extremes`, `mixed`, `states`,
//! `fronts`, `texts`, `lists` with `edits`), what a job met (`met`) and which of its
//! points count as equal (`equal`), the counting of demand 3 (`demands`), and any
//! paver side by side with the oracle (`compare`, `rounds`), among them pavers with a
//! fault (`faults`, `wrong`); a difference made smaller (`reduce`, `shorter`).

#[allow(dead_code)]
#[rustfmt::skip]
mod cut;

pub mod calls;
pub mod compare;
pub mod demands;
pub mod edits;
pub mod equal;
pub mod extremes;
pub mod faults;
pub mod fronts;
pub mod functions;
pub mod generate;
pub mod limits;
pub mod lists;
pub mod met;
pub mod mixed;
pub mod quality;
pub mod recheck;
pub mod reduce;
pub mod requests;
pub mod rounds;
pub mod shorter;
pub mod states;
pub mod text;
pub mod texts;
pub mod traced;
pub mod wrong;

pub use cut::alt_paving::Options;
