//! The limits that the port adds, put into the Rust's own path, and the two
//! counts that the port adds.

use crate::cut::alt_paving::{Options, Paving};
use crate::cut::two_d::Domain;
use std::cell::Cell;

/// Whether a call tests the limits that the port adds: `oracle/build --without limits`
/// builds the oracle with false here, and without the tests within the Rust.
pub const ADDED: bool = true;

pub const MAX_POINTS: usize = 4_096;
pub const MAX_QUADS: usize = 4_096;
pub const MAX_FRONTS: usize = 16;
pub const MAX_FRONT_NODES: usize = 2_048;
pub const MAX_LOOPS: usize = 16;
pub const MAX_PAIRS: usize = 2_048;
pub const MAX_PLANNED: usize = 2_048;
pub const MAX_PASSES: usize = 64;
pub const LEAST_SIZE: f64 = 0.001;
pub const MOST_SIZE: f64 = 1_000_000.0;
pub const LEAST_CORNER_LIMIT: f64 = 0.02;
pub const MOST_CORNER_LIMIT: f64 = 0.9;
pub const MOST_COORDINATE: f64 = 1_000_000.0;
pub const MOST_STATE_COORDINATE: f64 = 1_000_000_000.0;

/// How far a run goes.
#[derive(Clone, Copy, PartialEq)]
pub enum Until {
    Checks,
    Sampling,
    End,
}

thread_local! {
    static UNTIL: Cell<Until> = const { Cell::new(Until::End) };
    static KEPT: Cell<usize> = const { Cell::new(0) };
    static PLANNED: Cell<usize> = const { Cell::new(0) };
    static PASSES: Cell<usize> = const { Cell::new(0) };
    static LAID: Cell<usize> = const { Cell::new(0) };
}

/// Before a run.
pub fn begin(until: Until) {
    UNTIL.set(until);
    KEPT.set(0);
    PLANNED.set(0);
    PASSES.set(0);
    LAID.set(0);
}

/// Passes begun, and the quads when the rows stopped.
pub fn passes_and_laid() -> (usize, usize) {
    (PASSES.get(), LAID.get())
}

/// Points of the loops planned so far that were not dropped as equal to another.
pub fn points_kept() -> usize {
    KEPT.get()
}

/// Nodes planned by the sampling so far.
pub fn nodes_planned() -> usize {
    PLANNED.get()
}

fn within(x: f64, least: f64, most: f64) -> bool {
    least <= x && x <= most
}

/// Whether number 3 allows a corner limit.
pub fn corner_limit(limit: f64) -> bool {
    within(limit, LEAST_CORNER_LIMIT, MOST_CORNER_LIMIT)
}

/// Number 3.
pub fn options(h: f64, o: &Options) -> Result<(), String> {
    let fits = within(h, LEAST_SIZE, MOST_SIZE)
        && within(o.corner_margin, 0.0, 100.0)
        && within(o.front_gap, 0.0, 100.0)
        && within(o.min_edge_fraction, 0.0, 1.0)
        && o.max_row_rounds <= MAX_PASSES
        && !o.seam
        && corner_limit(o.corner_limit);
    if fits { Ok(()) } else { Err("limit 3".to_string()) }
}

/// Number 5.
pub fn coordinates(domain: &Domain) -> Result<(), String> {
    let loops = std::iter::once(&domain.outer).chain(domain.holes.iter());
    for p in loops.flatten() {
        if !p.iter().all(|c| within(*c, -MOST_COORDINATE, MOST_COORDINATE)) {
            return Err("limit 5".to_string());
        }
    }
    Ok(())
}

/// Number 10, when a loop's counts stand and nothing is placed yet.
pub fn planned(kept: usize, inner: &[usize]) -> Result<(), String> {
    KEPT.set(KEPT.get() + kept);
    PLANNED.set(PLANNED.get() + kept + inner.iter().sum::<usize>());
    if PLANNED.get() > MAX_PLANNED { Err("limit 10".to_string()) } else { Ok(()) }
}

/// Number 21.
pub fn room(paving: &Paving, points: usize, quads: usize) -> Result<(), String> {
    if paving.points.len() + points > MAX_POINTS || paving.quads.len() + quads > MAX_QUADS {
        return Err("limit 21".to_string());
    }
    Ok(())
}

pub fn stop_after_checks() -> Result<(), String> {
    if UNTIL.get() == Until::Checks { Err("checks passed".to_string()) } else { Ok(()) }
}

pub fn only_sampling() -> bool {
    UNTIL.get() == Until::Sampling
}

pub fn pass_begun() {
    PASSES.set(PASSES.get() + 1);
}

pub fn rows_stopped(paving: &Paving) {
    LAID.set(paving.quads.len());
}
