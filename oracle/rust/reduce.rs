//! An input in which two pavers differ, made smaller while they still do: loops, points, digits and options taken away, and of
//! a state fronts, quads, points, counts and what stands behind them.

use crate::calls::{self, default_options, Buffers, Counts, Job};
use crate::compare::Call;
use crate::requests::Case;
use crate::states::State;
use crate::Options;

/// A state as lists, when its counts allow that.
#[derive(Clone)]
struct Lists {
    points: Vec<f64>,
    quads: Vec<u16>,
    fronts: Vec<Vec<u16>>,
}

fn on_a_state(call: Call) -> bool {
    !matches!(call, Call::Sample | Call::Job)
}

fn lists(s: &State) -> Option<Lists> {
    let (b, c) = (&s.buffers, &s.counts);
    if !b.fits() || c.points > calls::POINTS / 2 || c.quads > calls::QUADS / 4 || c.fronts > calls::FRONT_LENGTHS {
        return None;
    }
    let lengths = &b.front_lengths[..c.fronts];
    if lengths.iter().map(|&n| n as usize).sum::<usize>() > calls::FRONT_NODES {
        return None;
    }
    let fronts = b.fronts(c).into_iter().map(|f| f.into_iter().map(|n| n as u16).collect()).collect();
    Some(Lists { points: b.points[..2 * c.points].to_vec(), quads: b.quads[..4 * c.quads].to_vec(), fronts })
}

/// The lists written from the front of each buffer, zeros behind.
fn written(l: &Lists, counts: Counts) -> State {
    let mut b = Buffers::new();
    b.points[..l.points.len()].copy_from_slice(&l.points);
    b.quads[..l.quads.len()].copy_from_slice(&l.quads);
    for (place, node) in b.front_nodes.iter_mut().zip(l.fronts.iter().flatten()) {
        *place = *node;
    }
    for (place, front) in b.front_lengths.iter_mut().zip(&l.fronts) {
        *place = front.len() as u16;
    }
    State { buffers: b, counts: Counts { points: l.points.len() / 2, quads: l.quads.len() / 4, fronts: l.fronts.len(), ..counts } }
}

/// One way to make a case smaller.
#[derive(Clone, Copy)]
enum Step {
    Standard,
    Zeros,
    Sound,
    Loop(usize),
    Points(usize, usize, usize),
    Default(usize),
    Limit(usize, f64),
    OptionDigits(usize, usize),
    Passes(usize),
    Shift(usize),
    Scale(f64, usize),
    Shrink(f64, usize),
    AllDigits(usize),
    SizeDigits(usize),
    Digits(usize, usize),
    Front(usize),
    Nodes(usize, usize, usize),
    Quads(usize, usize),
    Unused,
    Count(usize, usize),
    Kinds,
    StateDigits(usize),
    StateDigit(usize, usize),
}

/// The number with so many decimal digits behind its first.
fn rounded(x: f64, digits: usize) -> f64 {
    if x.is_finite() { format!("{x:.digits$e}").parse().unwrap_or(x) + 0.0 } else { x }
}

/// The number to so many places behind the point, or, below 0, before it.
fn to_places(x: f64, places: i32) -> f64 {
    if !x.is_finite() {
        return x;
    }
    if places >= 0 {
        return format!("{x:.*}", places as usize).parse().unwrap_or(x) + 0.0;
    }
    let step = 10f64.powi(-places);
    (x / step).round() * step + 0.0
}

/// All digits: from the coarsest places to the finest.
fn places(digits: usize) -> i32 {
    digits as i32 - 6
}

const ALL_DIGITS: usize = 24;

fn sound(job: &Job) -> bool {
    job.xy.len() % 2 == 0 && job.lengths.iter().sum::<usize>() == job.xy.len() / 2
}

/// The options that are f64; 3 and 4 are the passes and seam.
const FLOATS: [usize; 4] = [0, 1, 2, 5];

fn option(job: &mut Job, k: usize) -> &mut f64 {
    match k {
        0 => &mut job.options.corner_margin,
        1 => &mut job.options.min_edge_fraction,
        2 => &mut job.options.front_gap,
        _ => &mut job.options.corner_limit,
    }
}

/// Each x (0) and y (1) of the job, and of the state up to its points.
fn each_coordinate(c: &mut Case, change: impl Fn(usize, f64) -> f64) {
    let held = (2 * c.state.counts.points).min(c.state.buffers.points.len());
    let state = if on_a_state(c.call) { &mut c.state.buffers.points[..held] } else { &mut [] };
    for list in [&mut c.job.xy[..], state] {
        list.iter_mut().enumerate().for_each(|(i, place)| *place = change(i % 2, *place));
    }
}

fn changed(case: &Case, step: Step) -> Option<Case> {
    let mut c = case.clone();
    match step {
        Step::Standard => {
            let b = &mut c.state.buffers;
            b.points.resize(calls::POINTS, 0.0);
            b.quads.resize(calls::QUADS, 0);
            b.front_nodes.resize(calls::FRONT_NODES, 0);
            b.front_lengths.resize(calls::FRONT_LENGTHS, 0);
        }
        Step::Zeros if !on_a_state(c.call) => {
            let b = &mut c.state.buffers;
            b.points.fill(0.0);
            [&mut b.quads, &mut b.front_nodes, &mut b.front_lengths].into_iter().for_each(|list| list.fill(0));
        }
        Step::Zeros => c.state = written(&lists(&c.state)?, c.state.counts),
        Step::Sound => {
            c.job.xy.truncate(c.job.xy.len() / 2 * 2);
            let mut left = c.job.xy.len() / 2;
            for n in c.job.lengths.iter_mut() {
                *n = (*n).min(left);
                left -= *n;
            }
            *c.job.lengths.last_mut()? += left;
        }
        Step::Loop(i) => {
            if !sound(&c.job) || i >= c.job.lengths.len() || c.job.lengths.len() < 2 {
                return None;
            }
            let from: usize = c.job.lengths[..i].iter().sum();
            c.job.xy.drain(2 * from..2 * (from + c.job.lengths[i]));
            c.job.lengths.remove(i);
        }
        Step::Points(i, from, n) => {
            if !sound(&c.job) || i >= c.job.lengths.len() || from + n > c.job.lengths[i] {
                return None;
            }
            let before: usize = c.job.lengths[..i].iter().sum();
            c.job.xy.drain(2 * (before + from)..2 * (before + from + n));
            c.job.lengths[i] -= n;
        }
        Step::Default(k) => {
            let mut other = c.job.clone();
            other.options = default_options();
            match k {
                3 => c.job.options.max_row_rounds = other.options.max_row_rounds,
                4 => c.job.options.seam = false,
                _ => *option(&mut c.job, k) = *option(&mut other, k),
            }
        }
        Step::Limit(k, x) => *option(&mut c.job, k) = x,
        Step::OptionDigits(k, digits) => {
            let place = option(&mut c.job, k);
            *place = rounded(*place, digits);
        }
        Step::Passes(n) => c.job.options.max_row_rounds = n,
        Step::Shift(digits) => {
            let (x, y) = (*c.job.xy.first()?, *c.job.xy.get(1)?);
            each_coordinate(&mut c, |k, place| to_places(place - if k == 0 { x } else { y }, places(digits)));
        }
        Step::Scale(size, digits) => {
            let by = size / c.job.h;
            c.job.h = size;
            each_coordinate(&mut c, |_, place| to_places(place * by, places(digits)));
        }
        Step::Shrink(by, digits) => each_coordinate(&mut c, |_, place| to_places(place * by, places(digits))),
        Step::AllDigits(digits) => c.job.xy.iter_mut().for_each(|x| *x = to_places(*x, places(digits))),
        Step::SizeDigits(digits) => c.job.h = rounded(c.job.h, digits),
        Step::Digits(i, digits) => *c.job.xy.get_mut(i)? = rounded(case.job.xy[i], digits),
        Step::Front(i) => {
            let mut l = lists(&c.state)?;
            if i >= l.fronts.len() {
                return None;
            }
            l.fronts.remove(i);
            c.state = written(&l, c.state.counts);
            if let Call::Row(front) = c.call {
                c.call = Call::Row(if front > i { front - 1 } else { front });
            }
        }
        Step::Nodes(i, from, n) => {
            let mut l = lists(&c.state)?;
            if i >= l.fronts.len() || from + n > l.fronts[i].len() {
                return None;
            }
            l.fronts[i].drain(from..from + n);
            c.state = written(&l, c.state.counts);
        }
        Step::Quads(from, n) => {
            let mut l = lists(&c.state)?;
            if 4 * (from + n) > l.quads.len() {
                return None;
            }
            l.quads.drain(4 * from..4 * (from + n));
            let left = l.quads.len() / 4;
            let mut counts = c.state.counts;
            counts.laid = counts.laid.min(left);
            counts.row_quads = counts.row_quads.min(left);
            counts.core_quads = left - counts.row_quads;
            counts.row_rounds = counts.row_rounds.min(counts.row_quads / 6);
            c.state = written(&l, counts);
        }
        Step::Unused => {
            let mut l = lists(&c.state)?;
            let mut used = vec![false; l.points.len() / 2];
            for &node in l.quads.iter().chain(l.fronts.iter().flatten()) {
                *used.get_mut(node as usize)? = true;
            }
            let number: Vec<u16> = used.iter().scan(0, |n, &u| { let at = *n; *n += u as u16; Some(at) }).collect();
            l.quads.iter_mut().chain(l.fronts.iter_mut().flatten()).for_each(|node| *node = number[*node as usize]);
            l.points = l.points.chunks_exact(2).zip(&used).filter(|(_, u)| **u).flat_map(|(p, _)| [p[0], p[1]]).collect();
            c.state = written(&l, c.state.counts);
        }
        Step::Count(k, n) => {
            let mut list = c.state.counts.list();
            list[k] = n;
            c.state.counts = Counts::of(list);
        }
        Step::Kinds => {
            let quads = c.state.counts.quads;
            c.state.counts = Counts { row_quads: 0, core_quads: quads, row_rounds: 0, laid: 0, ..c.state.counts };
        }
        Step::StateDigits(digits) => {
            let held = (2 * c.state.counts.points).min(c.state.buffers.points.len());
            c.state.buffers.points[..held].iter_mut().for_each(|x| *x = to_places(*x, places(digits)));
        }
        Step::StateDigit(i, digits) => *c.state.buffers.points.get_mut(i)? = rounded(case.state.buffers.points[i], digits),
    }
    Some(c)
}

/// Parts of a list, halves first, then quarters and so on to single ones.
fn parts(n: usize, mut put: impl FnMut(usize, usize)) {
    let mut part = n.div_ceil(2);
    while part > 0 {
        (0..n.div_ceil(part)).rev().for_each(|k| put(k * part, part.min(n - k * part)));
        part = if part == 1 { 0 } else { part.div_ceil(2) };
    }
}

/// All steps that a case of this size may take, the greatest first.
fn steps(case: &Case) -> Vec<Step> {
    let (job, state) = (&case.job, &case.state);
    let mut out = vec![Step::Standard, Step::Zeros, Step::Sound];
    out.extend((0..job.lengths.len()).rev().map(Step::Loop));
    if on_a_state(case.call) {
        out.extend((0..state.counts.fronts.min(16)).rev().map(Step::Front));
        out.push(Step::Kinds);
        parts(state.counts.quads.min(4_096), |from, n| out.push(Step::Quads(from, n)));
        for (i, &n) in state.buffers.front_lengths.iter().take(state.counts.fronts).enumerate() {
            parts((n as usize).min(2_048), |from, n| out.push(Step::Nodes(i, from, n)));
            (0..(n as usize / 2).min(1_024)).for_each(|k| out.push(Step::Nodes(i, 2 * k, 2)));
        }
        out.push(Step::Unused);
        out.extend((3..8).map(|k| Step::Count(k, 0)));
    }
    if sound(job) {
        for (i, &n) in job.lengths.iter().enumerate() {
            parts(n, |from, n| out.push(Step::Points(i, from, n)));
        }
    }
    out.extend((0..6).map(Step::Default));
    out.extend((0..3).flat_map(|k| [0.0, 1.0, 100.0].map(|x| Step::Limit(k, x))));
    out.extend([0.5, 0.9, 0.02].map(|x| Step::Limit(5, x)));
    out.extend(FLOATS.into_iter().flat_map(|k| (0..16).map(move |digits| Step::OptionDigits(k, digits))));
    out.extend([0, 1, 2, 3, 4, 8, 16].map(Step::Passes));
    out.extend((0..ALL_DIGITS).map(Step::Shift));
    out.extend([1.0, 1_000.0].into_iter().flat_map(|size| (0..ALL_DIGITS).map(move |digits| Step::Scale(size, digits))));
    out.extend([0.1, 0.5].into_iter().flat_map(|by| (0..ALL_DIGITS).map(move |digits| Step::Shrink(by, digits))));
    out.extend((0..17).map(Step::SizeDigits));
    out.extend((0..ALL_DIGITS).map(Step::AllDigits));
    if on_a_state(case.call) {
        out.extend((0..ALL_DIGITS).map(Step::StateDigits));
    }
    out
}

/// The steps that take digits of single numbers, which many inputs are left for.
fn fine(case: &Case) -> Vec<Step> {
    let mut out = Vec::new();
    for i in 0..case.job.xy.len() {
        out.extend((0..16).map(|digits| Step::Digits(i, digits)));
    }
    if on_a_state(case.call) {
        for i in 0..(2 * case.state.counts.points).min(case.state.buffers.points.len()) {
            out.extend((0..16).map(|digits| Step::StateDigit(i, digits)));
        }
    }
    out
}

/// How large a case is: what is counted first is to become less, whatever the rest.
fn weight(case: &Case) -> (usize, usize, usize) {
    let digits = |x: f64| match x.to_bits() {
        0 => 0,
        // a digit counts more than a place
        _ if x.is_finite() => 4 * format!("{x:e}").bytes().take_while(|b| *b != b'e').filter(u8::is_ascii_digit).count() + format!("{x}").len(),
        _ => 12,
    };
    let job = &case.job;
    let o = &job.options;
    let d = default_options();
    let floats = |o: &Options| [o.corner_margin, o.min_edge_fraction, o.front_gap, o.corner_limit];
    let others = floats(o).into_iter().zip(floats(&d)).filter(|(x, y)| x != y).count() + (o.max_row_rounds != d.max_row_rounds) as usize + o.seam as usize;
    let mut things = job.lengths.len() + job.xy.len() + others;
    let mut held = case.state.buffers.points.iter().filter(|x| x.to_bits() != 0).count();
    let b = &case.state.buffers;
    held += [&b.quads, &b.front_nodes, &b.front_lengths].into_iter().flatten().filter(|x| **x != 0).count();
    held += !b.fits() as usize + !sound(job) as usize;
    let mut long: usize = digits(job.h) + job.xy.iter().map(|&x| digits(x)).sum::<usize>();
    long += floats(o).into_iter().map(digits).sum::<usize>() + o.max_row_rounds;
    if on_a_state(case.call) {
        let c = &case.state.counts;
        things += c.points.min(1 << 20) + c.quads.min(1 << 20) + c.fronts.min(1 << 20) + c.list()[3..].iter().filter(|n| **n != 0).count();
        long += b.points.iter().take(2 * c.points.min(4_096)).map(|&x| digits(x)).sum::<usize>();
    }
    (things, held, long)
}

/// The case made smaller, and how many were tried; `differs` says whether one still shows the difference.
pub fn reduced(mut case: Case, differs: &mut dyn FnMut(&Case) -> bool, most: usize) -> (Case, usize) {
    let mut tried = 0;
    for round in [steps, fine, steps, fine] {
        loop {
            let mut less = false;
            for step in round(&case) {
                if tried >= most {
                    return (case, tried);
                }
                let Some(other) = changed(&case, step) else { continue };
                if weight(&other) >= weight(&case) {
                    continue;
                }
                tried += 1;
                if differs(&other) {
                    case = other;
                    less = true;
                }
            }
            if !less {
                break;
            }
        }
    }
    (case, tried)
}
