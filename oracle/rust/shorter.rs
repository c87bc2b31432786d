//! A tile list made smaller while something holds of it: parts of what its lines say are left out, with the counts following, and
//! then lines and bytes.

use crate::edits::written;
use crate::recheck::{self, List};
use crate::texts::reduced;
use std::collections::HashSet;

/// Up to so many are tried, by parts and by bytes; of long texts fewer, so that they have so many bytes in all.
const MOST_TRIED: [usize; 2] = [3_000, 1_000];
const MOST_BYTES: usize = 30_000_000;

fn tries(text: &[u8], most: usize) -> usize {
    most.min(MOST_BYTES / text.len().max(1))
}

#[derive(Clone, Copy)]
enum Part {
    Quads,
    Fronts,
    Loops,
    /// Nodes of loops and fronts, by number.
    Nodes,
    /// Points that are no node.
    Points,
}

const PARTS: [Part; 5] = [Part::Quads, Part::Fronts, Part::Loops, Part::Nodes, Part::Points];

fn size(list: &List, part: Part) -> usize {
    match part {
        Part::Quads => list.quads.len(),
        Part::Fronts => list.fronts.len(),
        Part::Loops => list.loops.len(),
        Part::Nodes | Part::Points => list.points.len(),
    }
}

/// The list less so many quads: the counts are less by as many, where they can be.
fn less_quads(list: &mut List, from: usize, to: usize) {
    list.quads.drain(from..to);
    let n = (to - from) as u16;
    let c = &mut list.counts;
    let row = n.min(c[3]);
    c[1] = c[1].saturating_sub(n);
    c[3] -= row;
    c[4] = c[4].saturating_sub(n - row);
    c[5] = c[5].saturating_sub(n.div_ceil(6));
    c[7] = c[7].saturating_sub(n);
}

/// The list less those of these points that are no node; the others are numbered anew.
fn less_points(list: &mut List, from: usize, to: usize) {
    let is_node: HashSet<usize> = list.rings().flatten().map(|node| *node as usize).collect();
    let goes = |i: usize| (from..to).contains(&i) && !is_node.contains(&i);
    // for each point, how many go before it
    let mut before = vec![0; list.points.len() + 1];
    (0..list.points.len()).for_each(|i| before[i + 1] = before[i] + goes(i) as u16);
    let nodes = list.loops.iter_mut().flatten().chain(list.quads.iter_mut().flatten()).chain(list.fronts.iter_mut().flatten());
    nodes.for_each(|node| *node -= before[(*node as usize).min(list.points.len())]);
    list.counts[0] = list.counts[0].saturating_sub(before[list.points.len()]);
    let mut i = 0..;
    list.points.retain(|_| !i.next().is_some_and(goes));
}

fn less(list: &List, part: Part, from: usize, to: usize) -> List {
    let mut list = list.clone();
    match part {
        Part::Quads => less_quads(&mut list, from, to),
        Part::Fronts => {
            list.fronts.drain(from..to);
            list.counts[2] = list.counts[2].saturating_sub((to - from) as u16);
        }
        Part::Loops => drop(list.loops.drain(from..to)),
        Part::Nodes => {
            let rings = list.loops.iter_mut().chain(list.fronts.iter_mut());
            rings.for_each(|ring| ring.retain(|node| !(from..to).contains(&(*node as usize))));
        }
        Part::Points => less_points(&mut list, from, to),
    }
    list
}

/// One part left out in ever smaller pieces; how many more may be tried.
fn by_part(list: &mut List, part: Part, holds: &mut dyn FnMut(&[u8]) -> bool, mut tries: usize) -> usize {
    let mut piece = size(list, part).div_ceil(2);
    while piece > 0 && tries > 0 {
        let mut from = 0;
        while from < size(list, part) && tries > 0 {
            let other = less(list, part, from, (from + piece).min(size(list, part)));
            tries -= 1;
            let text = written(&other);
            if text.len() < written(list).len() && holds(&text) {
                *list = other;
            } else {
                from += piece;
            }
        }
        piece = if piece == 1 { 0 } else { piece.div_ceil(2) };
    }
    tries
}

/// The text made smaller.
pub fn shorter(mut text: Vec<u8>, holds: &mut dyn FnMut(&[u8]) -> bool) -> Vec<u8> {
    if let Some(mut list) = recheck::form(&text) {
        let mut left = tries(&text, MOST_TRIED[0]);
        for part in PARTS.into_iter().chain(PARTS) {
            left = by_part(&mut list, part, holds, left);
        }
        text = written(&list);
    }
    let most = tries(&text, MOST_TRIED[1]);
    reduced(text, holds, most).0
}
