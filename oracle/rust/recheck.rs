//! The program of document 02's change 2: a tile list read back. Written from documents 01 and 02 alone.
//!
//! A list is an `s` line of nodes for each sampled loop, and then what `pave` prints for an accepted job. One that is not
//! readable is number 30; else a pair of nodes that is counted, but not twice, is 31; else a corner that fails the test with the
//! default limit is 32. An accepted list is answered by its own bytes.

use crate::functions::{quad_ok, Point};
use crate::limits::{MAX_FRONTS, MAX_FRONT_NODES, MAX_LOOPS, MAX_PASSES, MAX_PLANNED, MAX_POINTS, MAX_QUADS, MOST_STATE_COORDINATE};
use std::collections::HashMap;

/// What the lines of a list say. No count and no node of a readable list is over 4,096: all are u16.
#[derive(Clone, Default)]
pub struct List {
    pub loops: Vec<Vec<u16>>,
    /// In the order of `done`: points, quads, fronts, `row_quads`, `core_quads`, `row_rounds`, passes begun, laid.
    pub counts: [u16; 8],
    pub points: Vec<Point>,
    pub quads: Vec<[u16; 4]>,
    pub fronts: Vec<Vec<u16>>,
}

/// A decimal: digits alone, and no leading zero. One over 65,535 is over every limit.
fn decimal(field: &[u8]) -> Option<u16> {
    let leading_zero = field.len() > 1 && field[0] == b'0';
    if field.is_empty() || field.len() > 5 || leading_zero {
        return None;
    }
    let mut value = 0u32;
    for digit in field {
        if !digit.is_ascii_digit() {
            return None;
        }
        value = 10 * value + (digit - b'0') as u32;
    }
    u16::try_from(value).ok()
}

/// The bits of an f64: 16 hexadecimal digits, the letters in upper case.
fn hexadecimal(field: &[u8]) -> Option<f64> {
    if field.len() != 16 {
        return None;
    }
    let mut bits = 0u64;
    for digit in field {
        let value = match digit {
            b'0'..=b'9' => digit - b'0',
            b'A'..=b'F' => digit - b'A' + 10,
            _ => return None,
        };
        bits = 16 * bits + value as u64;
    }
    Some(f64::from_bits(bits))
}

/// The fields behind the word of the text's first line, when that line is whole and has this word: it is then taken off the text.
fn line<'a>(text: &mut &'a [u8], word: &[u8]) -> Option<impl Iterator<Item = &'a [u8]>> {
    let end = text.iter().position(|b| *b == b'\n')?;
    let mut fields = text[..end].split(|b| *b == b'\t');
    if fields.next() != Some(word) {
        return None;
    }
    *text = &text[end + 1..];
    Some(fields)
}

fn decimals<'a>(fields: impl Iterator<Item = &'a [u8]>) -> Option<Vec<u16>> {
    fields.map(decimal).collect()
}

/// Just so many decimals, and no more.
fn so_many<'a, const N: usize>(mut fields: impl Iterator<Item = &'a [u8]>) -> Option<[u16; N]> {
    let mut out = [0; N];
    for place in &mut out {
        *place = decimal(fields.next()?)?;
    }
    fields.next().is_none().then_some(out)
}

/// What a text says that has the form of a list: whole lines in their order and nothing else, numbers as `pave` writes them.
pub fn form(mut text: &[u8]) -> Option<List> {
    let mut list = List::default();
    while let Some(fields) = line(&mut text, b"s") {
        list.loops.push(decimals(fields)?);
    }
    list.counts = so_many(line(&mut text, b"done")?)?;
    while let Some(mut fields) = line(&mut text, b"p") {
        list.points.push([hexadecimal(fields.next()?)?, hexadecimal(fields.next()?)?]);
        if fields.next().is_some() {
            return None;
        }
    }
    while let Some(fields) = line(&mut text, b"q") {
        list.quads.push(so_many(fields)?);
    }
    while let Some(fields) = line(&mut text, b"f") {
        list.fronts.push(decimals(fields)?);
    }
    text.is_empty().then_some(list)
}

/// Whether no node stands twice, within one ring or in two.
fn none_twice(rings: &[Vec<u16>]) -> bool {
    let mut nodes = rings.concat();
    nodes.sort_unstable();
    nodes.windows(2).all(|two| two[0] != two[1])
}

fn nodes_of(rings: &[Vec<u16>]) -> usize {
    rings.iter().map(Vec::len).sum()
}

type Rule = (&'static str, fn(&List) -> bool);

/// What the request asks of a list that has the form: counts that agree, number 25, and the rest, each by itself.
pub const RULES: [Rule; 22] = [
    ("as many points as counted", |l| l.points.len() == l.counts[0] as usize),
    ("as many quads as counted", |l| l.quads.len() == l.counts[1] as usize),
    ("as many fronts as counted", |l| l.fronts.len() == l.counts[2] as usize),
    // number 25
    ("4,096 points at most", |l| l.points.len() <= MAX_POINTS),
    ("4,096 quads at most", |l| l.quads.len() <= MAX_QUADS),
    ("16 fronts at most", |l| l.fronts.len() <= MAX_FRONTS),
    ("2,048 front nodes at most", |l| nodes_of(&l.fronts) <= MAX_FRONT_NODES),
    ("three nodes in a front at least", |l| l.fronts.iter().all(|front| front.len() >= 3)),
    ("front nodes below the points", |l| l.fronts.iter().flatten().all(|node| (*node as usize) < l.points.len())),
    ("quad nodes below the points", |l| l.quads.iter().flatten().all(|node| (*node as usize) < l.points.len())),
    ("no front node twice", |l| none_twice(&l.fronts)),
    // a NaN is not within
    ("coordinates within 1,000,000,000", |l| l.points.iter().flatten().all(|c| c.abs() <= MOST_STATE_COORDINATE)),
    ("row_quads and core_quads are the quads", |l| l.counts[3] as usize + l.counts[4] as usize == l.quads.len()),
    ("laid is within the quads", |l| l.counts[7] as usize <= l.quads.len()),
    ("six times row_rounds is within row_quads", |l| 6 * l.counts[5] as usize <= l.counts[3] as usize),
    // the request's own
    ("64 passes at most", |l| l.counts[6] as usize <= MAX_PASSES),
    ("four different nodes in each quad", |l| l.quads.iter().all(|q| (0..4).all(|i| (0..i).all(|j| q[i] != q[j])))),
    ("1 to 16 loops", |l| (1..=MAX_LOOPS).contains(&l.loops.len())),
    ("three nodes in a loop at least", |l| l.loops.iter().all(|ring| ring.len() >= 3)),
    ("loop nodes below the points", |l| l.loops.iter().flatten().all(|node| (*node as usize) < l.points.len())),
    ("no loop node twice", |l| none_twice(&l.loops)),
    ("2,048 loop nodes at most", |l| nodes_of(&l.loops) <= MAX_PLANNED),
];

impl List {
    /// All the lists of nodes in which neighbours are counted: loops, quads, fronts.
    pub fn rings(&self) -> impl Iterator<Item = &[u16]> {
        let quads = self.quads.iter().map(|quad| &quad[..]);
        self.loops.iter().map(Vec::as_slice).chain(quads).chain(self.fronts.iter().map(Vec::as_slice))
    }

    /// How often each pair stands, lower node first; from 255 on, 255.
    fn pairs(&self) -> HashMap<(u16, u16), u8> {
        let sides = nodes_of(&self.loops) + 4 * self.quads.len() + nodes_of(&self.fronts);
        // in an accepted list each pair stands twice
        let mut counts = HashMap::with_capacity(sides / 2);
        for ring in self.rings() {
            let Some(&last) = ring.last() else { continue };
            let mut before = last;
            for &node in ring {
                let count = counts.entry((before.min(node), before.max(node))).or_insert(0u8);
                *count = count.saturating_add(1);
                before = node;
            }
        }
        counts
    }

    pub fn pairs_are_right(&self) -> bool {
        self.pairs().values().all(|count| *count == 2)
    }

    pub fn corners(&self, quad: [u16; 4]) -> [Point; 4] {
        quad.map(|node| self.points[node as usize])
    }

    pub fn corners_pass(&self) -> bool {
        self.quads.iter().all(|quad| quad_ok(self.corners(*quad)))
    }
}

/// The number of a text, 0 when it is accepted.
pub fn number(text: &[u8]) -> u8 {
    let Some(list) = form(text).filter(|list| RULES.iter().all(|(_, holds)| holds(list))) else { return 30 };
    if !list.pairs_are_right() {
        31
    } else if !list.corners_pass() {
        32
    } else {
        0
    }
}

/// What is printed for a text that has this number.
pub fn answer(text: &[u8], number: u8) -> Vec<u8> {
    match number {
        0 => text.to_vec(),
        n => format!("refused\t{n}\n").into_bytes(),
    }
}

/// The program: bytes in, bytes out.
pub fn recheck(text: &[u8]) -> Vec<u8> {
    answer(text, number(text))
}
