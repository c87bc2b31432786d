//! A tile list's bytes, and ways in which it is edited: what its lines say, and then its bytes. Some leave it accepted.

use crate::functions::Point;
use crate::generate::Random;
use crate::limits::{MAX_PASSES, MOST_STATE_COORDINATE};
use crate::recheck::List;
use crate::texts::{lines_of, numbers_in, some};

/// An edit of what the lines say; `None` when the list has nothing of the kind.
pub type Said = (&'static str, fn(&mut Random, &mut List) -> Option<()>);

/// An edit of the bytes.
pub type Written = (&'static str, fn(&mut Random, &mut Vec<u8>));

fn put_decimal(out: &mut Vec<u8>, n: u16) {
    if n > 9 {
        put_decimal(out, n / 10);
    }
    out.push(b'0' + (n % 10) as u8);
}

pub fn put_line(out: &mut Vec<u8>, word: &str, numbers: &[u16]) {
    out.extend(word.bytes());
    for &n in numbers {
        out.push(b'\t');
        put_decimal(out, n);
    }
    out.push(b'\n');
}

/// A list's bytes.
pub fn written(list: &List) -> Vec<u8> {
    let mut out = Vec::new();
    list.loops.iter().for_each(|nodes| put_line(&mut out, "s", nodes));
    put_line(&mut out, "done", &list.counts);
    for p in &list.points {
        out.push(b'p');
        for bits in p.map(f64::to_bits) {
            out.push(b'\t');
            out.extend((0..16).rev().map(|k| b"0123456789ABCDEF"[(bits >> (4 * k)) as usize & 15]));
        }
        out.push(b'\n');
    }
    list.quads.iter().for_each(|nodes| put_line(&mut out, "q", nodes));
    list.fronts.iter().for_each(|nodes| put_line(&mut out, "f", nodes));
    out
}

/// The counts of lines as the lines are, and the others as they were as far as number 25 allows it.
pub fn settle(l: &mut List) -> Option<()> {
    let [points, quads, fronts] = [l.points.len(), l.quads.len(), l.fronts.len()].map(|n| n as u16);
    let c = l.counts;
    let row = c[3].min(quads);
    l.counts = [points, quads, fronts, row, quads - row, c[5].min(row / 6), c[6], c[7].min(quads)];
    Some(())
}

fn shuffle<T>(r: &mut Random, list: &mut [T]) {
    for i in (1..list.len()).rev() {
        list.swap(i, r.below(i + 1));
    }
}

fn place<T>(r: &mut Random, list: &[T]) -> Option<usize> {
    if list.is_empty() { None } else { Some(r.below(list.len())) }
}

/// Two places that differ.
fn two_places<T>(r: &mut Random, list: &[T]) -> Option<(usize, usize)> {
    if list.len() < 2 {
        return None;
    }
    let i = r.below(list.len());
    Some((i, (i + r.from_to(1, list.len() - 1)) % list.len()))
}

fn any_node(r: &mut Random, l: &List) -> Option<u16> {
    place(r, &l.points).map(|i| i as u16)
}

fn ring<'a>(r: &mut Random, rings: &'a mut [Vec<u16>]) -> Option<&'a mut Vec<u16>> {
    let i = place(r, rings)?;
    Some(&mut rings[i])
}

/// The same rings, each begun elsewhere or the other way round, in another order.
fn turned(r: &mut Random, rings: &mut [Vec<u16>]) -> Option<()> {
    shuffle(r, rings);
    for ring in rings.iter_mut().filter(|ring| !ring.is_empty()) {
        let by = r.below(ring.len());
        ring.rotate_left(by);
        if r.chance(50) {
            ring.reverse();
        }
    }
    (!rings.is_empty()).then_some(())
}

/// New points anywhere, and their nodes.
pub fn new_nodes(r: &mut Random, l: &mut List, n: usize) -> Vec<u16> {
    let first = l.points.len();
    l.points.extend((0..n).map(|_| [r.between(-1e6, 1e6), r.between(-1e6, 1e6)]));
    (first..first + n).map(|i| i as u16).collect()
}

/// New points on a square, and their nodes.
pub fn new_square(r: &mut Random, l: &mut List) -> [u16; 4] {
    let first = l.points.len() as u16;
    let (x, y, side) = (r.between(-1e6, 1e6), r.between(-1e6, 1e6), r.between(1.0, 1e5));
    l.points.extend([[x, y], [x + side, y], [x + side, y + side], [x, y + side]]);
    [0, 1, 2, 3].map(|k| first + k)
}

/// Two new squares with one node in common.
fn touching_squares(r: &mut Random, l: &mut List) -> [[u16; 4]; 2] {
    let a = new_square(r, l);
    let b = new_square(r, l);
    let by = [0, 1].map(|k| l.points[a[2] as usize][k] - l.points[b[0] as usize][k]);
    b.iter().for_each(|node| {
        let p = &mut l.points[*node as usize];
        *p = [p[0] + by[0], p[1] + by[1]];
    });
    [a, [a[2], b[1], b[2], b[3]]]
}

/// As rings that touch: two, or one that comes twice through the node.
fn touching_rings(r: &mut Random, [a, b]: [[u16; 4]; 2]) -> Vec<Vec<u16>> {
    if r.chance(50) {
        return vec![a.to_vec(), b.to_vec()];
    }
    vec![[a[2], a[3], a[0], a[1], b[0], b[1], b[2], b[3]].to_vec()]
}

/// Every node under another number.
pub fn renumber(r: &mut Random, l: &mut List) -> Option<()> {
    let mut new: Vec<u16> = (0..l.points.len() as u16).collect();
    shuffle(r, &mut new);
    let old = l.points.clone();
    old.iter().zip(&new).for_each(|(p, node)| l.points[*node as usize] = *p);
    let nodes = l.loops.iter_mut().flatten().chain(l.quads.iter_mut().flatten()).chain(l.fronts.iter_mut().flatten());
    // an edit before this one may have left a node that is no point
    nodes.for_each(|node| *node = new.get(*node as usize).copied().unwrap_or(*node));
    Some(())
}

/// Counts that no line bears out: any that number 25 and the request allow.
pub fn free_counts(r: &mut Random, l: &mut List) -> Option<()> {
    settle(l)?;
    // now and then the most itself
    let up_to = |r: &mut Random, most: usize| if r.chance(40) { most } else { r.below(most + 1) };
    let quads = l.quads.len();
    let row = up_to(r, quads);
    let rounds = up_to(r, row / 6);
    let rest = [row, quads - row, rounds, up_to(r, MAX_PASSES), up_to(r, quads)];
    l.counts[3..].copy_from_slice(&rest.map(|n| n as u16));
    Some(())
}

fn every_coordinate(l: &mut List, change: impl Fn(f64) -> f64) -> Option<()> {
    l.points.iter_mut().flatten().for_each(|c| *c = change(*c));
    Some(())
}

fn greatest(l: &List) -> f64 {
    l.points.iter().flatten().fold(0.0, |m: f64, c| m.max(c.abs()))
}

/// All points by the same factor: up to the limit and just over, or so small that products are lost.
fn scaled(r: &mut Random, l: &mut List) -> Option<()> {
    let most = greatest(l);
    if r.chance(50) || most == 0.0 {
        let by = 2f64.powi(r.pick(&[-1060, -540, -530, -520, -500, -30, -1, 1, 8]));
        return every_coordinate(l, |c| c * by);
    }
    let at = r.pick(&[MOST_STATE_COORDINATE, MOST_STATE_COORDINATE, MOST_STATE_COORDINATE.next_up(), MOST_STATE_COORDINATE.next_down()]);
    every_coordinate(l, |c| if c.abs() == most { at.copysign(c) } else { c * (MOST_STATE_COORDINATE / most) })
}

/// A point of a quad is put elsewhere: `to` is given the point and about the length of its side.
fn moved(r: &mut Random, l: &mut List, to: impl Fn(&mut Random, Point, f64) -> Point) -> Option<()> {
    let quad = l.quads[place(r, &l.quads)?];
    let k = r.below(4);
    let [a, b] = [k, (k + 1) % 4].map(|k| l.points.get(quad[k] as usize).copied());
    let (a, b) = (a?, b?);
    l.points[quad[k] as usize] = to(r, a, (b[0] - a[0]).abs() + (b[1] - a[1]).abs());
    Some(())
}

const COORDINATES: [f64; 16] = [
    MOST_STATE_COORDINATE, -MOST_STATE_COORDINATE, MOST_STATE_COORDINATE.next_up(), -MOST_STATE_COORDINATE.next_up(), MOST_STATE_COORDINATE.next_down(),
    f64::INFINITY, f64::NEG_INFINITY, f64::NAN, -f64::NAN, f64::from_bits(0x7FF0_0000_0000_0001), f64::MAX, f64::MIN, 5e-324, -0.0, 0.0, 1.0,
];

/// A ring's node for another.
fn another_node(r: &mut Random, rings: &mut [Vec<u16>], node: u16) -> Option<()> {
    let ring = ring(r, rings)?;
    let i = place(r, ring)?;
    ring[i] = node;
    Some(())
}

/// A node that comes again, in its own ring or in another.
fn repeated_node(r: &mut Random, rings: &mut [Vec<u16>]) -> Option<()> {
    let from = some(r, rings)?;
    let node = some(r, from).copied()?;
    let to = ring(r, rings)?;
    to.insert(r.below(to.len() + 1), node);
    Some(())
}

/// Two nodes of a ring exchanged.
fn other_order(r: &mut Random, rings: &mut [Vec<u16>]) -> Option<()> {
    let ring = ring(r, rings)?;
    let (i, j) = two_places(r, ring)?;
    ring.swap(i, j);
    Some(())
}

fn node_dropped(r: &mut Random, rings: &mut [Vec<u16>]) -> Option<()> {
    let ring = ring(r, rings)?;
    ring.remove(place(r, ring)?);
    Some(())
}

/// A quad so many times more.
fn again(r: &mut Random, l: &mut List, times: usize) -> Option<()> {
    let quad = l.quads[place(r, &l.quads)?];
    for _ in 0..times {
        let at = r.below(l.quads.len() + 1);
        l.quads.insert(at, quad);
    }
    settle(l)
}

pub const SAID: [Said; 60] = [
    // the same sides and corners
    ("quads in another order", |r, l| {
        shuffle(r, &mut l.quads);
        (l.quads.len() > 1).then_some(())
    }),
    ("quads turned", |r, l| {
        l.quads.iter_mut().for_each(|quad| quad.rotate_left(r.below(4)));
        (!l.quads.is_empty()).then_some(())
    }),
    ("fronts turned, reversed or exchanged", |r, l| turned(r, &mut l.fronts)),
    ("loops turned, reversed or exchanged", |r, l| turned(r, &mut l.loops)),
    ("loops and fronts in each other's place", |_, l| {
        if l.fronts.is_empty() {
            return None;
        }
        std::mem::swap(&mut l.loops, &mut l.fronts);
        settle(l)
    }),
    ("nodes under other numbers", renumber),
    ("points put behind", |r, l| {
        let n = r.from_to(1, 9);
        new_nodes(r, l, n);
        settle(l)
    }),
    ("counts as free as they are", free_counts),
    ("a loop and a front put in", |r, l| {
        let n = r.from_to(3, 9);
        let nodes = new_nodes(r, l, n);
        l.loops.push(nodes.clone());
        l.fronts.push(nodes);
        settle(l)
    }),
    ("a square put in twice", |r, l| {
        let quad = new_square(r, l);
        l.quads.extend([quad, quad]);
        settle(l)
    }),
    ("a quad made a front", |r, l| {
        let quad = l.quads.remove(place(r, &l.quads)?);
        l.fronts.push(quad.to_vec());
        settle(l)
    }),
    // corners
    ("scaled", scaled),
    ("shifted", |r, l| {
        let by = r.pick(&[1.0, 1e3, 1e6, 5e8, 1e9, -1e9]);
        every_coordinate(l, |c| c + by)
    }),
    ("mirrored", |r, l| {
        l.points.iter_mut().for_each(|p| p[0] = -p[0]);
        if r.chance(50) {
            l.quads.iter_mut().for_each(|quad| quad.reverse());
        }
        Some(())
    }),
    ("all points in a line", |r, l| {
        let k = r.below(2);
        l.points.iter_mut().for_each(|p| p[k] = 0.0);
        Some(())
    }),
    ("a point moved far", |r, l| moved(r, l, |r, _, _| [r.between(-1e9, 1e9), r.between(-1e9, 1e9)])),
    ("a point moved by about a side", |r, l| moved(r, l, |r, p, side| p.map(|c| c + side * r.between(-1.5, 1.5)))),
    ("a point moved by a part of a side", |r, l| moved(r, l, |r, p, side| p.map(|c| c + side * r.between(-0.3, 0.3)))),
    ("a point's last bit changed", |r, l| moved(r, l, |_, p, _| [f64::from_bits(p[0].to_bits() ^ 1), p[1]])),
    ("a point put on another", |r, l| {
        let (i, j) = two_places(r, &l.points)?;
        l.points[i] = l.points[j];
        Some(())
    }),
    ("a coordinate at a limit", |r, l| {
        let i = place(r, &l.points)?;
        l.points[i][r.below(2)] = r.pick(&COORDINATES);
        Some(())
    }),
    ("a coordinate of a point behind at a limit", |r, l| {
        let node = new_nodes(r, l, 1)[0] as usize;
        l.points[node][r.below(2)] = r.pick(&COORDINATES);
        settle(l)
    }),
    ("a quad reversed", |r, l| {
        let i = place(r, &l.quads)?;
        l.quads[i].reverse();
        Some(())
    }),
    ("a quad of any nodes put in twice", |r, l| {
        let quad = [any_node(r, l)?, any_node(r, l)?, any_node(r, l)?, any_node(r, l)?];
        l.quads.extend([quad, quad]);
        settle(l)
    }),
    // pairs
    ("a quad doubled", |r, l| again(r, l, 1)),
    ("a quad three times", |r, l| again(r, l, 2)),
    ("a quad hundreds of times", |r, l| {
        let times = r.pick(&[126, 254, 255, 256, 257, 510, 512]);
        again(r, l, times)
    }),
    ("a quad dropped", |r, l| {
        l.quads.remove(place(r, &l.quads)?);
        settle(l)
    }),
    ("a quad for another", |r, l| {
        let (i, j) = two_places(r, &l.quads)?;
        l.quads[i] = l.quads[j];
        Some(())
    }),
    ("a quad's nodes in another order", |r, l| {
        let i = place(r, &l.quads)?;
        let (j, k) = two_places(r, &[0; 4])?;
        l.quads[i].swap(j, k);
        Some(())
    }),
    ("nodes of two quads exchanged", |r, l| {
        let (i, j) = two_places(r, &l.quads)?;
        let (a, b) = (r.below(4), r.below(4));
        (l.quads[i][a], l.quads[j][b]) = (l.quads[j][b], l.quads[i][a]);
        Some(())
    }),
    ("a quad's node for another", |r, l| {
        let i = place(r, &l.quads)?;
        l.quads[i][r.below(4)] = any_node(r, l)?;
        Some(())
    }),
    ("a front dropped", |r, l| {
        l.fronts.remove(place(r, &l.fronts)?);
        settle(l)
    }),
    ("a front's nodes in another order", |r, l| other_order(r, &mut l.fronts)),
    ("a front's node for another", |r, l| {
        let node = any_node(r, l)?;
        another_node(r, &mut l.fronts, node)
    }),
    ("nodes of two fronts exchanged", |r, l| {
        let (i, j) = two_places(r, &l.fronts)?;
        let (a, b) = (place(r, &l.fronts[i])?, place(r, &l.fronts[j])?);
        (l.fronts[i][a], l.fronts[j][b]) = (l.fronts[j][b], l.fronts[i][a]);
        Some(())
    }),
    ("a front's node dropped", |r, l| node_dropped(r, &mut l.fronts)),
    ("a loop dropped", |r, l| {
        l.loops.remove(place(r, &l.loops)?);
        Some(())
    }),
    ("a loop's nodes in another order", |r, l| other_order(r, &mut l.loops)),
    ("a loop's node for another", |r, l| {
        let node = any_node(r, l)?;
        another_node(r, &mut l.loops, node)
    }),
    ("a loop's node dropped", |r, l| node_dropped(r, &mut l.loops)),
    ("a loop once more as a front", |r, l| {
        let i = place(r, &l.loops)?;
        l.fronts.push(l.loops[i].clone());
        settle(l)
    }),
    // not readable, for the most part
    ("a node at the points or over", |r, l| {
        let n = l.points.len() as u16;
        let node = r.pick(&[n, n, n + 1, n.wrapping_add(4_096), 65_535]);
        match r.below(3) {
            0 => another_node(r, &mut l.loops, node),
            1 => another_node(r, &mut l.fronts, node),
            _ => {
                let i = place(r, &l.quads)?;
                l.quads[i][r.below(4)] = node;
                Some(())
            }
        }
    }),
    ("the last point dropped", |_, l| {
        l.points.pop()?;
        settle(l)
    }),
    ("a quad's node repeated", |r, l| {
        let i = place(r, &l.quads)?;
        let (j, k) = two_places(r, &[0; 4])?;
        l.quads[i][j] = l.quads[i][k];
        Some(())
    }),
    ("a quad there and back put in", |r, l| {
        let n = new_nodes(r, l, 3);
        l.quads.push([n[0], n[1], n[0], n[2]]);
        settle(l)
    }),
    ("a loop's node repeated", |r, l| repeated_node(r, &mut l.loops)),
    ("a front's node repeated", |r, l| repeated_node(r, &mut l.fronts)),
    ("loops that touch put in", |r, l| {
        let two = touching_squares(r, l);
        l.loops.extend(touching_rings(r, two));
        l.quads.extend(two);
        settle(l)
    }),
    ("fronts that touch put in", |r, l| {
        let two = touching_squares(r, l);
        l.fronts.extend(touching_rings(r, two));
        l.quads.extend(two);
        settle(l)
    }),
    ("a loop of none, one or two put in", |r, l| {
        let n = r.below(3);
        let nodes = new_nodes(r, l, n);
        l.loops.push(nodes);
        settle(l)
    }),
    ("a front of none, one or two put in", |r, l| {
        let n = r.below(3);
        let nodes = new_nodes(r, l, n);
        l.fronts.push(nodes);
        settle(l)
    }),
    ("16 or 17 loops", |r, l| {
        let wanted = r.pick(&[16, 17, 17]);
        while l.loops.len() < wanted {
            let quad = new_square(r, l);
            l.loops.push(quad.to_vec());
            l.quads.push(quad);
        }
        settle(l)
    }),
    ("16 or 17 fronts", |r, l| {
        let wanted = r.pick(&[16, 17, 17]);
        while l.fronts.len() < wanted {
            let quad = new_square(r, l);
            l.fronts.push(quad.to_vec());
            l.quads.push(quad);
        }
        settle(l)
    }),
    ("a count changed by one", |r, l| {
        let i = r.below(8);
        l.counts[i] = if r.chance(50) { l.counts[i].wrapping_add(1) } else { l.counts[i].saturating_sub(1) };
        Some(())
    }),
    ("65 passes", |_, l| {
        l.counts[6] = 65;
        Some(())
    }),
    ("other passes", |r, l| {
        l.counts[6] = r.pick(&[0, 63, 64, 64, 66, 128, 256, 320, 65_535]);
        Some(())
    }),
    ("rows for a sixth of row_quads, or one more", |r, l| {
        l.counts[5] = l.counts[3] / 6 + r.below(2) as u16;
        Some(())
    }),
    ("laid as many as the quads, or one more", |r, l| {
        l.counts[7] = l.counts[1] + r.below(2) as u16;
        Some(())
    }),
    ("row_quads and core_quads that wrap, or rows", |r, l| {
        if r.chance(50) {
            let k = r.below(5) as u16;
            l.counts[3] = 65_535 - k;
            l.counts[4] = l.counts[1] + k + 1;
        } else {
            l.counts[5] = 10_923;
        }
        Some(())
    }),
];

/// The places of all fields.
fn fields_in(text: &[u8]) -> Vec<(usize, usize)> {
    let mut from = 0;
    let mut out = Vec::new();
    for (i, _) in text.iter().enumerate().filter(|(_, b)| matches!(b, b'\t' | b'\n')) {
        out.push((from, i));
        from = i + 1;
    }
    out
}

/// The contents of two places exchanged, the first before the second.
fn exchange(t: &mut Vec<u8>, a: (usize, usize), b: (usize, usize)) {
    let new = [&t[..a.0], &t[b.0..b.1], &t[a.1..b.0], &t[a.0..a.1], &t[b.1..]].concat();
    *t = new;
}

fn of_lines(t: &mut Vec<u8>, change: impl FnOnce(&mut Vec<Vec<u8>>)) {
    let mut lines = lines_of(t);
    if !lines.is_empty() {
        change(&mut lines);
    }
    *t = lines.concat();
}

fn has_word(line: &[u8], word: &[u8]) -> bool {
    line.starts_with(word) && line.get(word.len()).is_some_and(|b| matches!(b, b'\t' | b'\n'))
}

const NUMBERS_FOR_OTHERS: [&str; 24] = [
    "0", "1", "2", "3", "16", "17", "64", "65", "4095", "4096", "4097", "65535", "65536", "00", "-0", "-1", "+1", "", " 1", "1 ", "1.0", "0x1", "A", "\u{661}",
];

const LINES: [&[u8]; 18] = [
    b"s\t0\t1\t2\n", b"s\n", b"s\t\n", b"done\t4\t1\t0\t1\t0\t0\t1\t0\n", b"done\n", b"p\t0000000000000000\t0000000000000000\n", b"p\n", b"q\t0\t1\t2\t3\n",
    b"q\t0\t1\t2\n", b"q\t0\t1\t2\t3\t4\n", b"f\t0\t1\t2\n", b"f\n", b"\n", b"\t\n", b"end\n", b"S\t0\t1\t2\n", b"refused\t30\n", b"at\t0\t0\n",
];

/// A decimal that is the same in so many bits.
fn wrapped(field: &[u8], bits: u32) -> Option<Vec<u8>> {
    let n: u128 = std::str::from_utf8(field).ok()?.parse().ok()?;
    Some(n.checked_add(1 << bits)?.to_string().into_bytes())
}

pub const WRITTEN: [Written; 34] = [
    ("a byte changed", |r, t| {
        let i = r.below(t.len());
        t[i] = if r.chance(30) { r.next() as u8 } else { r.pick(b"0123456789ABCDEFabcdef\t\n\rsdonepqf- ") };
    }),
    ("a digit changed", |r, t| {
        let digits: Vec<usize> = (0..t.len()).filter(|&i| t[i].is_ascii_digit()).collect();
        if let Some(&i) = some(r, &digits) {
            t[i] = r.pick(b"0123456789");
        }
    }),
    ("a byte dropped", |r, t| {
        t.remove(r.below(t.len()));
    }),
    ("a byte doubled", |r, t| {
        let i = r.below(t.len());
        t.insert(i, t[i]);
    }),
    ("a byte put in", |r, t| t.insert(r.below(t.len() + 1), r.pick(b"0123456789ABCDEFa-+ \t\n\r\0\xff"))),
    ("cut", |r, t| t.truncate(r.below(t.len()))),
    ("cut at a line", |r, t| {
        of_lines(t, |lines| lines.truncate(r.below(lines.len())));
    }),
    ("a line dropped", |r, t| {
        of_lines(t, |lines| drop(lines.remove(r.below(lines.len()))));
    }),
    ("a line doubled", |r, t| {
        of_lines(t, |lines| {
            let i = r.below(lines.len());
            lines.insert(i, lines[i].clone());
        });
    }),
    ("a line moved", |r, t| {
        of_lines(t, |lines| {
            let line = lines.remove(r.below(lines.len()));
            lines.insert(r.below(lines.len() + 1), line);
        });
    }),
    ("two lines exchanged", |r, t| {
        of_lines(t, |lines| {
            let (i, j) = (r.below(lines.len()), r.below(lines.len()));
            lines.swap(i, j);
        });
    }),
    ("a line of the same word exchanged with the next", |r, t| {
        of_lines(t, |lines| {
            let alike: Vec<usize> = (1..lines.len()).filter(|&i| lines[i][0] == lines[i - 1][0]).collect();
            if let Some(&i) = some(r, &alike) {
                lines.swap(i - 1, i);
            }
        });
    }),
    ("a line put in", |r, t| {
        of_lines(t, |lines| lines.insert(r.below(lines.len() + 1), r.pick(&LINES).to_vec()));
    }),
    ("two fields exchanged", |r, t| {
        let fields = fields_in(t);
        if let Some((i, j)) = two_places(r, &fields) {
            exchange(t, fields[i.min(j)], fields[i.max(j)]);
        }
    }),
    ("two fields of a line exchanged", |r, t| {
        of_lines(t, |lines| {
            let i = r.below(lines.len());
            let fields: Vec<_> = fields_in(&lines[i]).into_iter().skip(1).collect();
            if let Some((a, b)) = two_places(r, &fields) {
                exchange(&mut lines[i], fields[a.min(b)], fields[a.max(b)]);
            }
        });
    }),
    ("a field dropped", |r, t| {
        if let Some(&(from, to)) = some(r, &numbers_in(t)) {
            t.drain(from - 1..to);
        }
    }),
    ("a field doubled", |r, t| {
        if let Some(&(from, to)) = some(r, &numbers_in(t)) {
            let field = t[from - 1..to].to_vec();
            t.splice(to..to, field);
        }
    }),
    ("a number for another", |r, t| {
        if let Some(&(from, to)) = some(r, &numbers_in(t)) {
            t.splice(from..to, r.pick(&NUMBERS_FOR_OTHERS).bytes());
        }
    }),
    ("a number that is the same in 8, 16, 32 or 64 bits", |r, t| {
        let short: Vec<_> = numbers_in(t).into_iter().filter(|(from, to)| to - from < 6).collect();
        if let Some(&(from, to)) = some(r, &short) {
            if let Some(other) = wrapped(&t[from..to], r.pick(&[8, 16, 32, 64])) {
                t.splice(from..to, other);
            }
        }
    }),
    ("a leading zero", |r, t| {
        if let Some(&(from, _)) = some(r, &numbers_in(t)) {
            t.insert(from, b'0');
        }
    }),
    ("a leading zero of a node or count", |r, t| {
        let short: Vec<_> = numbers_in(t).into_iter().filter(|(from, to)| to - from < 6).collect();
        if let Some(&(from, _)) = some(r, &short) {
            t.insert(from, b'0');
        }
    }),
    ("a sign", |r, t| {
        if let Some(&(from, _)) = some(r, &numbers_in(t)) {
            t.insert(from, r.pick(b"+-"));
        }
    }),
    ("lower-case digits", |r, t| {
        let all = r.chance(30);
        let upper: Vec<usize> = (0..t.len()).filter(|&i| t[i].is_ascii_uppercase()).collect();
        let one = some(r, &upper).copied();
        upper.into_iter().filter(|&i| all || Some(i) == one).for_each(|i| t[i].make_ascii_lowercase());
    }),
    ("a word in upper case", |r, t| {
        let words: Vec<usize> = (0..t.len()).filter(|&i| t[i].is_ascii_lowercase()).collect();
        if let Some(&i) = some(r, &words) {
            t[i].make_ascii_uppercase();
        }
    }),
    ("the last line end left out", |_, t| {
        t.pop();
    }),
    ("carriage returns", |r, t| {
        let all = r.chance(50);
        of_lines(t, |lines| {
            let one = r.below(lines.len());
            lines.iter_mut().enumerate().filter(|(i, line)| (all || *i == one) && line.ends_with(b"\n")).for_each(|(_, line)| line.insert(line.len() - 1, b'\r'));
        });
    }),
    ("a space for a tab", |r, t| {
        let tabs: Vec<usize> = (0..t.len()).filter(|&i| t[i] == b'\t').collect();
        if let Some(&i) = some(r, &tabs) {
            t[i] = b' ';
        }
    }),
    ("a space or a tab at a line's end", |r, t| {
        let ends: Vec<usize> = (0..t.len()).filter(|&i| t[i] == b'\n').collect();
        if let Some(&i) = some(r, &ends) {
            t.insert(i, r.pick(b" \t"));
        }
    }),
    ("an empty line", |r, t| {
        let ends: Vec<usize> = (0..t.len()).filter(|&i| t[i] == b'\n').collect();
        if let Some(&i) = some(r, &ends) {
            t.insert(i, b'\n');
        }
    }),
    ("something behind", |r, t| t.extend(r.pick(&[&b"\n"[..], b" ", b"f", b"f\n", b"q\t0\t1\t2\t3", b"\0", b"end\n"]))),
    ("zero bytes behind", |r, t| t.extend(vec![0; r.from_to(1, 100)])),
    ("the s lines behind the list", |_, t| {
        of_lines(t, |lines| {
            let first = lines.iter().take_while(|line| has_word(line, b"s")).count();
            lines.rotate_left(first);
        });
    }),
    ("no s lines", |_, t| {
        of_lines(t, |lines| lines.retain(|line| !has_word(line, b"s")));
    }),
    ("no done line", |_, t| {
        of_lines(t, |lines| lines.retain(|line| !has_word(line, b"done")));
    }),
];
