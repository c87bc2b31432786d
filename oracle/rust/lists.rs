//! Tile lists for document 02's change 2: written from jobs, at the limits, and edited in one place or two (`edits`); and any
//! program that answers them side by side with the reader of `recheck`, byte for byte.

use crate::calls::{self, Buffers, Counts, Job};
use crate::edits::{free_counts, new_nodes, new_square, put_line, renumber, settle, written, SAID, WRITTEN};
use crate::generate::{self, Random};
use crate::limits::{LEAST_CORNER_LIMIT, MOST_CORNER_LIMIT};
use crate::quality::{corner_values, CORNER_LIMIT};
use crate::recheck::{self, List, RULES};
use crate::rounds::Kind;
use crate::shorter::shorter;
use crate::texts::{lines_of, list, number, numbers_in, Program};
use crate::{extremes, text};
use std::collections::{BTreeMap, HashSet};

/// The numbers that a list can get.
pub const NUMBERS: [u8; 4] = [0, 30, 31, 32];

/// No readable list is longer: 4,096 `p` lines of 36 bytes and as many `q` lines of up to 22 are 237,568 bytes, the rest is far
/// less than 49,152. The port's call asks for so much room.
pub const MOST_BYTES: usize = 286_720;

/// So many lists in a row are of one job.
const OF_A_JOB: u64 = 32;

/// A list as a job gives it.
struct Base {
    list: List,
    text: Vec<u8>,
    kind: &'static str,
}

fn narrow(rings: &[Vec<usize>]) -> Vec<Vec<u16>> {
    rings.iter().map(|ring| ring.iter().map(|&node| node as u16).collect()).collect()
}

/// The list of an answer, and its text as the oracle writes it, behind the sampled loops.
fn base_of(loops: &[Vec<usize>], b: &Buffers, c: &Counts, kind: &'static str) -> Base {
    let list = List {
        loops: narrow(loops),
        counts: c.list().map(|n| n as u16),
        points: (0..c.points).map(|i| b.point(i)).collect(),
        quads: (0..c.quads).map(|i| b.quad(i).map(|node| node as u16)).collect(),
        fronts: narrow(&b.fronts(c)),
    };
    let mut text = Vec::new();
    list.loops.iter().for_each(|nodes| put_line(&mut text, "s", nodes));
    text.extend(text::answer(0, c, b).bytes());
    assert!(written(&list) == text, "a list is written as the oracle writes it");
    Base { list, text, kind }
}

/// An accepted job's list, now and then with another corner limit than the default, or after a fan; `None` when it is refused.
fn base_from(r: &mut Random, mut job: Job) -> Option<Base> {
    let mut kind = "whole";
    if r.chance(15) {
        job.options.corner_limit = r.pick(&[LEAST_CORNER_LIMIT, LEAST_CORNER_LIMIT, MOST_CORNER_LIMIT]);
        kind = "whole, another corner limit";
    } else {
        job.options.corner_limit = CORNER_LIMIT;
    }
    let mut b = Buffers::new();
    let (number, sampled) = calls::sample(&job, &mut b);
    if number != 0 {
        return None;
    }
    let loops = b.fronts(&sampled);
    let (number, mut counts) = calls::job(&job, &mut b);
    if number != 0 {
        return None;
    }
    if counts.fronts == 1 && r.chance(60) {
        let (number, after) = calls::fan(&job, &mut b, counts);
        if number == 0 {
            counts = after;
            if job.options.corner_limit == CORNER_LIMIT {
                kind = "whole, with a fan";
            }
        }
    }
    Some(base_of(&loops, &b, &counts, kind))
}

/// Base `index` of a seed: mostly of a small job, and mostly with quads.
fn base(seed: u64, index: u64) -> Base {
    let r = &mut Random::new(seed ^ 0x71135, index);
    for k in (64 * index).. {
        let job = match r.below(500) {
            0 => extremes::near(seed, k).job,
            1..=4 => generate::sampling_job(seed, k).job,
            _ => generate::small_job(seed, k).job,
        };
        match base_from(r, job) {
            Some(base) if !base.list.quads.is_empty() || r.chance(10) => return base,
            _ => {}
        }
    }
    unreachable!("there is always a further job")
}

/// Where a ring of nodes stands, twice in all.
#[derive(Clone, Copy)]
enum Ring {
    LoopAndFront,
    LoopAndQuad,
    FrontAndQuad,
}

/// A new ring of so many nodes, four where it is a quad.
fn put_ring(r: &mut Random, l: &mut List, n: usize, which: Ring) {
    let nodes = match which {
        Ring::LoopAndFront => new_nodes(r, l, n),
        _ => new_square(r, l).to_vec(),
    };
    if !matches!(which, Ring::FrontAndQuad) {
        l.loops.push(nodes.clone());
    }
    if !matches!(which, Ring::LoopAndQuad) {
        l.fronts.push(nodes.clone());
    }
    if !matches!(which, Ring::LoopAndFront) {
        l.quads.push([0, 1, 2, 3].map(|k| nodes[k]));
    }
}

/// Rings of so many nodes in all, loops and fronts both.
fn put_rings(r: &mut Random, l: &mut List, rings: usize, nodes: usize) {
    for k in 0..rings {
        let n = nodes / rings + (k < nodes % rings) as usize;
        put_ring(r, l, n, Ring::LoopAndFront);
    }
}

/// So many squares on a new grid of points, each twice, and no two with a side in common. Squares of another size have other
/// sides, so there are enough.
fn put_squares(l: &mut List, wanted: usize) {
    const SIDE: usize = 33;
    let first = l.points.len();
    l.points.extend((0..SIDE * SIDE).map(|k| [(k % SIDE) as f64, (k / SIDE) as f64]));
    let mut used = HashSet::new();
    let mut left = wanted;
    for step in 1..SIDE {
        for k in 0..(SIDE - step) * (SIDE - step) {
            let corner = first + k / (SIDE - step) * SIDE + k % (SIDE - step);
            let quad = [corner, corner + step, corner + step + SIDE * step, corner + SIDE * step];
            let sides = [0, 1, 2, 3].map(|i| (quad[i].min(quad[(i + 1) % 4]), quad[i].max(quad[(i + 1) % 4])));
            if left == 0 || sides.iter().any(|side| used.contains(side)) {
                continue;
            }
            used.extend(sides);
            l.quads.extend([quad.map(|node| node as u16); 2]);
            left -= 1;
        }
    }
    assert!(left == 0, "the grid has so many squares");
}

/// As many of everything as a list may have, and all pairs twice, with so many loops and fronts; the nodes under mixed numbers.
pub fn longest(r: &mut Random, rings: usize) -> List {
    let mut l = List::default();
    put_squares(&mut l, 2_048);
    put_rings(r, &mut l, rings, 2_048);
    let more = 4_096 - l.points.len();
    new_nodes(r, &mut l, more);
    settle(&mut l);
    renumber(r, &mut l);
    l
}

/// A list that has as many of something as it may, or one more or less, and all pairs twice.
fn at_a_limit(r: &mut Random) -> (List, &'static str) {
    let mut l = List::default();
    let near = |r: &mut Random, limit: usize| limit + r.pick(&[0, 0, 1, 1, 2]) - r.below(2);
    let kind = match r.below(7) {
        0 => {
            let wanted = near(r, 16);
            for k in 0..wanted {
                let n = r.from_to(3, 9);
                put_ring(r, &mut l, n, if k < 8 { Ring::LoopAndFront } else { Ring::LoopAndQuad });
            }
            "loops at the limit"
        }
        1 => {
            let (rings, nodes) = (r.from_to(1, 15), near(r, 2_048));
            put_rings(r, &mut l, rings, nodes - 4);
            put_ring(r, &mut l, 4, Ring::LoopAndQuad);
            "loop nodes at the limit"
        }
        2 => {
            let wanted = near(r, 16);
            for k in 0..wanted {
                let n = r.from_to(3, 9);
                put_ring(r, &mut l, n, if k < 8 { Ring::LoopAndFront } else { Ring::FrontAndQuad });
            }
            "fronts at the limit"
        }
        3 => {
            let (rings, nodes) = (r.from_to(1, 15), near(r, 2_048));
            put_rings(r, &mut l, rings, nodes - 4);
            put_ring(r, &mut l, 4, Ring::FrontAndQuad);
            "front nodes at the limit"
        }
        4 => {
            let wanted = near(r, 4_096);
            put_ring(r, &mut l, 4, if wanted % 2 == 1 { Ring::LoopAndQuad } else { Ring::LoopAndFront });
            put_squares(&mut l, wanted / 2);
            "quads at the limit"
        }
        5 => {
            let (rings, wanted) = (r.from_to(1, 9), near(r, 4_096));
            put_rings(r, &mut l, rings, 5 * rings);
            let more = wanted - l.points.len();
            new_nodes(r, &mut l, more);
            "points at the limit"
        }
        _ => {
            let rings = r.pick(&[1, 16]);
            l = longest(r, rings);
            "all at the limit"
        }
    };
    settle(&mut l);
    if r.chance(70) {
        renumber(r, &mut l);
    }
    if r.chance(50) {
        free_counts(r, &mut l);
    }
    (l, kind)
}

/// One quad with a narrow corner at the default limit: its value is the limit itself, or one of the next on either side.
fn corner_at_limit(r: &mut Random) -> List {
    let w = r.between(1.0, 1e6);
    let quad = |y: f64| [[0.0, 0.0], [w, 0.0], [1.05 * w, 0.0437 * w], [w, y]];
    let passes = |y: f64| corner_values(quad(y))[0] > CORNER_LIMIT;
    let (mut low, mut high) = ((0.08 * w).to_bits(), (0.09 * w).to_bits());
    while low + 1 < high {
        let middle = low + (high - low) / 2;
        if passes(f64::from_bits(middle)) { high = middle } else { low = middle }
    }
    let y = f64::from_bits(high + r.pick(&[0, 0, 1, 2]) - r.pick(&[0, 1, 1, 2]));
    let mut points = quad(y);
    for _ in 0..r.below(4) {
        points = points.map(|p| [-p[1], p[0]]);
    }
    let turn = r.below(4);
    points.rotate_left(turn);
    List { loops: vec![vec![0, 1, 2, 3]], counts: [4, 1, 0, 1, 0, 0, 1, 0], points: points.to_vec(), quads: vec![[0, 1, 2, 3]], fronts: Vec::new() }
}

/// More bytes than any readable list has, or just as many.
fn long(r: &mut Random, base: &Base) -> (Vec<u8>, &'static str) {
    let mut t = base.text.clone();
    match r.below(6) {
        0 => t = t.repeat(MOST_BYTES / t.len() + 1),
        1 => {
            let mut list = base.list.clone();
            new_nodes(r, &mut list, 8_000);
            settle(&mut list);
            t = written(&list);
        }
        2 => {
            let at = t.iter().position(|b| *b == b'\t').map_or(0, |i| i + 1);
            t.splice(at..at, vec![b'0'; MOST_BYTES]);
        }
        3 => {
            let mut list = base.list.clone();
            list.loops[0] = (0..60_000).collect();
            t = written(&list);
        }
        4 => t = vec![r.next() as u8; MOST_BYTES + r.below(1_000)],
        _ => {
            let bytes = MOST_BYTES + 1 - r.pick(&[0, 1, 2]);
            let line = b"f\t0\t1\t2\n";
            while t.len() + 2 * line.len() <= bytes {
                t.extend(line);
            }
            t.resize(bytes - 1, b'7');
            t.push(b'\n');
        }
    }
    let kind = if t.len() > MOST_BYTES { "over 286,720 bytes" } else { "286,719 or 286,720 bytes" };
    (t, kind)
}

/// Texts that are no lists from the first line on.
const OTHERS: [&[u8]; 8] = [b"", b"\n", b"refused\t7\n", b"refused\t7\nrefused\t7\n", b"refused\t30\n", b"s\t0\t1\t2\n", b"done\t0\t0\t0\t0\t0\t0\t0\t0\n", b"size\t1000\nouter\n"];

/// The lists of a seed.
pub struct Maker {
    seed: u64,
    base: Option<(u64, Base)>,
}

impl Maker {
    pub fn new(seed: u64) -> Maker {
        Maker { seed, base: None }
    }

    fn base(&mut self, index: u64) -> &Base {
        let index = index / OF_A_JOB;
        let held = self.base.take().filter(|(i, _)| *i == index);
        &self.base.insert(held.unwrap_or_else(|| (index, base(self.seed, index)))).1
    }

    /// List `index`, and what it is.
    pub fn list(&mut self, index: u64) -> (Vec<u8>, &'static str) {
        let r = &mut Random::new(self.seed ^ 0x11575, index);
        match r.below(2_000) {
            0..=5 => {
                let (list, kind) = at_a_limit(r);
                (written(&list), kind)
            }
            6..=7 => long(r, self.base(index)),
            8..=11 => (r.pick(&OTHERS).to_vec(), "no list"),
            12..=51 => (written(&corner_at_limit(r)), "a corner at the limit"),
            52..=400 => {
                let base = self.base(index);
                (base.text.clone(), base.kind)
            }
            401..=1_750 => edited(r, self.base(index), 1),
            _ => (edited(r, self.base(index), 2).0, "two edits"),
        }
    }
}

/// A list with so many edits, and the last one's name: seven of ten in what the lines say, the others in the bytes.
fn edited(r: &mut Random, base: &Base, edits: usize) -> (Vec<u8>, &'static str) {
    let of_bytes = (0..edits).filter(|_| r.chance(30)).count();
    let mut kind = base.kind;
    let mut list = base.list.clone();
    for _ in of_bytes..edits {
        // another one where the list has nothing of the kind
        kind = loop {
            let (name, edit) = SAID[r.below(SAID.len())];
            if edit(r, &mut list).is_some() {
                break name;
            }
        };
    }
    let mut t = written(&list);
    for _ in 0..of_bytes {
        if t.is_empty() {
            break;
        }
        let (name, edit) = WRITTEN[r.below(WRITTEN.len())];
        edit(r, &mut t);
        kind = name;
    }
    (t, kind)
}

/// Lists put to a program and to the reader.
pub struct Lists<'a> {
    pub program: Program<'a>,
    /// In each round of `all`.
    pub each: u64,
    compared: BTreeMap<&'static str, BTreeMap<u8, u64>>,
    most: usize,
    different: u64,
}

impl<'a> Lists<'a> {
    pub fn new(program: Program<'a>, each: u64) -> Lists<'a> {
        Lists { program, each, compared: BTreeMap::new(), most: 0, different: 0 }
    }

    fn numbers(&self) -> BTreeMap<u8, u64> {
        let mut out = BTreeMap::new();
        for (number, n) in self.compared.values().flatten() {
            *out.entry(*number).or_insert(0) += n;
        }
        out
    }

    /// A line for each kind with its numbers.
    pub fn text(&self) -> String {
        let lines = self.compared.iter().map(|(kind, numbers)| format!("{:>10}  list, {kind}: {}\n", numbers.values().sum::<u64>(), list(numbers)));
        lines.collect::<String>() + &self.line() + "\n"
    }

    /// Lists 0 to `count` of a seed, until one differs.
    pub fn run(&mut self, seed: u64, count: u64) -> Result<(), String> {
        let mut maker = Maker::new(seed);
        for index in 0..count {
            let (text, kind) = maker.list(index);
            let right = recheck::recheck(&text);
            let given = (self.program)(&text);
            *self.compared.entry(kind).or_default().entry(number(&right)).or_insert(0) += 1;
            self.most = self.most.max(right.len());
            if given != right {
                self.different += 1;
                return Err(self.told(seed, index, kind, text));
            }
        }
        Ok(())
    }

    /// The difference, and the list made smaller.
    fn told(&mut self, seed: u64, index: u64, kind: &str, text: Vec<u8>) -> String {
        let before = text.len();
        let small = shorter(text, &mut |t| (self.program)(t) != recheck::recheck(t));
        let short = |answer: Vec<u8>| answer[..answer.len().min(40)].escape_ascii().to_string();
        format!(
            "DIFFERENCE seed {seed} list {index} ({kind}): reduced from {before} to {} bytes: {:?} and not {:?}\n{}\n",
            small.len(), short((self.program)(&small)), short(recheck::recheck(&small)), small.escape_ascii()
        )
    }
}

impl Kind for Lists<'_> {
    fn round(&mut self, seed: u64) -> Result<(), String> {
        self.run(seed, self.each)
    }

    fn line(&self) -> String {
        let numbers = self.numbers();
        format!("lists {}, {} different, answers of at most {} bytes: {}", numbers.values().sum::<u64>(), self.different, self.most, list(&numbers))
    }

    fn missing(&self) -> Vec<String> {
        let given = self.numbers();
        NUMBERS.iter().filter(|n| !given.contains_key(n)).map(|n| format!("the number {n} from lists")).collect()
    }
}

/// A reader with a fault.
pub type Fault = (String, Box<dyn Fn(&[u8]) -> Vec<u8>>);

/// Readers that each go wrong in one thing: a comparison that does not see it shows nothing.
pub fn faults() -> Vec<Fault> {
    let left_out = (0..RULES.len()).map(|i| (format!("without: {}", RULES[i].0), Box::new(move |t: &[u8]| without(t, i)) as Box<dyn Fn(&[u8]) -> Vec<u8>>));
    let named = FAULTS.into_iter().map(|(name, fault)| (name.to_string(), Box::new(fault) as Box<dyn Fn(&[u8]) -> Vec<u8>>));
    left_out.chain(named).collect()
}

/// The reader with one rule left out. Nodes that are no points have a place too.
fn without(t: &[u8], rule: usize) -> Vec<u8> {
    let Some(mut list) = recheck::form(t) else { return recheck::answer(t, 30) };
    if RULES.iter().enumerate().any(|(i, (_, holds))| i != rule && !holds(&list)) {
        return recheck::answer(t, 30);
    }
    list.points.resize(65_536, [0.0; 2]);
    recheck::answer(t, if !list.pairs_are_right() { 31 } else if !list.corners_pass() { 32 } else { 0 })
}

/// A readable list; `None` is 30.
fn readable(t: &[u8]) -> Option<List> {
    recheck::form(t).filter(|list| RULES.iter().all(|(_, holds)| holds(list)))
}

type Sides = Vec<(u16, u16)>;

/// The sides of a ring, the one between last and first at the end.
fn sides_of(ring: &[u16]) -> Sides {
    let n = ring.len();
    (0..n).map(|i| (ring[i].min(ring[(i + 1) % n]), ring[i].max(ring[(i + 1) % n]))).collect()
}

/// The reader that counts other sides, or takes another count of a pair for right.
fn counting(t: &[u8], sides: impl Fn(&List) -> Sides, right: impl Fn(usize) -> bool) -> Vec<u8> {
    let Some(list) = readable(t) else { return recheck::answer(t, 30) };
    let mut all = sides(&list);
    all.sort_unstable();
    let good = all.chunk_by(|a, b| a == b).all(|same| right(same.len()));
    recheck::answer(t, if !good { 31 } else if !list.corners_pass() { 32 } else { 0 })
}

fn all_sides(list: &List) -> Sides {
    list.rings().flat_map(sides_of).collect()
}

/// The sides without one of each of some rings.
fn less_one<'a>(whole: impl Iterator<Item = &'a [u16]>, less: impl Iterator<Item = &'a [u16]>, at: fn(usize) -> usize) -> Sides {
    let mut out: Sides = whole.flat_map(sides_of).collect();
    for ring in less {
        let mut sides = sides_of(ring);
        sides.remove(at(sides.len()));
        out.extend(sides);
    }
    out
}

fn slices(rings: &[Vec<u16>]) -> impl Iterator<Item = &[u16]> {
    rings.iter().map(Vec::as_slice)
}

fn quads_of(list: &List) -> impl Iterator<Item = &[u16]> {
    list.quads.iter().map(|quad| &quad[..])
}

/// The reader whose corner test is another.
fn cornered(t: &[u8], passes: impl Fn([f64; 4]) -> bool) -> Vec<u8> {
    let Some(list) = readable(t) else { return recheck::answer(t, 30) };
    let good = || list.quads.iter().all(|quad| passes(corner_values(list.corners(*quad))));
    recheck::answer(t, if !list.pairs_are_right() { 31 } else if !good() { 32 } else { 0 })
}

/// The answer to a text is that of another.
fn as_if(t: &[u8], other: &[u8]) -> Vec<u8> {
    recheck::answer(t, recheck::number(other))
}

/// The fields of all lines changed, but for the words.
fn changed_fields(t: &[u8], change: impl Fn(&[u8]) -> Vec<u8>) -> Vec<u8> {
    let mut out = t.to_vec();
    for (from, to) in numbers_in(t).into_iter().rev() {
        let new = change(&t[from..to]);
        if new != t[from..to] {
            out.splice(from..to, new);
        }
    }
    as_if(t, &out)
}

const FAULTS: [(&str, fn(&[u8]) -> Vec<u8>); 33] = [
    ("a pair counted once let through", |t| counting(t, all_sides, |n| n <= 2)),
    ("a pair counted three times let through", |t| counting(t, all_sides, |n| n == 2 || n == 3)),
    ("a pair counted four times let through", |t| counting(t, all_sides, |n| n == 2 || n == 4)),
    ("pairs counted in eight bits", |t| counting(t, all_sides, |n| n % 256 == 2)),
    ("an even count let through", |t| counting(t, all_sides, |n| n % 2 == 0)),
    ("a loop's first side forgotten", |t| counting(t, |l| less_one(quads_of(l).chain(slices(&l.fronts)), slices(&l.loops), |_| 0), |n| n == 2)),
    ("a loop's last and first no neighbours", |t| counting(t, |l| less_one(quads_of(l).chain(slices(&l.fronts)), slices(&l.loops), |n| n - 1), |n| n == 2)),
    ("a front's last and first no neighbours", |t| counting(t, |l| less_one(quads_of(l).chain(slices(&l.loops)), slices(&l.fronts), |n| n - 1), |n| n == 2)),
    ("a quad's last and first no neighbours", |t| counting(t, |l| less_one(slices(&l.loops).chain(slices(&l.fronts)), quads_of(l), |_| 3), |n| n == 2)),
    ("loops not counted", |t| counting(t, |l| quads_of(l).chain(slices(&l.fronts)).flat_map(sides_of).collect(), |n| n == 2)),
    ("fronts not counted", |t| counting(t, |l| quads_of(l).chain(slices(&l.loops)).flat_map(sides_of).collect(), |n| n == 2)),
    ("pairs not tested", |t| counting(t, all_sides, |_| true)),
    ("pairs in order", |t| {
        let directed = |l: &List| -> Sides { l.rings().flat_map(|ring| (0..ring.len()).map(move |i| (ring[i], ring[(i + 1) % ring.len()]))).collect() };
        counting(t, directed, |n| n <= 2)
    }),
    ("a corner that equals the limit let through", |t| cornered(t, |v| v.iter().all(|v| v.is_finite() && *v >= CORNER_LIMIT))),
    ("a corner that is no number let through", |t| cornered(t, |v| !v.iter().any(|v| *v <= CORNER_LIMIT))),
    ("the limit 0.02", |t| cornered(t, |v| v.iter().all(|v| v.is_finite() && *v > 0.02))),
    ("three corners tested", |t| cornered(t, |v| v[..3].iter().all(|v| v.is_finite() && *v > CORNER_LIMIT))),
    ("corners not tested", |t| cornered(t, |_| true)),
    ("31 before 30", |t| match recheck::form(t) {
        Some(list) if !list.pairs_are_right() => recheck::answer(t, 31),
        _ => recheck::recheck(t),
    }),
    ("32 before 31", |t| match readable(t) {
        Some(list) if !list.corners_pass() => recheck::answer(t, 32),
        _ => recheck::recheck(t),
    }),
    ("the answer short of its last line", |t| {
        let mut lines = lines_of(&recheck::recheck(t));
        if lines.len() > 1 {
            lines.pop();
        }
        lines.concat()
    }),
    ("the answer without its s lines", |t| {
        let answer = recheck::recheck(t);
        lines_of(&answer).into_iter().filter(|line| !line.starts_with(b"s")).collect::<Vec<_>>().concat()
    }),
    ("lower-case digits let through", |t| changed_fields(t, <[u8]>::to_ascii_uppercase)),
    ("a leading zero let through", |t| changed_fields(t, |n| if n.len() == 16 { n.to_vec() } else { without_zeros(n) })),
    ("17 hexadecimal digits let through", |t| changed_fields(t, |n| if n.len() == 17 { without_zeros(n) } else { n.to_vec() })),
    ("a plus let through", |t| changed_fields(t, |n| n.strip_prefix(b"+").unwrap_or(n).to_vec())),
    ("numbers in 16 bits", |t| changed_fields(t, |n| modulo(n, 16))),
    ("numbers in 32 bits", |t| changed_fields(t, |n| modulo(n, 32))),
    ("a last line without its end let through", |t| if t.ends_with(b"\n") { recheck::recheck(t) } else { as_if(t, &[t, b"\n"].concat()) }),
    ("a carriage return let through", |t| as_if(t, &t.iter().copied().filter(|b| *b != b'\r').collect::<Vec<u8>>())),
    ("a space for a tab let through", |t| as_if(t, &t.iter().map(|b| if *b == b' ' { b'\t' } else { *b }).collect::<Vec<u8>>())),
    ("lines in any order let through", |t| {
        let mut lines = lines_of(t);
        let place = |line: &Vec<u8>| [&b"s"[..], b"d", b"p", b"q", b"f"].iter().position(|w| line.starts_with(w));
        lines.sort_by_key(place);
        as_if(t, &lines.concat())
    }),
    ("something behind let through", |t| {
        let mut lines = lines_of(t);
        if lines.len() > 2 && !t.ends_with(b"\n") || lines.last().is_some_and(|line| line == b"\n") {
            lines.pop();
        }
        as_if(t, &lines.concat())
    }),
];

fn without_zeros(n: &[u8]) -> Vec<u8> {
    let zeros = n.iter().take_while(|b| **b == b'0').count().min(n.len().saturating_sub(1));
    n[zeros..].to_vec()
}

/// A long decimal as so many bits hold it.
fn modulo(n: &[u8], bits: u32) -> Vec<u8> {
    let value = std::str::from_utf8(n).ok().filter(|n| n.len() != 16 && n.len() > 4 && n.len() < 30).and_then(|n| n.parse::<u128>().ok());
    value.map_or(n.to_vec(), |v| (v % (1 << bits)).to_string().into_bytes())
}
