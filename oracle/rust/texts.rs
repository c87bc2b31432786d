//! Texts for document 01's program: written from jobs, at the limits, and damaged in one place or two; and any program that
//! answers them side by side with the reader of `text` over the oracle, byte for byte.

use crate::calls::Job;
use crate::generate::Random;
use crate::rounds::Kind;
use crate::{mixed, text};
use std::collections::BTreeMap;

/// The numbers that a text can get.
pub const NUMBERS: [u8; 8] = [0, 1, 4, 6, 7, 10, 11, 21];

const MOST_BYTES: usize = 65_536;

/// Up to so many texts are tried when one is made smaller.
const MOST_TRIED: usize = 20_000;

/// A job's text: coordinates and size as whole numbers, within the limits.
pub fn written(job: &Job) -> Vec<u8> {
    let by = if job.h < 100.0 { (1_000.0 / job.h).min(1_000_000.0 / job.xy.iter().fold(1.0, |m, x| x.abs().max(m))).max(1.0) } else { 1.0 };
    let whole = |x: f64| (x * by).round().clamp(-1_000_000.0, 1_000_000.0) as i64;
    let mut out = format!("size\t{}\n", whole(job.h).max(1));
    let mut pairs = job.xy.chunks_exact(2);
    for (i, &n) in job.lengths.iter().enumerate() {
        out += if i == 0 { "outer\n" } else { "hole\n" };
        for p in pairs.by_ref().take(n) {
            out += &format!("at\t{}\t{}\n", whole(p[0]), whole(p[1]));
        }
    }
    out.into_bytes()
}

/// `at` lines of any whole numbers until so many bytes are filled, none left over where that can be.
fn filled(r: &mut Random, mut out: Vec<u8>, bytes: usize) -> Vec<u8> {
    while out.len() + 7 <= bytes {
        let left = bytes - out.len();
        // a line has 7 to 21 bytes; the last ones share what is left
        let line = if left <= 21 { left } else if left < 28 { left - 7 } else { r.from_to(7, 21) };
        let x = (line - 5).div_ceil(2).min(8);
        let y = line - 5 - x;
        let mut number = |n: usize| -> String {
            if n == 8 { "-1000000".to_string() } else { (0..n).map(|k| (b'0' + if k == 0 && n == 7 { 1 } else if k == 0 && n > 1 { r.from_to(1, 9) as u8 } else if n == 7 { 0 } else { r.below(10) as u8 }) as char).collect() }
        };
        out.extend(format!("at\t{}\t{}\n", number(x), number(y)).bytes());
    }
    out
}

/// More loops or pairs than a job may have, or just as many; or as many bytes as a text may have.
fn at_a_limit(r: &mut Random) -> (Vec<u8>, &'static str) {
    let mut out = format!("size\t{}\nouter\n", r.pick(&[1, 1_000, 1_000_000])).into_bytes();
    let square = |out: &mut Vec<u8>, x: i64, side: i64| {
        for (a, b) in [(0, 0), (side, 0), (side, side), (0, side)] {
            out.extend(format!("at\t{}\t{}\n", x + a, x + b).bytes());
        }
    };
    match r.below(5) {
        0 => {
            square(&mut out, 0, 1_000_000);
            let holes = r.pick(&[14, 15, 16, 17, 255, 256, 257, 270, 511, 512, 1_000]);
            for k in 0..holes {
                out.extend(b"hole\n");
                if r.chance(90) {
                    square(&mut out, 3_000 * (k % 300), 1_500);
                }
            }
            (out, "loops at a limit")
        }
        1 => {
            let wanted = r.pick(&[13_000, 255, 256, 257, 300]);
            for _ in 0..wanted.min((MOST_BYTES - out.len()) / 5) {
                out.extend(b"hole\n");
            }
            (out, "loops without points")
        }
        2 => {
            let pairs = r.pick(&[2_047, 2_048, 2_048, 2_049, 4_096, 4_097, 6_144, 8_192, 8_193]);
            let half = pairs / 2;
            // two rows of points, one there and one back
            for k in 0..pairs {
                let (x, y) = if k < half { (k, 0) } else { (pairs - k, 9) };
                let line = if out.len() < 45_000 { format!("at\t{}\t{y}\n", 90 * x as i64) } else { "at\t0\t0\n".to_string() };
                if out.len() + line.len() <= MOST_BYTES {
                    out.extend(line.bytes());
                }
            }
            (out, "pairs at a limit")
        }
        _ => {
            let bytes = MOST_BYTES + r.pick(&[0, 0, 1, 1, 2, 10, 4_000]) - r.pick(&[0, 0, 0, 1, 2]);
            (filled(r, out, bytes), "bytes at a limit")
        }
    }
}

/// The places of the numbers: after a tab, up to the next tab or line end.
pub(crate) fn numbers_in(text: &[u8]) -> Vec<(usize, usize)> {
    let mut out = Vec::new();
    for (i, _) in text.iter().enumerate().filter(|(_, b)| **b == b'\t') {
        let end = text[i + 1..].iter().position(|b| matches!(b, b'\t' | b'\n')).map_or(text.len(), |n| i + 1 + n);
        out.push((i + 1, end));
    }
    out
}

pub(crate) fn lines_of(text: &[u8]) -> Vec<Vec<u8>> {
    text.split_inclusive(|b| *b == b'\n').map(<[u8]>::to_vec).collect()
}

/// The ways in which a text is damaged, some of which leave it readable.
type Way = (&'static str, fn(&mut Random, &mut Vec<u8>));

const NUMBERS_FOR_OTHERS: [&str; 32] = [
    "1000000", "-1000000", "1000001", "-1000001", "999999", "10000000", "9999999999999999999999", "18446744073709551617", "4294967296", "0", "-0",
    "00", "01", "-01", "+1", "+0", "-", "", "1.0", "1e3", "0x1", " 1", "1 ", "--1", "1-", "-1", "1", "2", "0000001", "1,000", "\u{661}", "1\0",
];

const WAYS: [Way; 24] = [
    ("a byte changed", |r, t| {
        let i = r.below(t.len());
        t[i] = if r.chance(50) { r.next() as u8 } else { r.pick(b"0123456789-+ \t\n\rsizeouterholeat") };
    }),
    ("a byte dropped", |r, t| {
        t.remove(r.below(t.len()));
    }),
    ("a byte doubled", |r, t| {
        let i = r.below(t.len());
        t.insert(i, t[i]);
    }),
    ("a byte put in", |r, t| t.insert(r.below(t.len() + 1), r.pick(b"0123456789-+ \t\n\r\0\xff"))),
    ("cut", |r, t| t.truncate(r.below(t.len() + 1))),
    ("cut at a line", |r, t| {
        let mut lines = lines_of(t);
        lines.truncate(r.below(lines.len() + 1));
        *t = lines.concat();
    }),
    ("two lines exchanged", |r, t| {
        let mut lines = lines_of(t);
        let (i, j) = (r.below(lines.len()), r.below(lines.len()));
        lines.swap(i, j);
        *t = lines.concat();
    }),
    ("a line dropped", |r, t| {
        let mut lines = lines_of(t);
        lines.remove(r.below(lines.len()));
        *t = lines.concat();
    }),
    ("a line doubled", |r, t| {
        let mut lines = lines_of(t);
        let i = r.below(lines.len());
        lines.insert(i, lines[i].clone());
        *t = lines.concat();
    }),
    ("a line put in", |r, t| {
        let mut lines = lines_of(t);
        let line: &[u8] = r.pick(&[&b"hole\n"[..], b"outer\n", b"at\t0\t0\n", b"at\t0\n", b"at\t0\t0\t0\n", b"size\t1000\n", b"\n", b"at\n", b"outer\t\n", b"hole \n", b"Hole\n", b"end\n"]);
        lines.insert(r.below(lines.len() + 1), line.to_vec());
        *t = lines.concat();
    }),
    ("a coordinate for another", |r, t| another_number(r, t, false)),
    ("a coordinate for another", |r, t| another_number(r, t, false)),
    ("a size for another", |r, t| another_number(r, t, true)),
    ("a leading zero", |r, t| {
        if let Some(&(from, _)) = some(r, &numbers_in(t)) {
            let at = from + (t.get(from) == Some(&b'-')) as usize;
            t.insert(at, b'0');
        }
    }),
    ("a minus", |r, t| {
        if let Some(&(from, _)) = some(r, &numbers_in(t)) {
            t.insert(from, b'-');
        }
    }),
    ("a plus", |r, t| {
        if let Some(&(from, _)) = some(r, &numbers_in(t)) {
            t.insert(from, b'+');
        }
    }),
    ("the last line end left out", |_, t| {
        t.pop();
    }),
    ("a carriage return", |r, t| {
        let ends: Vec<usize> = (0..t.len()).filter(|&i| t[i] == b'\n').collect();
        if r.chance(50) {
            ends.iter().rev().for_each(|&i| t.insert(i, b'\r'));
        } else if let Some(&i) = some(r, &ends) {
            t.insert(i, b'\r');
        }
    }),
    ("a space for a tab", |r, t| {
        let tabs: Vec<usize> = (0..t.len()).filter(|&i| t[i] == b'\t').collect();
        if let Some(&i) = some(r, &tabs) {
            t[i] = b' ';
        }
    }),
    ("an empty line", |r, t| {
        let ends: Vec<usize> = (0..t.len()).filter(|&i| t[i] == b'\n').collect();
        if let Some(&i) = some(r, &ends) {
            t.insert(i, b'\n');
        }
    }),
    ("something behind", |r, t| t.extend(r.pick(&[&b"\n"[..], b" ", b"at", b"hole", b"hole\n", b"\0", b"at\t0\t0"]))),
    ("a hole for the outer", |_, t| swap_words(t, b"outer\n", b"hole\n")),
    ("an outer for a hole", |_, t| swap_words(t, b"hole\n", b"outer\n")),
    ("no size", |_, t| {
        let mut lines = lines_of(t);
        if lines.len() > 2 {
            lines.rotate_left(1);
        }
        *t = lines.concat();
    }),
];

pub(crate) fn some<'a, T>(r: &mut Random, list: &'a [T]) -> Option<&'a T> {
    if list.is_empty() { None } else { Some(&list[r.below(list.len())]) }
}

fn another_number(r: &mut Random, t: &mut Vec<u8>, size: bool) {
    let places = numbers_in(t);
    let place = if size { places.first() } else { some(r, &places) };
    if let Some(&(from, to)) = place {
        t.splice(from..to, r.pick(&NUMBERS_FOR_OTHERS).bytes());
    }
}

fn swap_words(t: &mut Vec<u8>, old: &[u8], new: &[u8]) {
    if let Some(i) = t.windows(old.len()).position(|w| w == old) {
        t.splice(i..i + old.len(), new.iter().copied());
    }
}

/// Text `index` of a seed, and what it is.
pub fn text(seed: u64, index: u64) -> (Vec<u8>, &'static str) {
    let r = &mut Random::new(seed ^ 0x7E87, index);
    let (mut t, mut kind) = match r.below(100) {
        0..=2 => at_a_limit(r),
        3 => (Vec::new(), "empty"),
        _ => (written(&mixed::job(seed, index).job), "written"),
    };
    for _ in 0..r.pick(&[0, 0, 0, 1, 1, 1, 1, 2]) {
        if t.is_empty() {
            break;
        }
        let (name, way) = WAYS[r.below(WAYS.len())];
        way(r, &mut t);
        kind = name;
    }
    (t, kind)
}

/// The number of an answer: 0 for `done`.
pub(crate) fn number(answer: &[u8]) -> u8 {
    answer.strip_prefix(b"refused\t").and_then(|rest| std::str::from_utf8(rest).ok()?.trim_end().parse().ok()).unwrap_or(0)
}

/// A program: bytes in, bytes out.
pub type Program<'a> = &'a mut dyn FnMut(&[u8]) -> Vec<u8>;

/// Texts put to a program and to the reader over the oracle.
pub struct Texts<'a> {
    pub program: Program<'a>,
    /// In each round of `all`.
    pub each: u64,
    compared: BTreeMap<&'static str, BTreeMap<u8, u64>>,
    most: usize,
    different: u64,
}

pub(crate) fn list(numbers: &BTreeMap<u8, u64>) -> String {
    let words: Vec<String> = numbers.iter().map(|(number, n)| format!("{number:02} {n}")).collect();
    words.join(", ")
}

impl<'a> Texts<'a> {
    pub fn new(program: Program<'a>, each: u64) -> Texts<'a> {
        Texts { program, each, compared: BTreeMap::new(), most: 0, different: 0 }
    }

    fn numbers(&self) -> BTreeMap<u8, u64> {
        let mut out = BTreeMap::new();
        for (number, n) in self.compared.values().flatten() {
            *out.entry(*number).or_insert(0) += n;
        }
        out
    }

    /// A line for each kind with its numbers.
    pub fn text(&self) -> String {
        let lines = self.compared.iter().map(|(kind, numbers)| format!("{:>10}  text, {kind}: {}\n", numbers.values().sum::<u64>(), list(numbers)));
        lines.collect::<String>() + &self.line() + "\n"
    }

    pub fn different(&self) -> u64 {
        self.different
    }

    /// Texts 0 to `count` of a seed, until one differs.
    pub fn run(&mut self, seed: u64, count: u64) -> Result<(), String> {
        for index in 0..count {
            let (text, kind) = text(seed, index);
            let right = text::pave(&text).into_bytes();
            let given = (self.program)(&text);
            *self.compared.entry(kind).or_default().entry(number(&right)).or_insert(0) += 1;
            self.most = self.most.max(right.len());
            if given != right {
                self.different += 1;
                return Err(self.told(seed, index, kind, text));
            }
        }
        Ok(())
    }

    /// The difference, and the text made smaller.
    fn told(&mut self, seed: u64, index: u64, kind: &str, text: Vec<u8>) -> String {
        let before = text.len();
        let (small, tried) = reduced(text, &mut |t| (self.program)(t) != text::pave(t).as_bytes(), MOST_TRIED);
        let (given, right) = ((self.program)(&small), text::pave(&small).into_bytes());
        let at = given.iter().zip(&right).position(|(a, b)| a != b).unwrap_or(given.len().min(right.len()));
        let around = |list: &[u8]| list[at.saturating_sub(20).min(list.len())..(at + 20).min(list.len())].escape_ascii().to_string();
        format!(
            "DIFFERENCE seed {seed} text {index} ({kind}): reduced from {before} to {} bytes, {tried} tried: at byte {at} {:?} and not {:?}\n{}\n",
            small.len(), around(&given), around(&right), small.escape_ascii()
        )
    }
}

impl Kind for Texts<'_> {
    fn round(&mut self, seed: u64) -> Result<(), String> {
        self.run(seed, self.each)
    }

    fn line(&self) -> String {
        let numbers = self.numbers();
        let all: u64 = numbers.values().sum();
        let readable = all - numbers.get(&11).copied().unwrap_or(0);
        format!("texts {all}, {readable} readable, {} different, answers of at most {} bytes: {}", self.different, self.most, list(&numbers))
    }

    fn missing(&self) -> Vec<String> {
        let given = self.numbers();
        NUMBERS.iter().filter(|n| !given.contains_key(n)).map(|n| format!("the number {n} from texts")).collect()
    }
}

/// A text made smaller while it still differs, lines first, then bytes; and how many were tried.
pub(crate) fn reduced(mut t: Vec<u8>, differs: &mut dyn FnMut(&[u8]) -> bool, most_tried: usize) -> (Vec<u8>, usize) {
    let mut tried = 0;
    for by_lines in [true, false, true, false] {
        loop {
            let mut less = false;
            let parts: Vec<Vec<u8>> = if by_lines { lines_of(&t) } else { t.iter().map(|&b| vec![b]).collect() };
            let mut kept = parts;
            let mut size = kept.len().div_ceil(2);
            while size > 0 && tried < most_tried {
                let mut from = 0;
                while from < kept.len() && tried < most_tried {
                    let other = [&kept[..from], &kept[(from + size).min(kept.len())..]].concat();
                    tried += 1;
                    if differs(&other.concat()) {
                        kept = other;
                        less = true;
                    } else {
                        from += size;
                    }
                }
                size = if size == 1 { 0 } else { size.div_ceil(2) };
            }
            t = kept.concat();
            if !less {
                break;
            }
        }
    }
    (t, tried)
}

/// Readers and writers that each go wrong in one thing: a comparison that does not see it shows nothing.
pub const FAULTS: [(&str, fn(&[u8]) -> Vec<u8>); 18] = [
    ("a leading zero let through", |t| changed_numbers(t, |n| {
        let (sign, digits) = if n.first() == Some(&b'-') { n.split_at(1) } else { n.split_at(0) };
        let zeros = digits.iter().take_while(|b| **b == b'0').count().min(digits.len().saturating_sub(1));
        [sign, &digits[zeros..]].concat()
    })),
    ("-0 let through", |t| changed_numbers(t, |n| if n == b"-0" { b"0".to_vec() } else { n.to_vec() })),
    ("a plus let through", |t| changed_numbers(t, |n| n.strip_prefix(b"+").unwrap_or(n).to_vec())),
    ("1,000,001 let through", |t| changed_numbers(t, |n| if n == b"1000001" { b"1000000".to_vec() } else { n.to_vec() })),
    ("-1,000,001 let through", |t| changed_numbers(t, |n| if n == b"-1000001" { b"-1000000".to_vec() } else { n.to_vec() })),
    ("a number that wraps in 64 bits", |t| changed_numbers(t, |n| if n == b"18446744073709551617" { b"1".to_vec() } else { n.to_vec() })),
    ("a size of 0 let through", |t| if t.starts_with(b"size\t0\n") { b"refused\t2\n".to_vec() } else { right(t) }),
    ("a last line without its end let through", |t| if t.last().is_some_and(|b| *b != b'\n') { right(&[t, b"\n"].concat()) } else { right(t) }),
    ("65,537 bytes read", |t| if t.len() == MOST_BYTES + 1 && text::job(&t[..MOST_BYTES - 100]).is_none() { answer_of(text::job_of(t, MOST_BYTES + 1)) } else { right(t) }),
    ("65,536 bytes not read", |t| if t.len() == MOST_BYTES { b"refused\t11\n".to_vec() } else { right(t) }),
    ("a hole before the outer", |t| {
        let mut t = t.to_vec();
        if lines_of(&t).get(1).is_some_and(|line| line == b"hole\n") {
            swap_words(&mut t, b"hole\n", b"outer\n");
        }
        right(&t)
    }),
    ("a second outer let through", |t| {
        let mut lines = lines_of(t);
        lines.iter_mut().skip(2).filter(|line| *line == b"outer\n").for_each(|line| *line = b"hole\n".to_vec());
        right(&lines.concat())
    }),
    ("too many pairs or loops answered by 11", |t| {
        let answer = right(t);
        if answer == b"refused\t1\n" { b"refused\t11\n".to_vec() } else { answer }
    }),
    ("loops counted in eight bits", |t| match text::job(t) {
        Some(job) if job.lengths.len() > 255 && job.lengths.len() % 256 <= 16 => b"refused\t4\n".to_vec(),
        _ => right(t),
    }),
    ("a carriage return let through", |t| right(&t.iter().copied().filter(|b| *b != b'\r').collect::<Vec<u8>>())),
    ("a space for a tab let through", |t| right(&t.iter().map(|b| if *b == b' ' { b'\t' } else { *b }).collect::<Vec<u8>>())),
    ("an empty line let through", |t| right(&lines_of(t).into_iter().filter(|line| line != b"\n").collect::<Vec<_>>().concat())),
    ("digits in lower case", |t| right(t).to_ascii_lowercase()),
];

fn right(t: &[u8]) -> Vec<u8> {
    text::pave(t).into_bytes()
}

fn answer_of(job: Option<Job>) -> Vec<u8> {
    text::pave_job(job).into_bytes()
}

fn changed_numbers(t: &[u8], change: impl Fn(&[u8]) -> Vec<u8>) -> Vec<u8> {
    let mut out = t.to_vec();
    for (from, to) in numbers_in(t).into_iter().rev() {
        out.splice(from..to, change(&t[from..to]));
    }
    right(&out)
}
