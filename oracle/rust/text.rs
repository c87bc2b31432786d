//! The text that document 01's program reads and writes.

use crate::calls::{default_options, Buffers, Counts, Job};

const MOST_BYTES: usize = 65_536;

/// A word and the eight counts.
pub fn counts(word: &str, counts: &Counts) -> String {
    let mut out = word.to_string();
    for n in counts.list() {
        out += &format!("\t{n}");
    }
    out + "\n"
}

/// `refused` and the number, or `done` with the counts, points, quads and fronts.
pub fn answer(number: u8, counts: &Counts, buffers: &Buffers) -> String {
    if number != 0 {
        return format!("refused\t{number}\n");
    }
    let mut out = self::counts("done", counts);
    for i in 0..counts.points {
        let p = buffers.point(i);
        out += &format!("p\t{:016X}\t{:016X}\n", p[0].to_bits(), p[1].to_bits());
    }
    for i in 0..counts.quads {
        let q = buffers.quad(i);
        out += &format!("q\t{}\t{}\t{}\t{}\n", q[0], q[1], q[2], q[3]);
    }
    for front in buffers.fronts(counts) {
        out.push('f');
        for node in front {
            out += &format!("\t{node}");
        }
        out.push('\n');
    }
    out
}

/// A whole decimal: no plus, leading zero or -0, at most `most` in magnitude.
fn whole(field: &str, most: i64) -> Option<i64> {
    let digits = field.strip_prefix('-').unwrap_or(field);
    let fits = !digits.is_empty()
        && digits.len() <= 7
        && digits.bytes().all(|b| b.is_ascii_digit())
        && (digits == "0" || !digits.starts_with('0'))
        && field != "-0";
    let value: i64 = if fits { field.parse().ok()? } else { return None };
    if value.abs() <= most { Some(value) } else { None }
}

/// A job of the program's text, default options; `None` is number 11.
pub fn job(text: &[u8]) -> Option<Job> {
    job_of(text, MOST_BYTES)
}

/// The same for texts of up to so many bytes.
pub fn job_of(text: &[u8], most: usize) -> Option<Job> {
    if text.len() > most {
        return None;
    }
    let body = std::str::from_utf8(text).ok()?.strip_suffix('\n')?;
    let mut lines = body.split('\n');
    let size = whole(lines.next()?.strip_prefix("size\t")?, 1_000_000)?;
    if size < 1 || lines.next()? != "outer" {
        return None;
    }
    let mut job = Job { xy: Vec::new(), lengths: vec![0], h: size as f64, options: default_options() };
    for line in lines {
        if line == "hole" {
            job.lengths.push(0);
            continue;
        }
        let (x, y) = line.strip_prefix("at\t")?.split_once('\t')?;
        job.xy.push(whole(x, 1_000_000)? as f64);
        job.xy.push(whole(y, 1_000_000)? as f64);
        *job.lengths.last_mut()? += 1;
    }
    Some(job)
}

/// The program `pave`: text in, text out.
pub fn pave(text: &[u8]) -> String {
    pave_job(job(text))
}

/// What the program prints for the job that it read.
pub fn pave_job(job: Option<Job>) -> String {
    let mut buffers = Buffers::new();
    match job {
        None => answer(11, &Counts::default(), &buffers),
        Some(job) => {
            let (number, counts) = crate::calls::job(&job, &mut buffers);
            answer(number, &counts, &buffers)
        }
    }
}
