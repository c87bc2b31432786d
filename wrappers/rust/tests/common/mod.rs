//! Reads the requests and job texts of plates/, and answers them through the wrapper in the text that was recorded.
#![allow(dead_code)]

use paving::{Counts, Job, Options, Paving, Refusal};
use std::fs;
use std::path::{Path, PathBuf};

pub fn top() -> PathBuf {
    Path::new(env!("CARGO_MANIFEST_DIR")).join("../..")
}

pub fn read(path: &Path) -> String {
    fs::read_to_string(path).unwrap_or_else(|e| panic!("{}: {e}", path.display()))
}

/// The texts of a folder, by name.
pub fn texts(folder: &str) -> Vec<PathBuf> {
    let entries = fs::read_dir(top().join(folder)).unwrap_or_else(|e| panic!("{folder}: {e}"));
    let mut paths: Vec<PathBuf> = entries.map(|entry| entry.unwrap().path()).collect();
    paths.retain(|path| path.extension().is_some_and(|end| end == "txt"));
    // in plates/ this one is a job's text and no request; plates/jobs has it too
    paths.retain(|path| folder != "plates" || !path.ends_with("square.txt"));
    paths.sort();
    paths
}

/// The recorded answer of a text.
pub fn recorded(path: &Path) -> String {
    read(&path.with_extension("answer"))
}

/// The text that `pave` writes.
pub fn answer(result: Result<Paving, Refusal>) -> String {
    match result {
        Ok(paving) => paving.to_string(),
        Err(refusal) => refused(refusal),
    }
}

fn refused(refusal: Refusal) -> String {
    format!("refused\t{}\n", refusal.number())
}

/// The lines of a job and a state, with what a call is made on.
#[derive(Default)]
struct Body {
    coords: Vec<f64>,
    loop_lengths: Vec<u16>,
    h: f64,
    options: Options,
    points: Vec<[f64; 2]>,
    quads: Vec<[u16; 4]>,
    fronts: Vec<Vec<u16>>,
    counts: Counts,
}

impl Body {
    fn job(&self) -> Job<'_> {
        Job { coords: &self.coords, loop_lengths: &self.loop_lengths, h: self.h, options: self.options }
    }

    fn state(&self) -> Result<Paving, Refusal> {
        let fronts: Vec<&[u16]> = self.fronts.iter().map(|front| &front[..]).collect();
        Paving::state(&self.points, &self.quads, &fronts, self.counts)
    }

    fn at(&mut self, x: f64, y: f64) {
        self.coords.extend([x, y]);
        *self.loop_lengths.last_mut().expect("a loop") += 1;
    }

    /// A line of a request, as oracle/rust/requests.rs has them; numbers are decimals.
    fn line(&mut self, line: &str) {
        let mut fields = line.split('\t');
        let word = fields.next().unwrap();
        let rest: Vec<&str> = fields.collect();
        let f = |i: usize| -> f64 { rest[i].parse().expect(line) };
        let nodes = || -> Vec<u16> { rest.iter().map(|n| n.parse().expect(line)).collect() };
        match word {
            "size" => self.h = f(0),
            "options" => {
                self.options = Options {
                    corner_margin: f(0),
                    min_edge_fraction: f(1),
                    front_gap: f(2),
                    max_row_rounds: rest[3].parse().expect(line),
                    seam: rest[4].parse().expect(line),
                    corner_limit: rest.get(5).map_or(Options::CORNER_LIMIT, |x| x.parse().expect(line)),
                }
            }
            "outer" | "hole" => self.loop_lengths.push(0),
            "at" => self.at(f(0), f(1)),
            "counts" => {
                let list: Vec<u64> = rest.iter().map(|n| n.parse().expect(line)).collect();
                self.counts = Counts::of(list.try_into().expect("eight counts"));
            }
            "p" => self.points.push([f(0), f(1)]),
            "q" => self.quads.push(nodes().try_into().expect("four nodes")),
            "f" => self.fronts.push(nodes()),
            _ => panic!("not a line of a request: {line}"),
        }
    }
}

/// The answer to one request, in the text of the oracle's driver.
pub fn request(text: &str) -> String {
    let mut lines = text.lines();
    let head = lines.next().expect("a request");
    let mut body = Body::default();
    let mut ended = false;
    for line in lines {
        assert!(!ended, "more than one request");
        if line == "end" { ended = true } else { body.line(line) }
    }
    assert!(ended, "a request without end");
    let job = body.job();
    let text = match head.split('\t').collect::<Vec<_>>()[..] {
        ["job"] => answer(Paving::job(&job)),
        ["sample"] => answer(Paving::sample(&job)),
        [word, ref rest @ ..] => {
            let mut state = body.state().expect("lists and counts that agree");
            let before = state.clone();
            let result = match (word, rest) {
                ("row", [front]) => state.row(&job, front.parse().expect(head)),
                ("close", []) => state.close(&job),
                ("fan", []) => state.fan(&job),
                _ => panic!("not a request: {head}"),
            };
            match result {
                Ok(()) => state.to_string(),
                Err(refusal) => {
                    assert_eq!(state, before, "a refused call leaves the state as it was");
                    let left: String = state.counts().list().iter().map(|n| format!("\t{n}")).collect();
                    format!("{}left{left}\n", refused(refusal))
                }
            }
        }
        [] => unreachable!(),
    };
    text + "end\n"
}

/// A whole decimal without plus, leading zero or -0, from `least` to `most`.
fn whole(field: &str, least: i64, most: i64) -> Option<f64> {
    let value: i64 = field.parse().ok()?;
    (value.to_string() == field && (least..=most).contains(&value)).then_some(value as f64)
}

/// The job of a text that `pave` reads; `None` is number 11.
fn job_of(text: &str) -> Option<Body> {
    const MOST: i64 = 1_000_000;
    if text.len() > 65_536 {
        return None;
    }
    let mut lines = text.strip_suffix('\n')?.split('\n');
    let mut body = Body { h: whole(lines.next()?.strip_prefix("size\t")?, 1, MOST)?, ..Body::default() };
    if lines.next()? != "outer" {
        return None;
    }
    body.loop_lengths.push(0);
    for line in lines {
        if line == "hole" {
            body.loop_lengths.push(0);
            continue;
        }
        let (x, y) = line.strip_prefix("at\t")?.split_once('\t')?;
        body.at(whole(x, -MOST, MOST)?, whole(y, -MOST, MOST)?);
    }
    Some(body)
}

/// What `pave` prints for a text: read here, paved by the library.
pub fn pave(text: &str) -> String {
    answer(job_of(text).ok_or(Refusal::Text).and_then(|body| Paving::job(&body.job())))
}

/// What `recheck` answers to a tile list.
pub fn recheck(text: &str) -> String {
    let mut output = vec![0xA7; paving::list::ROOM];
    let answer = paving::list::recheck(text.as_bytes(), &mut output).expect("room");
    String::from_utf8(answer.to_vec()).expect("text")
}

/// The program `pave` where it is built, run on a text.
pub fn program(text: &str) -> Option<String> {
    use std::io::Write;
    use std::process::{Command, Stdio};
    let path = top().join("target/bin/pave");
    if !path.exists() {
        return None;
    }
    let mut child = Command::new(path).stdin(Stdio::piped()).stdout(Stdio::piped()).spawn().expect("target/bin/pave");
    child.stdin.take().unwrap().write_all(text.as_bytes()).expect("its standard input");
    let output = child.wait_with_output().expect("its standard output");
    Some(String::from_utf8(output.stdout).expect("text"))
}
