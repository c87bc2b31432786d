//! compare SEED COUNT             root, functions, sample, rows, close, fan and job, COUNT each
//! compare root SEED COUNT        the root of COUNT values against `f64::sqrt`
//! compare functions SEED COUNT   each function, COUNT random calls
//! compare sample SEED COUNT      the sampling of COUNT jobs, random and damaged
//! compare rows SEED COUNT        a row on each of COUNT states, sound and damaged
//! compare close SEED COUNT       the closings of COUNT states, sound and damaged
//! compare fan SEED COUNT         a fan on each of COUNT states, sound and damaged
//! compare job SEED COUNT         COUNT whole jobs and a tenth as many near the limits, and on what each left a fan, rows and the
//!                                closings, and the three on a state made from it; the jobs by name; and on the port's own
//!                                answers demand 3: a tenth as many pairs of pass limits, with pair counts and corners
//! compare demands SEED COUNT     the last part of this alone: demand 3 under COUNT pairs of pass limits
//! compare text SEED COUNT        COUNT texts, written and damaged
//! compare lists SEED COUNT       COUNT tile lists to be read back, written and damaged
//! compare all SEED HOURS         all kinds in turn, a new seed each round, for so many hours (0.1 are six minutes) or until something
//!                                differs; then the input is made smaller and printed. The last line says the seed to go on with
//! compare request                a request of the oracle's driver from standard input, port and Rust
//! compare guard SEED COUNT       COUNT jobs, and calls on states made from them, on memory with pages that may not be touched
//! compare threads SEED COUNT     the same calls by two threads at once
//! compare stack [SEED COUNT]     how much stack each call takes, on the jobs by name and on COUNT jobs
//!
//! Every bit of the port's answers and every place of the lent buffers against the Rust's. The exit status is not 0 when
//! one differs, or when a kind of answer that a call can give did not come up in 10,000 or more; for sampling and jobs, also when
//! no two points were just so far apart as to count as equal or not, for the closings and the fan when no splits or clearances
//! tied in them. The jobs have the default corner limit or another, and calls on a state
//! now and then one of their own; for each call with another valid limit than the default the Rust also answers with the
//! default, and how many answers differ in that is printed. In 10,000 or more some have to, of each call but the sampling.

mod functions;
mod guard;
mod lists;
mod memory;
mod paver;
mod port;
mod root;
mod stack;
mod text;
mod threads;
mod work;

use oracle::compare::{self, Paver, Report};
use oracle::rounds::{End, Kind, Rounds};
use oracle::wrong::{self, Wrong};
use oracle::{demands, equal, generate, requests};
use std::process::exit;
use std::time::{Duration, Instant};

/// The numbers that each of some calls has to have answered.
type Numbers<'a> = &'a [(&'a str, &'a [u8])];

fn told(report: Report, numbers: Numbers, seen: &[&str], count: u64) -> bool {
    print!("{}", report.text());
    let mut all = true;
    for (call, numbers) in numbers {
        let missing = report.missing(call, numbers);
        if !missing.is_empty() {
            println!("no answer of {call} had the number {missing:?}");
            all = false;
        }
    }
    for call in report.unchanged(numbers.iter().map(|of| of.0)) {
        println!("no answer of {call} was changed by its corner limit");
        all = false;
    }
    let unseen = report.unseen(seen);
    if !unseen.is_empty() {
        println!("did not come up: {unseen:?}");
    }
    report.different == 0 && (all && unseen.is_empty() || count < 10_000)
}

fn other_counts(seed: u64) -> bool {
    let wrong = paver::other_counts(&generate::job(seed, 0).job);
    wrong.iter().for_each(|w| println!("DIFFERENCE {w}"));
    wrong.is_empty()
}

fn sample(seed: u64, count: u64) -> bool {
    told(compare::samples(&mut paver::Port, seed, count), &[("sample", &compare::SAMPLE_NUMBERS)], &equal::SEEN, count) & other_counts(seed)
}

fn rows(seed: u64, count: u64) -> bool {
    told(compare::rows(&mut paver::Port, seed, count), &[("row", &compare::ROW_NUMBERS)], &[], count) & other_counts(seed)
}

fn close(seed: u64, count: u64) -> bool {
    told(compare::closings(&mut paver::Port, seed, count), &[("closings", &compare::CLOSE_NUMBERS)], &compare::CLOSE_SEEN, count) & other_counts(seed)
}

fn fan(seed: u64, count: u64) -> bool {
    told(compare::fans(&mut paver::Port, seed, count), &[("fan", &compare::FAN_NUMBERS)], &compare::FAN_SEEN, count) & other_counts(seed)
}

fn job(seed: u64, count: u64) -> bool {
    const NUMBERS: Numbers =
        &[("job", &compare::JOB_NUMBERS), ("row", &compare::ROW_NUMBERS), ("closings", &compare::CLOSE_NUMBERS), ("fan", &compare::FAN_NUMBERS)];
    told(compare::run(&mut paver::Port, seed, count), NUMBERS, &equal::SEEN, count) & other_counts(seed) & named() & demand(seed, count / 10)
}

/// The jobs by name, each with what it has to reach.
fn named() -> bool {
    let (report, text, short) = compare::named(&mut paver::Port);
    println!("jobs by name, with their counts or number:\n{text}{}", report.text());
    short.iter().for_each(|name| println!("NOT REACHED {name}"));
    report.different == 0 && short.is_empty()
}

/// Demand 3 on the port's own answers.
fn demand(seed: u64, count: u64) -> bool {
    let report = demands::pairs(&mut paver::Port, seed, count);
    println!("demand 3 on the port's own answers, {count} pairs of pass limits:\n{}", report.text().trim_end());
    report.exceptions.is_empty()
}

/// So many texts in each round.
const TEXTS: u64 = 2_000;

/// After so many jobs every number and everything that is looked for has to have come up.
const ENOUGH: u64 = 100_000;

/// All kinds in turn. Further kinds stand in the list `further`.
fn all(port: &mut dyn Paver, seed: u64, hours: f64) -> bool {
    let mut program = text::program();
    let mut texts = oracle::texts::Texts::new(&mut program, TEXTS);
    let mut further: Vec<&mut dyn Kind> = vec![
        &mut texts,
    ];
    let mut rounds = Rounds::default();
    let start = Instant::now();
    let mut told = start;
    let mut tell = |rounds: &Rounds, _: &[&mut dyn Kind], next: u64| {
        if told.elapsed() > Duration::from_secs(60) {
            told = Instant::now();
            eprintln!("{:.0} s, {} jobs, 0 different; the next seed is {next}", start.elapsed().as_secs_f64(), rounds.jobs.all());
        }
    };
    let (end, next) = rounds.run(port, &mut further, seed, Duration::from_secs_f64(3_600.0 * hours), &mut tell);
    print!("{}", rounds.text(&further));
    let seconds = start.elapsed().as_secs_f64();
    let jobs = rounds.jobs.all();
    let used = memory::processor_seconds();
    println!("{} rounds in {seconds:.0} s, {used:.0} s of the processor, in each of which {:.0} jobs with all else", rounds.rounds, jobs as f64 / used);
    let missing = rounds.missing(&further);
    if !missing.is_empty() {
        println!("did not come up: {}", missing.join("; "));
    }
    match end {
        End::TimeIsUp => println!("0 different; the next seed is {next}"),
        End::Different(text) => {
            println!("{text}seed {next}; after it, go on with seed {}", next.wrapping_add(1));
            return false;
        }
    }
    missing.is_empty() || jobs < ENOUGH
}

/// Requests from standard input, port and Rust.
fn request() -> bool {
    let text = std::io::read_to_string(std::io::stdin()).unwrap_or_default();
    let cases = requests::cases(&text).unwrap_or_else(|why| {
        eprintln!("compare: {why}");
        exit(2)
    });
    let mut same = true;
    for case in cases {
        let a = compare::perform(&mut compare::Oracle, case.call, &case.job, &case.state);
        let b = compare::perform(&mut paver::Port, case.call, &case.job, &case.state);
        let d = compare::difference(&a, &b);
        println!("{}: {}", case.call.word(), d.as_deref().unwrap_or("no difference"));
        same &= d.is_none();
    }
    same
}

fn main() {
    let mut words: Vec<String> = std::env::args().skip(1).collect();
    // the port with a deliberate fault, by its place in a list: a run has to end at it
    let wrong = (words.first().is_some_and(|w| w == "--wrong") && words.len() > 1).then(|| words.drain(..2).nth(1).and_then(|w| w.parse::<usize>().ok()));
    if words == ["request"] {
        exit(!request() as i32);
    }
    if words.first().is_some_and(|w| w == "all") {
        let (Some(Ok(seed)), Some(Ok(hours)), 3) = (words.get(1).map(|w| w.parse()), words.get(2).map(|w| w.parse::<f64>()), words.len()) else { stop() };
        if !(0.0..=1e6).contains(&hours) {
            stop();
        }
        let good = match wrong {
            None => all(&mut paver::Port, seed, hours),
            Some(which) => {
                let Some((which, name)) = which.and_then(|which| Some((which, wrong::name(which)?))) else { stop() };
                println!("wrong: {name}");
                all(&mut Wrong { inner: paver::Port, which }, seed, hours)
            }
        };
        exit(!good as i32);
    }
    if words.len() == 2 {
        words.insert(0, "each".to_string());
    }
    if words == ["stack"] {
        words.extend(["1", "2000"].map(str::to_string));
    }
    let numbers: Option<Vec<u64>> = words.iter().skip(1).map(|w| w.parse().ok()).collect();
    let Some(&[seed, count]) = numbers.as_deref() else { stop() };
    let good = match words[0].as_str() {
        "root" => root::run(seed, count),
        "functions" => functions::run(seed, count),
        "sample" => sample(seed, count),
        "rows" => rows(seed, count),
        "close" => close(seed, count),
        "fan" => fan(seed, count),
        "job" => job(seed, count),
        "demands" => demand(seed, count),
        "text" => text::run(seed, count),
        "lists" => lists::run(seed, count),
        "guard" => guard::run(seed, count),
        "threads" => threads::run(seed, count),
        "stack" => stack::run(seed, count),
        "each" => [root::run, functions::run, sample, rows, close, fan, job].into_iter().fold(true, |good, part| part(seed, count) & good),
        _ => stop(),
    };
    exit(if good { 0 } else { 1 })
}

fn stop() -> ! {
    eprintln!("compare [root|functions|sample|rows|close|fan|job|demands|text|lists|guard|threads|stack] SEED COUNT, all SEED HOURS, or request");
    exit(2)
}
