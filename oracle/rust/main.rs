//! driver                      answers requests from standard input (see requests.rs)
//! driver pave                 the program of document 01, from standard input
//! driver recheck              the program of document 02's change 2, from standard input
//! driver jobs SEED COUNT      prints the generator's jobs as requests
//! driver texts SEED COUNT     prints the generator's texts, each after a line with the number of its bytes
//! driver lists SEED COUNT     the same of the generator's tile lists
//! driver demands SEED COUNT   pits demand 3 against the oracle
//! driver selftest SEED COUNT  compares the oracle with itself, and with pavers that have a fault

use oracle::{compare, demands, equal, faults, generate, lists, recheck, requests, text, texts};
use std::io::{Read, Write};
use std::process::exit;

/// The self-test makes so many states for the closings and for the fan, or COUNT if that is more: every fault comes up in them.
const LEAST_STATES: u64 = 2_000;

/// And so many texts.
const LEAST_TEXTS: u64 = 20_000;

/// And so many tile lists.
const LEAST_LISTS: u64 = 100_000;

fn input() -> Vec<u8> {
    let mut bytes = Vec::new();
    std::io::stdin().read_to_end(&mut bytes).expect("standard input");
    bytes
}

fn put(bytes: &[u8]) {
    std::io::stdout().write_all(bytes).expect("standard output");
}

fn print(text: &str) {
    put(text.as_bytes());
}

/// Texts or tile lists, each after a line with the number of its bytes.
fn print_all(all: impl Iterator<Item = Vec<u8>>) {
    let mut out = std::io::stdout().lock();
    for text in all {
        out.write_all(&[format!("{}\n", text.len()).as_bytes(), &text].concat()).expect("standard output");
    }
}

fn seed_and_count(words: &[String]) -> (u64, u64) {
    match (words[0].parse(), words[1].parse()) {
        (Ok(seed), Ok(count)) => (seed, count),
        _ => stop("SEED and COUNT are whole numbers"),
    }
}

fn stop(why: &str) -> ! {
    eprintln!("driver: {why}");
    exit(2)
}

/// The reader of tile lists with itself, and with readers that have a fault.
fn lists_seen(seed: u64, count: u64) -> bool {
    let mut same = |text: &[u8]| recheck::recheck(text);
    let mut right = lists::Lists::new(&mut same, 0);
    let mut good = right.run(seed, count).is_ok();
    print(&right.text());
    for (name, fault) in lists::faults() {
        let mut program = |text: &[u8]| fault(text);
        let seen = lists::Lists::new(&mut program, 0).run(seed, count);
        print(&format!("lists, {name}: {}\n", seen.as_ref().err().and_then(|d| d.lines().next()).unwrap_or("not seen")));
        good &= seen.is_err();
    }
    good
}

fn main() {
    let words: Vec<String> = std::env::args().skip(1).collect();
    match (words.first().map(String::as_str), words.len()) {
        (None, 0) => match requests::answers(&String::from_utf8_lossy(&input())) {
            Ok(text) => print(&text),
            Err(why) => stop(&why),
        },
        (Some("pave"), 1) => print(&text::pave(&input())),
        (Some("recheck"), 1) => put(&recheck::recheck(&input())),
        (Some("jobs"), 3) => {
            let (seed, count) = seed_and_count(&words[1..]);
            for i in 0..count {
                let made = generate::job(seed, i);
                print(&format!("job\n{}end\n", requests::job_lines(&made.job)));
            }
        }
        (Some("texts"), 3) => {
            let (seed, count) = seed_and_count(&words[1..]);
            print_all((0..count).map(|i| texts::text(seed, i).0));
        }
        (Some("lists"), 3) => {
            let (seed, count) = seed_and_count(&words[1..]);
            let mut maker = lists::Maker::new(seed);
            print_all((0..count).map(|i| maker.list(i).0));
        }
        (Some("demands"), 3) => {
            let (seed, count) = seed_and_count(&words[1..]);
            let report = demands::run(&mut compare::Oracle, seed, count);
            print(&report.text());
            exit(if report.exceptions.is_empty() { 0 } else { 1 })
        }
        (Some("selftest"), 3) => {
            let (seed, count) = seed_and_count(&words[1..]);
            let mut bad = false;
            type Run = fn(&mut dyn compare::Paver, u64, u64) -> compare::Report;
            let runs = [
                ("whole", compare::run as Run, count), ("sample", compare::samples, count), ("rows", compare::rows, count),
                ("closings", compare::closings, count.max(LEAST_STATES)), ("fan", compare::fans, count.max(LEAST_STATES)),
            ];
            for (what, run, count) in runs {
                let report = run(&mut compare::Oracle, seed, count);
                print(&format!("{what}\n{}", report.text()));
                bad |= report.different > 0;
                let mut faulty = |paver: &mut dyn compare::Paver, name: &str, seen: bool| {
                    let n = run(paver, seed, count).different;
                    print(&format!("{what}, {name}: {n} differences\n"));
                    bad |= seen && n == 0;
                };
                for fault in 0..compare::FAULTS {
                    // a sampling has no quads to exchange
                    faulty(&mut compare::Faulty(fault), &format!("fault {fault}"), what != "sample" || fault != 1);
                }
                let slips: &[&str] = match what {
                    "closings" => &faults::CLOSE_FAULTS,
                    "fan" => &faults::FAN_FAULTS,
                    _ => &[],
                };
                for (i, name) in slips.iter().enumerate() {
                    faulty(&mut faults::Slip(i), name, true);
                }
                let readings: &[&str] = if matches!(what, "whole" | "sample") { &equal::WRONG } else { &[] };
                for (i, name) in readings.iter().enumerate() {
                    faulty(&mut faults::OtherPoints(i), name, true);
                }
                let limits: &[usize] = match what {
                    "whole" => &[0, 1, 2, 3, 4],
                    "rows" => &[1],
                    "closings" => &[2],
                    "fan" => &[3],
                    _ => &[],
                };
                for &i in limits {
                    faulty(&mut faults::OtherLimit::new(i), faults::LIMIT_FAULTS[i], true);
                }
            }
            for (i, name) in faults::LIMIT_FAULTS.iter().enumerate() {
                let n = demands::run(&mut faults::OtherLimit::new(i), seed, count.max(LEAST_STATES)).exceptions.len();
                print(&format!("demand 3, {name}: {n} exceptions\n"));
                bad |= n == 0;
            }
            bad |= !lists_seen(seed, count.max(LEAST_LISTS));
            let count = count.max(LEAST_TEXTS);
            let mut same = |text: &[u8]| text::pave(text).into_bytes();
            let mut right = texts::Texts::new(&mut same, 0);
            bad |= right.run(seed, count).is_err();
            print(&right.text());
            for (name, fault) in texts::FAULTS {
                let mut program = |text: &[u8]| fault(text);
                let seen = texts::Texts::new(&mut program, 0).run(seed, count);
                print(&format!("texts, {name}: {}\n", seen.as_ref().err().map_or("not seen", |d| d.trim_end())));
                bad |= seen.is_ok();
            }
            exit(bad as i32)
        }
        _ => stop("words not known"),
    }
}
