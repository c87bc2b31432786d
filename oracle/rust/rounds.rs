//! Jobs, rows, closings, fans and texts in turn, with a new seed each round, until the time is up or something differs.

use crate::calls::{self, Buffers, Counts};
use crate::compare::{self, both, Call, Oracle, Paver, Report};
use crate::generate::Random;
use crate::requests::{self, Case};
use crate::states::{self, State};
use crate::{equal, met, mixed, reduce};
use std::time::{Duration, Instant};

/// In each round so many jobs, and so many states for rows, closings and fans.
pub const JOBS: u64 = 4_000;
const STATES: [u64; 3] = [1_000, 1_500, 1_500];

/// Up to so many inputs are tried when one is made smaller.
const MOST_TRIED: usize = 200_000;

/// A further kind, such as texts: its round of a seed adds to its counts, which its line tells. It ends with a text when
/// something differs.
pub trait Kind {
    fn round(&mut self, seed: u64) -> Result<(), String>;
    fn line(&self) -> String;
    /// What did not come up that has to, in many rounds.
    fn missing(&self) -> Vec<String>;
}

#[derive(Default)]
pub struct Rounds {
    pub rounds: u64,
    pub jobs: Report,
    pub states: [Report; 3],
}

/// What stands in the run's last line.
pub enum End {
    TimeIsUp,
    Different(String),
}

const WORDS: [&str; 4] = ["jobs", "rows", "closings", "fans"];
const CALLS: [&str; 4] = ["job", "row", "closings", "fan"];

fn numbers_of(k: usize) -> &'static [u8] {
    [&compare::JOB_NUMBERS[..], &compare::ROW_NUMBERS, &compare::CLOSE_NUMBERS, &compare::FAN_NUMBERS][k]
}

impl Rounds {
    fn reports(&self) -> [&Report; 4] {
        let [rows, closings, fans] = &self.states;
        [&self.jobs, rows, closings, fans]
    }

    /// A line of counts for each kind, and what came up in it.
    pub fn text(&self, further: &[&mut dyn Kind]) -> String {
        let mut out = String::new();
        for (k, report) in self.reports().into_iter().enumerate() {
            out += &format!("{} {}, {} different: {}\n", WORDS[k], report.all(), report.different, report.numbers_of(CALLS[k]));
            out += &format!("    {}\n", report.limits_of(CALLS[k]));
        }
        for kind in further {
            out += &(kind.line() + "\n");
        }
        for (k, report) in self.reports().into_iter().enumerate() {
            let words: Vec<String> = report.seen.iter().map(|(what, n)| format!("{what} {n}")).collect();
            if !words.is_empty() {
                out += &format!("in {}: {}\n", WORDS[k], words.join(", "));
            }
        }
        let words: Vec<String> = self.jobs.most.iter().map(|(what, n)| format!("{what} {n}")).collect();
        out + &format!("at most in a job: {}\n", words.join(", "))
    }

    /// Numbers and things that did not come up.
    pub fn missing(&self, further: &[&mut dyn Kind]) -> Vec<String> {
        let mut out = Vec::new();
        for (k, report) in self.reports().into_iter().enumerate() {
            out.extend(report.missing(CALLS[k], numbers_of(k)).iter().map(|n| format!("the number {n} from {}", WORDS[k])));
            out.extend(report.unchanged([CALLS[k]]).iter().map(|_| format!("an answer of {} that its corner limit changed", WORDS[k])));
        }
        let [_, closings, fans] = &self.states;
        let jobs = self.jobs.unseen(&met::ALL).into_iter().chain(self.jobs.unseen(&equal::SEEN));
        let unseen = jobs.chain(closings.unseen(&compare::CLOSE_SEEN)).chain(fans.unseen(&compare::FAN_SEEN));
        out.extend(unseen.map(str::to_string));
        out.extend(further.iter().flat_map(|kind| kind.missing()));
        out
    }

    /// Rounds of seeds from `seed` on. `tell` is given the seed that comes next, after each round.
    pub fn run(&mut self, port: &mut dyn Paver, further: &mut [&mut dyn Kind], seed: u64, time: Duration, tell: &mut dyn FnMut(&Rounds, &[&mut dyn Kind], u64)) -> (End, u64) {
        let start = Instant::now();
        let mut next = seed;
        while start.elapsed() < time {
            let seed = next;
            jobs(&mut self.jobs, port, seed, JOBS);
            if let Some(case) = self.jobs.first.take() {
                return (End::Different(told(port, case, &self.jobs)), seed);
            }
            type Run = fn(&mut dyn Paver, u64, u64) -> Report;
            for (k, run) in [compare::rows as Run, compare::closings, compare::fans].into_iter().enumerate() {
                let report = run(port, seed, STATES[k]);
                self.states[k].add(report);
                if let Some(case) = self.states[k].first.take() {
                    return (End::Different(told(port, case, &self.states[k])), seed);
                }
            }
            for kind in further.iter_mut() {
                if let Err(text) = kind.round(seed) {
                    return (End::Different(text), seed);
                }
            }
            self.rounds += 1;
            next = seed.wrapping_add(1);
            tell(self, further, next);
        }
        (End::TimeIsUp, next)
    }
}

/// Jobs 0 to `count` of a seed, until one differs.
fn jobs(report: &mut Report, port: &mut dyn Paver, seed: u64, count: u64) {
    for index in 0..count {
        let mut made = mixed::job(seed, index);
        compare::narrow(&mut made.job);
        let r = &mut Random::new(seed ^ 0xC0FFEE, index);
        let mut lent = State { buffers: states::noise(r), counts: Counts::default() };
        if r.chance(1) {
            states::shorten(r, &mut lent.buffers);
        }
        let name = format!("seed {seed} job {index}");
        let (number, answer) = both(report, port, Call::Job, &made.job, &lent, made.change, &name);
        if report.different > 0 {
            return;
        }
        compare::see_pairs(report, &made.job, number);
        if number != 0 {
            continue;
        }
        let c = answer.counts;
        compare::see_job(report, &c);
        let mut sampled = State { buffers: Buffers::new(), counts: Counts::default() };
        if c.points - c.laid <= met::SMALL {
            (_, sampled.counts) = calls::sample(&made.job, &mut sampled.buffers);
        }
        met::met(&made.job, &sampled).into_iter().for_each(|what| report.see(what));
    }
}

fn differs(port: &mut dyn Paver, case: &Case) -> Option<String> {
    let a = compare::perform(&mut Oracle, case.call, &case.job, &case.state);
    let b = compare::perform(port, case.call, &case.job, &case.state);
    compare::difference(&a, &b)
}

/// The first difference, and the input made smaller, as a request of the oracle's driver.
fn told(port: &mut dyn Paver, case: Case, report: &Report) -> String {
    let first = report.differences.first().and_then(|d| d.lines().next()).unwrap_or_default().to_string();
    let size = |case: &Case| {
        let state = if matches!(case.call, Call::Sample | Call::Job) { String::new() } else { format!(", a state of {} points", case.state.counts.points) };
        format!("{} loops, {} points{state}", case.job.lengths.len(), case.job.xy.len() / 2)
    };
    let before = size(&case);
    let (small, tried) = reduce::reduced(case, &mut |case| differs(port, case).is_some(), MOST_TRIED);
    let bare = requests::cases(&requests::request(&small)).ok().and_then(|mut list| list.pop());
    let alone = bare.is_some_and(|case| differs(port, &case).is_some());
    let note = if alone { "" } else { "It differs only with what else the buffers held, which a request does not say.\n" };
    let how = differs(port, &small).unwrap_or_default();
    format!("DIFFERENCE {first}\nreduced from {before} to {}, {tried} tried: {how}\n{note}{}", size(&small), requests::request(&small))
}
