//! Two threads that call at once, each on buffers of its own, answer as one does: no call keeps anything.

use crate::paver::Port;
use crate::work;
use oracle::calls::{Buffers, Counts, Job};
use oracle::compare::{difference, perform, Call, Paver};
use oracle::states::State;
use std::sync::atomic::{AtomicU64, AtomicUsize, Ordering::SeqCst};
use std::sync::Barrier;
use std::time::Duration;

/// So many calls in one go, with what one thread alone got.
const BATCH: usize = 200;

struct Item {
    call: Call,
    job: Job,
    given: State,
    alone: (u8, State, Duration),
}

static INSIDE: AtomicUsize = AtomicUsize::new(0);

/// Both threads over the same calls, one forwards and one backwards: how many differ, and how many began while the other
/// thread was in a call.
fn at_once<P: Paver>(items: &[Item], paver: fn() -> P) -> (u64, u64) {
    let (different, met) = (AtomicU64::new(0), AtomicU64::new(0));
    let start = Barrier::new(2);
    std::thread::scope(|scope| {
        for backwards in [false, true] {
            let (different, met, start) = (&different, &met, &start);
            scope.spawn(move || {
                let mut p = paver();
                start.wait();
                for i in 0..items.len() {
                    let item = &items[if backwards { items.len() - 1 - i } else { i }];
                    met.fetch_add((INSIDE.fetch_add(1, SeqCst) > 0) as u64, SeqCst);
                    let answer = perform(&mut p, item.call, &item.job, &item.given);
                    INSIDE.fetch_sub(1, SeqCst);
                    different.fetch_add(difference(&item.alone, &answer).is_some() as u64, SeqCst);
                }
            });
        }
    });
    (different.into_inner(), met.into_inner())
}

/// The port with something kept from its last call: a run that does not see it shows nothing.
struct Keeping;

static KEPT: AtomicU64 = AtomicU64::new(0);

impl Keeping {
    fn of(job: &Job) -> u64 {
        job.h.to_bits() ^ job.options.corner_limit.to_bits()
    }

    fn keep(job: &Job) {
        KEPT.store(Self::of(job), SeqCst);
        std::thread::yield_now();
    }

    fn spoil(job: &Job, answer: (u8, Counts)) -> (u8, Counts) {
        if KEPT.load(SeqCst) == Self::of(job) { answer } else { (answer.0 ^ 1, answer.1) }
    }
}

impl Paver for Keeping {
    fn sample(&mut self, job: &Job, b: &mut Buffers) -> (u8, Counts) {
        Self::keep(job);
        Self::spoil(job, Port.sample(job, b))
    }
    fn job(&mut self, job: &Job, b: &mut Buffers) -> (u8, Counts) {
        Self::keep(job);
        Self::spoil(job, Port.job(job, b))
    }
    fn row(&mut self, job: &Job, front: usize, b: &mut Buffers, c: Counts) -> (u8, Counts) {
        Self::keep(job);
        Self::spoil(job, Port.row(job, front, b, c))
    }
    fn close(&mut self, job: &Job, b: &mut Buffers, c: Counts) -> (u8, Counts) {
        Self::keep(job);
        Self::spoil(job, Port.close(job, b, c))
    }
    fn fan(&mut self, job: &Job, b: &mut Buffers, c: Counts) -> (u8, Counts) {
        Self::keep(job);
        Self::spoil(job, Port.fan(job, b, c))
    }
}

pub fn run(seed: u64, count: u64) -> bool {
    let (mut calls, mut different, mut met, mut kept) = (0, 0, 0, 0);
    let mut items: Vec<Item> = Vec::new();
    let mut go = |items: &mut Vec<Item>| {
        let (d, m) = at_once(items, || Port);
        calls += 2 * items.len() as u64;
        different += d;
        met += m;
        if calls <= 20 * BATCH as u64 {
            kept += at_once(items, || Keeping).0;
        }
        items.clear();
    };
    work::each(seed, count, |_, _, call, job, given| {
        let alone = perform(&mut Port, call, job, given);
        items.push(Item { call, job: job.clone(), given: given.clone(), alone });
        if items.len() == BATCH {
            go(&mut items);
        }
    });
    go(&mut items);
    println!("{count} jobs, {calls} calls in two threads, {met} begun while the other thread was in a call, {different} differences");
    println!("a port that keeps something is seen {kept} times in the first calls");
    different == 0 && kept > 0
}
