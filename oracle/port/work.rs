//! Jobs and states of every kind, for runs of the port alone.

use crate::paver::Port;
use oracle::calls::{Buffers, Counts, Job};
use oracle::compare::{perform, Call};
use oracle::generate::{self, Random};
use oracle::states::{self, State};
use oracle::{extremes, fronts, traced};

/// The jobs and states of a seed, of every kind: `ask` is given each with its call.
pub fn each(seed: u64, count: u64, mut ask: impl FnMut(u64, &'static str, Call, &Job, &State)) {
    for index in 0..count {
        let mut job = match index % 16 {
            15 => extremes::near(seed, index).job,
            _ => traced::job(seed, index).job,
        };
        job.lengths.iter_mut().for_each(|n| *n = (*n).min(65_535));
        let r = &mut Random::new(seed ^ 0xFE2CE, index);
        let mut lent = State { buffers: states::noise(r), counts: Counts::default() };
        if r.chance(3) {
            states::shorten(r, &mut lent.buffers);
        }
        ask(index, "sample", Call::Sample, &job, &lent);
        ask(index, "job", Call::Job, &job, &lent);
        let (_, answer, _) = perform(&mut Port, Call::Job, &job, &State { buffers: Buffers::new(), counts: Counts::default() });
        let (mut s, kind) = states::state(r, &job, &answer);
        if r.chance(3) {
            states::shorten(r, &mut s.buffers);
        }
        let front = if r.chance(95) { r.below(s.counts.fronts.clamp(1, 17)) } else { r.pick(&[16, usize::MAX]) };
        for call in [Call::Row(front), Call::Close, Call::Fan] {
            ask(index, kind, call, &generate::own_limit(r, &job), &s);
        }
        let fan = r.chance(50);
        let mut small = fronts::small(r, &job, fan);
        small.job.lengths.iter_mut().for_each(|n| *n = (*n).min(65_535));
        let (damaged, way) = states::one_fault(r, &small.state);
        for call in [Call::Row(0), Call::Close, Call::Fan] {
            ask(index, small.kind, call, &generate::own_limit(r, &small.job), &small.state);
            ask(index, way, call, &small.job, &damaged);
        }
    }
}
