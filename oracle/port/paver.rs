//! The port as a paver, to be compared with the oracle.

use crate::port::{self, lengths_of, port_job, PortJob};
use oracle::calls::{Buffers, Counts, Job};
use oracle::compare::Paver;

pub struct Port;

fn answer(number: u32, counts: [u64; 8]) -> (u8, Counts) {
    (u8::try_from(number).unwrap_or(u8::MAX), Counts::of(counts.map(|n| n as usize)))
}

impl Paver for Port {
    fn sample(&mut self, job: &Job, b: &mut Buffers) -> (u8, Counts) {
        // the counts held anything too
        let mut counts = [0x0123_4567_89AB_CDEF; 8];
        let n = port::sample(&port_job(job, &lengths_of(job)), b, &mut counts);
        answer(n, counts)
    }
    fn row(&mut self, job: &Job, front: usize, b: &mut Buffers, counts: Counts) -> (u8, Counts) {
        let mut counts = counts.list().map(|n| n as u64);
        let n = port::row(&port_job(job, &lengths_of(job)), front as u64, b, &mut counts);
        answer(n, counts)
    }
    fn job(&mut self, job: &Job, b: &mut Buffers) -> (u8, Counts) {
        let mut counts = [0x0123_4567_89AB_CDEF; 8];
        let n = port::job(&port_job(job, &lengths_of(job)), b, &mut counts);
        answer(n, counts)
    }
    fn close(&mut self, job: &Job, b: &mut Buffers, counts: Counts) -> (u8, Counts) {
        let mut counts = counts.list().map(|n| n as u64);
        let n = port::close(&port_job(job, &lengths_of(job)), b, &mut counts);
        answer(n, counts)
    }
    fn fan(&mut self, job: &Job, b: &mut Buffers, counts: Counts) -> (u8, Counts) {
        let mut counts = counts.list().map(|n| n as u64);
        let n = port::fan(&port_job(job, &lengths_of(job)), b, &mut counts);
        answer(n, counts)
    }
}

/// Counts of another length than eight are number 1: zeros after a sampling or a job, no change after a row, the closings or a fan.
pub fn other_counts(job: &Job) -> Vec<String> {
    let lengths = lengths_of(job);
    let job = port_job(job, &lengths);
    let mut held = Buffers::new();
    held.points.fill(1.5);
    held.quads.fill(7);
    held.front_nodes.fill(7);
    held.front_lengths.fill(7);
    let mut wrong = Vec::new();
    for n in [0, 1, 7, 9, 100] {
        let (mut b, mut counts) = (held.clone(), vec![7; n]);
        type Call = fn(&PortJob, &mut Buffers, &mut [u64]) -> u32;
        let calls: [(&str, Call); 3] = [("a row", |job, b, counts| port::row(job, 0, b, counts)), ("a closing", port::close), ("a fan", port::fan)];
        for (what, call) in calls {
            let number = call(&job, &mut b, &mut counts);
            if number != 1 || !b.same(&held) || counts != vec![7; n] {
                wrong.push(format!("{what} with {n} counts answers {number}, or changes something"));
            }
        }
        let calls: [(&str, Call); 2] = [("a sampling", port::sample), ("a job", port::job)];
        for (what, call) in calls {
            let (mut b, mut counts) = (held.clone(), vec![7; n]);
            let number = call(&job, &mut b, &mut counts);
            if number != 1 || !b.same(&Buffers::new()) || counts != vec![0; n] {
                wrong.push(format!("{what} with {n} counts answers {number}, or leaves what was there"));
            }
        }
    }
    wrong
}
