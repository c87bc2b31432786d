//! Jobs in the forms that the ways to be timed take, and the generator's jobs by size.

use crate::port::{lengths_of, port_job, PortJob};
use oracle::calls::{self, default_options, Job};
use oracle::generate::Made;

pub struct Work {
    pub job: Job,
    pub domain: calls::Domain,
    lengths: Vec<u16>,
}

impl Work {
    pub fn new(job: Job) -> Work {
        let lengths = lengths_of(&job);
        let domain = calls::domain_of(&job);
        Work { job, domain, lengths }
    }

    pub fn port(&self) -> PortJob<'_> {
        port_job(&self.job, &self.lengths)
    }

    /// The nodes that sampling makes, or a refusal's number.
    pub fn nodes(&self) -> Result<usize, u8> {
        calls::sample_only(&self.domain, self.job.h, &self.job.options)
    }
}

/// So many of the generator's jobs, those left out whose shape is number 1, by what `result` says: nodes or a refusal. All have
/// the default corner limit.
pub fn by_size(count: u64, made: impl Fn(u64) -> Made, result: impl Fn(&Work) -> Result<usize, u8>) -> [(&'static str, Vec<Work>); 4] {
    let mut sets = [("under 65 nodes", vec![]), ("65 to 512 nodes", vec![]), ("513 to 2,048 nodes", vec![]), ("refused", vec![])];
    for index in 0..count {
        let mut job = made(index).job;
        job.options.corner_limit = default_options().corner_limit;
        let sum: u128 = job.lengths.iter().map(|&n| n as u128).sum();
        if job.lengths.is_empty() || sum * 2 != job.xy.len() as u128 || sum > 2_048 || job.lengths.len() > 16 {
            continue;
        }
        let work = Work::new(job);
        let k = match result(&work) {
            Ok(n) if n < 65 => 0,
            Ok(n) if n <= 512 => 1,
            Ok(_) => 2,
            Err(_) => 3,
        };
        sets[k].1.push(work);
    }
    sets
}
