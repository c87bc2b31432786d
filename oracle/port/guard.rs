//! The calls on memory with fences: each lent buffer stands against a page that may not be touched, before it in one run and
//! behind it in the next, and the inputs stand so on pages that may only be read. A touch ends the program with what was asked.
//! What each call leaves is held to what it leaves in plain memory.

use crate::memory::{leave, on_fault, stopped, Fence, Fenced};
use crate::paver::Port;
use crate::port::{calls, lengths_of, port_job, PortJob};
use crate::work;
use oracle::calls::{Buffers, Counts};
use oracle::compare::{difference, perform, Call};
use oracle::generate::Random;
use oracle::states::State;
use std::collections::BTreeMap;
use std::sync::atomic::{AtomicU64, Ordering::Relaxed};
use std::time::Duration;

/// The pages of a call: its inputs, its buffers and the counts.
struct Pages {
    coords: Fenced,
    lengths: Fenced,
    points: Fenced,
    quads: Fenced,
    front_nodes: Fenced,
    front_lengths: Fenced,
    counts: Fenced,
}

// What was asked last: the seed, the job, the call and the fence.
static ASKED: [AtomicU64; 4] = [const { AtomicU64::new(0) }; 4];

const WORDS: [&str; 7] = ["sample", "job", "row", "closings", "fan", "the geometry", "text"];

extern "C" fn touched(_: i32) {
    let [seed, index, call, fence] = [0, 1, 2, 3].map(|i| ASKED[i].load(Relaxed));
    let call = WORDS.get(call as usize).unwrap_or(&"?");
    println!("STOPPED seed {seed} job {index}, {call}, with the page {} each list", if fence == 0 { "before" } else { "behind" });
    leave(1)
}

impl Pages {
    fn new() -> Pages {
        let of = |bytes| Fenced::new(bytes);
        Pages {
            coords: of(8 * 5_000),
            lengths: of(2 * 100),
            points: of(8 * 8_200),
            quads: of(2 * 16_400),
            front_nodes: of(2 * 2_060),
            front_lengths: of(2 * 20),
            counts: of(8 * 8),
        }
    }

    fn inputs(&self, job: &PortJob, fence: Fence) -> (*const f64, *const u16) {
        self.coords.may_be_written(true);
        self.lengths.may_be_written(true);
        let given = (self.coords.put(job.coords, fence) as *const f64, self.lengths.put(job.lengths, fence) as *const u16);
        self.coords.may_be_written(false);
        self.lengths.may_be_written(false);
        given
    }

    /// A call within the fences: its number and what it left.
    fn call(&self, call: Call, job: &PortJob, s: &State, fence: Fence) -> (u8, State, Duration) {
        let (coords, lengths) = self.inputs(job, fence);
        let (b, o) = (&s.buffers, &job.options);
        let (np, nq, nn, nl) = (b.points.len(), b.quads.len(), b.front_nodes.len(), b.front_lengths.len());
        let (points, quads) = (self.points.put(&b.points, fence), self.quads.put(&b.quads, fence));
        let (nodes, of_fronts) = (self.front_nodes.put(&b.front_nodes, fence), self.front_lengths.put(&b.front_lengths, fence));
        let counts = self.counts.put(&s.counts.list().map(|n| n as u64), fence);
        let (n, loops) = (job.coords.len(), job.lengths.len());
        let (h, margin, fraction, gap, passes, limit) = (job.h, o.corner_margin, o.min_edge_fraction, o.front_gap, o.max_row_rounds as u64, o.corner_limit);
        let number = unsafe {
            match call {
                Call::Row(front) => calls::pave_row(
                    coords, n, lengths, loops, h, margin, fraction, gap, passes, o.seam, limit, front as u64, points, np, quads, nq, nodes, nn, of_fronts, nl, counts, 8,
                ),
                other => {
                    let call = match other {
                        Call::Sample => calls::pave_sample,
                        Call::Job => calls::pave_job,
                        Call::Close => calls::pave_close,
                        _ => calls::pave_fan,
                    };
                    call(coords, n, lengths, loops, h, margin, fraction, gap, passes, o.seam, limit, points, np, quads, nq, nodes, nn, of_fronts, nl, counts, 8)
                }
            }
        };
        let buffers = Buffers {
            points: self.points.get(np, fence).to_vec(),
            quads: self.quads.get(nq, fence).to_vec(),
            front_nodes: self.front_nodes.get(nn, fence).to_vec(),
            front_lengths: self.front_lengths.get(nl, fence).to_vec(),
        };
        let counts: Vec<usize> = self.counts.get::<u64>(8, fence).iter().map(|&n| n as usize).collect();
        let left = State { buffers, counts: Counts::of(counts.try_into().expect("eight counts")) };
        (u8::try_from(number).unwrap_or(u8::MAX), left, Duration::ZERO)
    }

    /// The functions of the geometry that take lists, on a job's points and a state's front.
    fn measures(&self, r: &mut Random, job: &PortJob, s: &State, fence: Fence) -> u64 {
        let (coords, lengths) = self.inputs(job, fence);
        let (n, loops) = (job.coords.len(), job.lengths.len());
        let np = s.buffers.points.len().min(r.pick(&[0, 1, 7, 2 * s.counts.points.min(4_096), 8_192]));
        let nodes = s.buffers.front_nodes.len().min(r.pick(&[0, 1, 5, 2_048]));
        let points = self.points.put(&s.buffers.points[..np], fence);
        let front = self.front_nodes.put(&s.buffers.front_nodes[..nodes], fence);
        let (x, y) = (r.between(-10.0, 10.0), r.between(-10.0, 10.0));
        let i = r.pick(&[0, 1, n / 2, n, usize::MAX]);
        unsafe {
            calls::pave_signed_area(coords, n);
            calls::pave_in_polygon(x, y, coords, n);
            calls::pave_sharp_at(coords, n, i);
            calls::pave_domain_area(coords, n, lengths, loops);
            calls::pave_contains(x, y, coords, n, lengths, loops);
            calls::pave_distance_to_boundary(x, y, coords, n, lengths, loops);
            calls::pave_front_length(points, np, front, nodes);
            calls::pave_front_distance(x, y, points, np, front, nodes);
            calls::pave_in_front(x, y, points, np, front, nodes);
        }
        9
    }

    /// Touches that are not allowed, each in a process of its own: how many were made and how many were stopped.
    fn touches(&self) -> (u64, u64) {
        let lists: [(&Fenced, usize); 7] = [
            (&self.coords, 64), (&self.lengths, 2), (&self.points, 65_536), (&self.quads, 32_768), (&self.front_nodes, 4_096),
            (&self.front_lengths, 32), (&self.counts, 64),
        ];
        let (mut made, mut ended) = (0, 0);
        let mut touch = |ended_by: bool| {
            made += 1;
            ended += ended_by as u64;
        };
        for (k, (pages, bytes)) in lists.into_iter().enumerate() {
            touch(stopped(|| unsafe { _ = pages.place::<u8>(bytes, Fence::Before).sub(1).read_volatile() }));
            touch(stopped(|| unsafe { _ = pages.place::<u8>(bytes, Fence::Behind).add(bytes).read_volatile() }));
            touch(stopped(|| unsafe { pages.place::<u8>(bytes, Fence::Behind).add(bytes).write_volatile(0) }));
            if k < 2 {
                pages.may_be_written(false);
                touch(stopped(|| unsafe { pages.place::<u8>(bytes, Fence::Before).write_volatile(0) }));
                pages.may_be_written(true);
            }
        }
        (made, ended)
    }
}

pub fn run(seed: u64, count: u64) -> bool {
    let pages = Pages::new();
    let (made, ended) = pages.touches();
    println!("{made} touches that are not allowed, {ended} stopped");
    on_fault(touched);
    let mut different = 0;
    for (fence, name) in [(Fence::Before, "before"), (Fence::Behind, "behind")] {
        let (mut made, mut measures): (BTreeMap<&str, u64>, u64) = (BTreeMap::new(), 0);
        work::each(seed, count, |index, kind, call, job, s| {
            let lengths = lengths_of(job);
            let given = port_job(job, &lengths);
            let word = call.word();
            let place = WORDS.iter().position(|w| *w == word).unwrap_or(WORDS.len());
            for (told, x) in ASKED.iter().zip([seed, index, place as u64, (fence == Fence::Behind) as u64]) {
                told.store(x, Relaxed);
            }
            *made.entry(word).or_insert(0) += 1;
            if let Some(d) = difference(&perform(&mut Port, call, job, s), &pages.call(call, &given, s, fence)) {
                different += 1;
                println!("DIFFERENCE seed {seed} job {index}, {word} ({kind}), from what it leaves in plain memory: {d}");
            }
            if call == Call::Job {
                ASKED[2].store(5, Relaxed);
                measures += pages.measures(&mut Random::new(seed, index), &given, s, fence);
            }
        });
        let words: Vec<String> = made.iter().map(|(word, n)| format!("{word} {n}")).collect();
        let all: u64 = made.values().sum();
        println!("a page {name} each list: {count} jobs, {all} calls ({}) and {measures} of the geometry, none stopped", words.join(", "));
    }
    println!("{different} differences");
    let texts = crate::text::guarded(seed, count, |index, fence| {
        for (told, x) in ASKED.iter().zip([seed, index, 6, (fence == Fence::Behind) as u64]) {
            told.store(x, Relaxed);
        }
    });
    made == ended && different == 0 && texts
}
