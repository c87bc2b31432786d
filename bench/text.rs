//! The job's text: `pave_text` against the oracle's program, which reads and writes with Rust's `std`.
//!
//! Reading alone: texts of nearly 65,536 bytes whose last line is none, so that all of the text is read and nothing is paved. The
//! whole: from the text to the answer's text. Writing: the whole less the job, which is timed by itself.

use crate::clock::{least_single, line};
use crate::port;
use crate::work::Work;
use oracle::calls::{self, Buffers};
use oracle::text;
use std::hint::black_box;
use std::time::{Duration, Instant};

extern "C" {
    fn pave_text(input: *const u8, n: usize, output: *mut u8, m: usize) -> u64;
}

const ROOM: usize = 270_336;

fn pave(input: &[u8], output: &mut [u8]) -> usize {
    unsafe { pave_text(input.as_ptr(), input.len(), output.as_mut_ptr(), output.len()) as usize }
}

fn clocked<A>(work: impl FnOnce() -> A) -> Duration {
    let clock = Instant::now();
    black_box(work());
    clock.elapsed()
}

/// As many points as fit into a text, on a circle of this radius, and a last line that is none.
fn unreadable(radius: f64) -> Vec<u8> {
    let mut out = b"size\t1000\nouter\n".to_vec();
    for i in 0.. {
        let angle = i as f64 * 0.001;
        let line = format!("at\t{}\t{}\n", (radius * angle.cos()) as i64, (radius * angle.sin()) as i64);
        if out.len() + line.len() + 4 > 65_536 {
            break;
        }
        out.extend(line.bytes());
    }
    out.extend(b"end\n");
    out
}

/// A square plate with a point every `step` along its sides, and this size.
fn square(side: i64, step: i64, size: i64) -> Vec<u8> {
    let mut out = format!("size\t{size}\nouter\n");
    for k in 0..4 {
        for at in (0..side).step_by(step as usize) {
            let (x, y) = [(at, 0), (side, at), (side - at, side), (0, side - at)][k];
            out += &format!("at\t{x}\t{y}\n");
        }
    }
    out.into_bytes()
}

pub fn run() {
    let mut output = vec![0; ROOM];
    for radius in [9.0, 900.0, 900_000.0] {
        let input = unreadable(radius);
        let n = pave(&input, &mut output);
        assert!(output[..n] == *b"refused\t11\n" && text::pave(&input) == "refused\t11\n");
        let [port, rust] = least_single(400, [&mut || clocked(|| pave(&input, &mut output)), &mut || clocked(|| text::pave(&input))]);
        line(&format!("reading {} bytes, radius {radius}", input.len()), (port, rust));
    }
    for (side, step, size) in [(10_000, 10_000, 1_000), (64_000, 1_000, 1_000), (512_000, 1_000, 2_000)] {
        let input = square(side, step, size);
        let n = pave(&input, &mut output);
        assert!(output[..n] == *text::pave(&input).as_bytes(), "the port answers the same");
        let work = Work::new(text::job(&input).expect("a job"));
        let (mut ours, mut theirs, mut counts) = (Buffers::new(), Buffers::new(), [0u64; 8]);
        let job = work.port();
        let [port, rust, port_job, rust_job] = least_single(
            60,
            [
                &mut || clocked(|| pave(&input, &mut output)),
                &mut || clocked(|| text::pave(&input)),
                &mut || clocked(|| port::job(&job, &mut ours, &mut counts)),
                &mut || clocked(|| calls::job(&work.job, &mut theirs)),
            ],
        );
        line(&format!("{} bytes of text, {n} of answer: the whole", input.len()), (port, rust));
        // beside a long job the rest is too small to be told from the clock's noise
        if port_job < 1e6 {
            line("  without the job", (port - port_job, rust - rust_job));
        }
    }
}
