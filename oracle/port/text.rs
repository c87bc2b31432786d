//! The port's program as one call, byte for byte against the reader over the oracle.

use crate::memory::{Fence, Fenced};
use oracle::generate::Random;
use oracle::rounds::Kind;
use oracle::texts::{self, Texts, NUMBERS};

extern "C" {
    /// The length of the answer to the text, which then stands at the front of the output.
    fn pave_text(input: *const u8, n: usize, output: *mut u8, m: usize) -> u64;
}

/// What `pave_text` asks for: no answer is longer.
const OUTPUT: usize = 270_336;

pub fn call(input: &[u8], output: &mut [u8]) -> usize {
    unsafe { pave_text(input.as_ptr(), input.len(), output.as_mut_ptr(), output.len()) as usize }
}

/// The port's answer; behind it the output has to be 0 throughout.
fn answer(input: &[u8], output: &mut [u8]) -> Vec<u8> {
    const HELD: u8 = 0xA7;
    output.fill(HELD);
    let n = call(input, output);
    if n > output.len() {
        return format!("a length of {n}\n").into_bytes();
    }
    let (given, rest) = output.split_at(n);
    if rest.iter().all(|b| *b == 0) { given.to_vec() } else { [given, b"and more behind\n"].concat() }
}

/// The port as a program for texts.
pub fn program() -> impl FnMut(&[u8]) -> Vec<u8> {
    let mut output = vec![0; OUTPUT];
    move |input| answer(input, &mut output)
}

pub fn run(seed: u64, count: u64) -> bool {
    let mut program = program();
    let mut texts = Texts::new(&mut program, 0);
    let end = texts.run(seed, count);
    print!("{}", texts.text());
    if let Err(difference) = &end {
        print!("{difference}");
    }
    let missing = texts.missing();
    if !missing.is_empty() {
        println!("did not come up: {} (of {NUMBERS:?})", missing.join("; "));
    }
    end.is_ok() && (missing.is_empty() || count < 10_000)
}

/// Texts on pages with fences (see `guard`): the input on pages that may only be read, the output large enough and too small.
/// In a large one the answer is that of plain memory.
pub fn guarded(seed: u64, count: u64, asked: impl Fn(u64, Fence)) -> bool {
    let (given, lent) = (Fenced::new(80_000), Fenced::new(OUTPUT));
    let mut program = program();
    let mut different = 0;
    for (fence, name) in [(Fence::Before, "before"), (Fence::Behind, "behind")] {
        let mut calls = 0;
        for index in 0..count {
            asked(index, fence);
            let (text, _) = texts::text(seed, index);
            let plain = program(&text);
            let r = &mut Random::new(seed, index);
            given.may_be_written(true);
            let input = given.put(&text, fence);
            given.may_be_written(false);
            let short = r.pick(&[0, 1, plain.len() / 2, plain.len().saturating_sub(1)]);
            for room in [OUTPUT, plain.len(), short] {
                calls += 1;
                let n = unsafe { pave_text(input, text.len(), lent.place(room, fence), room) } as usize;
                if room == OUTPUT && (n != plain.len() || lent.get::<u8>(room, fence)[..n] != plain) {
                    different += 1;
                    println!("DIFFERENCE seed {seed} text {index}: not as in plain memory");
                }
            }
        }
        println!("a page {name} each list: {count} texts, {calls} calls, none stopped");
    }
    different == 0
}
