//! The port's reader of tile lists as one call, byte for byte against the reader of `recheck`.

use oracle::lists::{Lists, MOST_BYTES, NUMBERS};
use oracle::rounds::Kind;

extern "C" {
    /// The length of the answer to the list, which then stands at the front of the output.
    fn pave_recheck(input: *const u8, n: usize, output: *mut u8, m: usize) -> u64;
}

/// What the output holds before a call.
const HELD: u8 = 0xA7;

/// A little more room than `pave_recheck` asks for.
const MORE: usize = MOST_BYTES + 64;

static ZEROS: [u8; MORE] = [0; MORE];
static UNTOUCHED: [u8; MORE] = [HELD; MORE];

pub fn call(input: &[u8], output: &mut [u8]) -> usize {
    unsafe { pave_recheck(input.as_ptr(), input.len(), output.as_mut_ptr(), output.len()) as usize }
}

/// The port's answer in so much room; behind it the room has to be 0 throughout, and what lies behind the room untouched.
fn answer(input: &[u8], output: &mut [u8], room: usize) -> Vec<u8> {
    output.fill(HELD);
    let n = call(input, &mut output[..room]);
    if n > room {
        return format!("a length of {n}\n").into_bytes();
    }
    let (given, rest) = output[..room].split_at(n);
    if *rest != ZEROS[..rest.len()] {
        return [given, b"and more behind\n"].concat();
    }
    if output[room..] != UNTOUCHED[room..] {
        return [given, b"and more behind the room\n"].concat();
    }
    given.to_vec()
}

/// With less room than it asks for the call writes nothing and answers 0.
fn refuses(input: &[u8], output: &mut [u8], room: usize) -> bool {
    output.fill(HELD);
    call(input, &mut output[..room]) == 0 && *output == UNTOUCHED[..output.len()]
}

/// The port as a program for lists. Most calls have just the room asked for, some have more, and now and then one has less before.
pub fn program() -> impl FnMut(&[u8]) -> Vec<u8> {
    let mut output = vec![0; MORE];
    let mut calls = 0;
    move |input| {
        calls += 1;
        let less = [0, 1, 11, input.len().min(MOST_BYTES - 1), MOST_BYTES - 1];
        if calls % 32 == 0 && !refuses(input, &mut output, less[calls / 32 % less.len()]) {
            return b"something in too little room\n".to_vec();
        }
        answer(input, &mut output, if calls % 8 == 0 { MORE - calls / 8 % 64 } else { MOST_BYTES })
    }
}

pub fn run(seed: u64, count: u64) -> bool {
    let mut program = program();
    let mut lists = Lists::new(&mut program, 0);
    let end = lists.run(seed, count);
    print!("{}", lists.text());
    if let Err(difference) = &end {
        print!("{difference}");
    }
    let missing = lists.missing();
    if !missing.is_empty() {
        println!("did not come up: {} (of {NUMBERS:?})", missing.join("; "));
    }
    end.is_ok() && (missing.is_empty() || count < 10_000)
}
