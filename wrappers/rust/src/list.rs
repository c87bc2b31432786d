//! A tile list's text tested, as the program `recheck` does it.

use crate::calls;

/// How many bytes `recheck` needs to write to. No list is that long.
pub const ROOM: usize = 286_720;

/// Tests a tile list, an `s` line of nodes for each sampled loop and then what `pave` prints, and writes it to `output` again, or
/// the line of a refusal, with zeros behind it; answers that text. `None` where `output` is shorter than [`ROOM`]; then nothing
/// is written.
///
/// ```
/// let mut output = vec![0; paving::list::ROOM];
/// let list = "s\t0\t1\t2\t3\ndone\t4\t1\t0\t1\t0\t0\t1\t0\n\
///             p\t0000000000000000\t0000000000000000\np\t40A7700000000000\t0000000000000000\n\
///             p\t40A7700000000000\t40A7700000000000\np\t0000000000000000\t40A7700000000000\nq\t0\t1\t2\t3\n";
/// assert_eq!(paving::list::recheck(list.as_bytes(), &mut output).unwrap(), list.as_bytes());
/// let crossed = list.replace("s\t0\t1\t2\t3", "s\t0\t2\t1\t3");
/// assert_eq!(paving::list::recheck(crossed.as_bytes(), &mut output).unwrap(), b"refused\t31\n");
/// assert!(paving::list::recheck(list.as_bytes(), &mut [0; 100]).is_none());
/// ```
pub fn recheck<'a>(input: &[u8], output: &'a mut [u8]) -> Option<&'a [u8]> {
    let length = unsafe { calls::pave_recheck(input.as_ptr(), input.len(), output.as_mut_ptr(), output.len()) };
    if length == 0 {
        None
    } else {
        Some(&output[..length as usize])
    }
}
