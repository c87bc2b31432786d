//! A job's text in, the answer's text out, as the program `pave` does it.

use crate::calls;

/// How many bytes `pave` needs to write to. No answer is that long.
pub const ROOM: usize = 270_336;

/// Paves the job of a text with the default options and writes the answer's text to `output`, with zeros behind it; answers that
/// text. `None` where `output` is shorter than [`ROOM`]; then nothing is written.
///
/// ```
/// let mut output = vec![0; paving::text::ROOM];
/// let text = "size\t1000\nouter\nat\t0\t0\nat\t3000\t0\nat\t3000\t3000\nat\t0\t3000\n";
/// let answer = paving::text::pave(text.as_bytes(), &mut output).unwrap();
/// assert!(answer.starts_with(b"done\t4\t1\t0\t1\t0\t0\t1\t0\n"));
/// assert_eq!(paving::text::pave(b"size\t0\n", &mut output).unwrap(), b"refused\t11\n");
/// assert!(paving::text::pave(text.as_bytes(), &mut [0; 100]).is_none());
/// ```
pub fn pave<'a>(input: &[u8], output: &'a mut [u8]) -> Option<&'a [u8]> {
    let length = unsafe { calls::pave_text(input.as_ptr(), input.len(), output.as_mut_ptr(), output.len()) };
    if length == 0 {
        None
    } else {
        Some(&output[..length as usize])
    }
}
