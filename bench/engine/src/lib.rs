//! The engine's static library, behind safe functions. `rm.h` says what each of its functions
//! promises; nothing checks the declarations here against their source.

use std::num::NonZero;

unsafe extern "C" {
    fn rm_run(input: *const u8, input_len: usize, out: *mut u8, out_len: usize) -> usize;
    fn rm_windows(
        levels: *const u16,
        levels_len: usize,
        width: usize,
        step: usize,
        numbers: *mut u32,
        numbers_len: usize,
        scratch: *mut u16,
        scratch_len: usize,
    ) -> u8;
    fn rm_load(n: usize, seed: u32, list: *mut u32, list_len: usize, last: *mut u32) -> u8;
    // these take any number
    safe fn rm_room(size: usize) -> usize;
    safe fn rm_words(n: usize) -> u32;
}

/// The whole text that `rmcalls` prints for `input`.
pub fn run(input: &[u8]) -> Vec<u8> {
    let mut out = vec![0; room(input.len())];
    let size = run_into(input, &mut out).expect("a buffer of that length is long enough");
    out.truncate(size.get());
    out
}

/// Puts that text at the start of `out` and leaves the rest; its size. `None`, and `out` as it was,
/// where `out` is shorter than [`room`] of the input's length.
pub fn run_into(input: &[u8], out: &mut [u8]) -> Option<NonZero<usize>> {
    // SAFETY: each pointer is that of a slice, not null, with the slice's length after it, and both
    // slices live until the call returns. They do not overlap, since `out` is borrowed mutably. The
    // function has no other precondition, writes to `out` alone, keeps no pointer, returns always.
    let size = unsafe { rm_run(input.as_ptr(), input.len(), out.as_mut_ptr(), out.len()) };
    NonZero::new(size)
}

/// The length that a buffer must have for the text of an input of `size` bytes.
pub fn room(size: usize) -> usize {
    rm_room(size)
}

/// K(n), the number of codewords of n cells; `None` where n is not 3 to 12.
pub fn words(n: usize) -> Option<u32> {
    Some(rm_words(n)).filter(|&words| words != 0)
}

/// Puts the numbers of the windows along a run with these levels at the start of `numbers`, and the
/// levels at the start of `scratch`; how many windows there are. Where it is refused both stay as
/// they were, and the number of the refusal comes back: 13 or 15.
pub fn windows(
    levels: &[u16],
    width: usize,
    step: usize,
    numbers: &mut [u32],
    scratch: &mut [u16],
) -> Result<usize, u8> {
    // SAFETY: each pointer is that of a slice, not null and aligned, with the slice's length after it,
    // and the three slices live until the call returns. None overlaps another, since `numbers` and
    // `scratch` are borrowed mutably. The function has no other precondition, writes to these two
    // alone, keeps no pointer, returns always.
    let refusal = unsafe {
        rm_windows(
            levels.as_ptr(),
            levels.len(),
            width,
            step,
            numbers.as_mut_ptr(),
            numbers.len(),
            scratch.as_mut_ptr(),
            scratch.len(),
        )
    };
    if refusal == 0 { Ok(levels.len() / step) } else { Err(refusal) }
}

/// Fills `list` with symbols of n cells, the first from the state after `seed`; the last state, which is
/// the seed where the list is empty. Where it is refused the list stays as it was, and the number of
/// the refusal comes back: 1 or 21.
pub fn load(n: usize, seed: u32, list: &mut [u32]) -> Result<u32, u8> {
    let mut last = 0;
    // SAFETY: one pointer is that of a slice, not null and aligned, with the slice's length after it,
    // the other that of `last`, and both live until the call returns. They do not overlap, since `list`
    // is borrowed mutably. The function has no other precondition, writes to these two alone, keeps no
    // pointer, returns always.
    let refusal = unsafe { rm_load(n, seed, list.as_mut_ptr(), list.len(), &mut last) };
    if refusal == 0 { Ok(last) } else { Err(refusal) }
}
