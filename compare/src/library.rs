//! The proved library's functions.

unsafe extern "C" {
    fn kern_read(text: *const u8, text_len: usize, out: *mut u8, out_len: usize, answer: *mut u64) -> u32;
    fn kern_read_lines(text: *const u8, text_len: usize, out: *mut u8, out_len: usize, answer: *mut u64, lines: *mut u64) -> u32;
    fn kern_gap_rests(ticks: u32, divisions: u32, notes: u32, out: *mut u8, out_len: usize, answer: *mut u64) -> u32;
}

/// The number and the answer; the buffer is the library's to fill.
pub fn read(text: &[u8], out: &mut [u8]) -> (u32, [u64; 3]) {
    let mut answer = [u64::MAX; 3];
    let number = unsafe { kern_read(text.as_ptr(), text.len(), out.as_mut_ptr(), out.len(), answer.as_mut_ptr()) };
    (number, answer)
}

/// The same, with the lines that fill a staff.
pub fn read_lines(text: &[u8], out: &mut [u8], lines: &mut [u64; 15]) -> (u32, [u64; 3]) {
    let mut answer = [u64::MAX; 3];
    let number = unsafe { kern_read_lines(text.as_ptr(), text.len(), out.as_mut_ptr(), out.len(), answer.as_mut_ptr(), lines.as_mut_ptr()) };
    (number, answer)
}

/// The same of a hole.
pub fn gap_rests(ticks: u32, divisions: u32, notes: u32, out: &mut [u8]) -> (u32, [u64; 3]) {
    let mut answer = [u64::MAX; 3];
    let number = unsafe { kern_gap_rests(ticks, divisions, notes, out.as_mut_ptr(), out.len(), answer.as_mut_ptr()) };
    (number, answer)
}
