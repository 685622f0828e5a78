//! The proved library's functions. Everything unsafe is here; docs and conditions are kern.h's.

unsafe extern "C" {
    fn kern_read(text: *const u8, text_len: usize, out: *mut u8, out_len: usize, answer: *mut [u64; 3]) -> u32;
    fn kern_read_lines(text: *const u8, text_len: usize, out: *mut u8, out_len: usize, answer: *mut [u64; 3], lines: *mut [u64; 15]) -> u32;
    fn kern_gap_rests(ticks: u32, divisions: u32, notes: u32, out: *mut u8, out_len: usize, answer: *mut [u64; 3]) -> u32;
    fn kern_notice_code(number: u8, out: *mut u8, out_len: usize) -> usize;
    fn kern_notice_reason(number: u8, out: *mut u8, out_len: usize) -> usize;
    fn kern_part_name(text: *const u8, text_len: usize, given: u8, at: u32, len: u32, part: u8, out: *mut u8, out_len: usize) -> usize;
}

/// The refusal's number or 0, and the three numbers of the answer.
pub fn read(text: &[u8], out: &mut [u8]) -> (u32, [u64; 3]) {
    let mut answer = [0; 3];
    // SAFETY: a slice's address is never null and goes with its own length; `text` is lent unchanged, and `out` and `answer` alone to this call.
    let number = unsafe { kern_read(text.as_ptr(), text.len(), out.as_mut_ptr(), out.len(), &mut answer) };
    (number, answer)
}

/// The refusal's number or 0, and the lines that fill the staff of a text that is refused with 8: column, voice and header column of each.
pub fn read_lines(text: &[u8], out: &mut [u8]) -> (u32, [u64; 15]) {
    let (mut answer, mut lines) = ([0; 3], [0; 15]);
    // SAFETY: a slice's address is never null and goes with its own length; `text` is lent unchanged, and `out`, `answer` and `lines` alone to this call.
    let number = unsafe { kern_read_lines(text.as_ptr(), text.len(), out.as_mut_ptr(), out.len(), &mut answer, &mut lines) };
    (number, lines)
}

/// The same of the rests of a hole.
pub fn gap_rests(ticks: u32, divisions: u32, notes: u32, out: &mut [u8]) -> (u32, [u64; 3]) {
    let mut answer = [0; 3];
    // SAFETY: the address is a slice's, never null, with its own length, and `out` and `answer` are lent to this call alone. The function
    // is total in `ticks`, `divisions` and `notes`: it requires nothing of them.
    let number = unsafe { kern_gap_rests(ticks, divisions, notes, out.as_mut_ptr(), out.len(), &mut answer) };
    (number, answer)
}

/// The length of a notice's code, which is put into the buffer where it fits.
pub fn notice_code(number: u8, out: &mut [u8]) -> usize {
    // SAFETY: the address is a slice's, never null, with its own length, and `out` is lent to this call alone.
    unsafe { kern_notice_code(number, out.as_mut_ptr(), out.len()) }
}

/// The length of a notice's reason, likewise.
pub fn notice_reason(number: u8, out: &mut [u8]) -> usize {
    // SAFETY: the address is a slice's, never null, with its own length, and `out` is lent to this call alone.
    unsafe { kern_notice_reason(number, out.as_mut_ptr(), out.len()) }
}

/// The length of a part's name, likewise.
pub fn part_name(text: &[u8], given: u8, at: u32, len: u32, part: u8, out: &mut [u8]) -> usize {
    // SAFETY: both addresses are slices', never null, with their own lengths; `text` is lent unchanged and `out` to this call alone. The
    // function is total in `given`, `at`, `len` and `part`: it requires nothing of them.
    unsafe { kern_part_name(text.as_ptr(), text.len(), given, at, len, part, out.as_mut_ptr(), out.len()) }
}
