//! The C functions of libexport.a, and each as a safe function. The only unsafe code of the crate.
//!
//! Every block is sound for the same reasons. A pointer and length are those of one slice, so the pointer isn't null and is aligned, the
//! elements are there for the whole call and, in a shared slice, aren't written meanwhile. A `&mut` slice overlaps no other by its type.
//! The answer is a local array of the eight words that each function writes. The functions keep no pointer, allocate nothing, don't unwind
//! and have no requirements on the values.

pub type Answer = [u64; 8];

extern "C" {
    fn tunnels_parse_hex(text: *const u8, text_len: usize, bits: u32, answer: *mut u64);
    fn tunnels_parse_line(line: *const u8, line_len: usize, answer: *mut u64);
    fn tunnels_read_dump(
        dump: *const u8,
        dump_len: usize,
        scratch: *mut u32,
        scratch_len: usize,
        output: *mut u32,
        output_len: usize,
        answer: *mut u64,
    );
    fn tunnels_our_descriptions(output: *mut u32, output_len: usize, answer: *mut u64);
    fn tunnels_check_descriptions(words: *const u32, words_len: usize, answer: *mut u64);
    fn tunnels_describe(
        d: *const u32,
        d_len: usize,
        space: u32,
        kind: u32,
        relative_offset: u32,
        cap_id: u32,
        vs_id: u32,
        answer: *mut u64,
    );
    fn tunnels_field(d: *const u32, d_len: usize, place: usize, value: u32, name: *const u8, name_len: usize, answer: *mut u64);
    fn tunnels_text(text: *const u8, text_len: usize, output: *mut u32, output_len: usize, answer: *mut u64);
    fn tunnels_check_survey(words: *const u32, words_len: usize, answer: *mut u64);
    fn tunnels_load(d: *const u32, d_len: usize, s: *const u32, s_len: usize, answer: *mut u64);
    fn tunnels_adapter(d: *const u32, d_len: usize, s: *const u32, s_len: usize, place: usize, adapter: u8, answer: *mut u64);
    fn tunnels_link_speed(d: *const u32, d_len: usize, s: *const u32, s_len: usize, place: usize, adapter: u8, answer: *mut u64);
    fn tunnels_max_hop(d: *const u32, d_len: usize, s: *const u32, s_len: usize, place: usize, adapter: u8, answer: *mut u64);
    fn tunnels_parent(d: *const u32, d_len: usize, s: *const u32, s_len: usize, place: usize, answer: *mut u64);
    fn tunnels_walk(
        d: *const u32,
        d_len: usize,
        s: *const u32,
        s_len: usize,
        place: usize,
        adapter: u8,
        hop: u16,
        output: *mut u32,
        output_len: usize,
        answer: *mut u64,
    );
    fn tunnels_discover(
        d: *const u32,
        d_len: usize,
        s: *const u32,
        s_len: usize,
        place: usize,
        adapter: u8,
        output: *mut u32,
        output_len: usize,
        answer: *mut u64,
    );
}

pub fn parse_hex(text: &[u8], bits: u32) -> Answer {
    let mut answer = [0; 8];
    // SAFETY: one slice, lent for the call; any number of bits is allowed.
    unsafe { tunnels_parse_hex(text.as_ptr(), text.len(), bits, answer.as_mut_ptr()) };
    answer
}

pub fn parse_line(line: &[u8]) -> Answer {
    let mut answer = [0; 8];
    // SAFETY: one slice, lent for the call.
    unsafe { tunnels_parse_line(line.as_ptr(), line.len(), answer.as_mut_ptr()) };
    answer
}

pub fn read_dump(dump: &[u8], scratch: &mut [u32], output: &mut [u32]) -> Answer {
    let mut answer = [0; 8];
    // SAFETY: three slices, lent for the call; the two that are written overlap nothing.
    unsafe {
        tunnels_read_dump(
            dump.as_ptr(),
            dump.len(),
            scratch.as_mut_ptr(),
            scratch.len(),
            output.as_mut_ptr(),
            output.len(),
            answer.as_mut_ptr(),
        )
    };
    answer
}

pub fn our_descriptions(output: &mut [u32]) -> Answer {
    let mut answer = [0; 8];
    // SAFETY: one slice, lent for the call, that overlaps nothing.
    unsafe { tunnels_our_descriptions(output.as_mut_ptr(), output.len(), answer.as_mut_ptr()) };
    answer
}

pub fn check_descriptions(words: &[u32]) -> Answer {
    let mut answer = [0; 8];
    // SAFETY: one slice, lent for the call.
    unsafe { tunnels_check_descriptions(words.as_ptr(), words.len(), answer.as_mut_ptr()) };
    answer
}

pub fn describe(d: &[u32], space: u32, kind: u32, relative_offset: u32, cap_id: u32, vs_id: u32) -> Answer {
    let mut answer = [0; 8];
    // SAFETY: one slice, lent for the call; any numbers are allowed.
    unsafe { tunnels_describe(d.as_ptr(), d.len(), space, kind, relative_offset, cap_id, vs_id, answer.as_mut_ptr()) };
    answer
}

pub fn field(d: &[u32], place: usize, value: u32, name: &[u8]) -> Answer {
    let mut answer = [0; 8];
    // SAFETY: two slices, lent for the call; any place is allowed.
    unsafe { tunnels_field(d.as_ptr(), d.len(), place, value, name.as_ptr(), name.len(), answer.as_mut_ptr()) };
    answer
}

pub fn text(text: &[u8], output: &mut [u32]) -> Answer {
    let mut answer = [0; 8];
    // SAFETY: two slices, lent for the call; the one that is written overlaps nothing.
    unsafe { tunnels_text(text.as_ptr(), text.len(), output.as_mut_ptr(), output.len(), answer.as_mut_ptr()) };
    answer
}

pub fn check_survey(words: &[u32]) -> Answer {
    let mut answer = [0; 8];
    // SAFETY: one slice, lent for the call.
    unsafe { tunnels_check_survey(words.as_ptr(), words.len(), answer.as_mut_ptr()) };
    answer
}

pub fn load(d: &[u32], s: &[u32]) -> Answer {
    let mut answer = [0; 8];
    // SAFETY: two shared slices, lent for the call.
    unsafe { tunnels_load(d.as_ptr(), d.len(), s.as_ptr(), s.len(), answer.as_mut_ptr()) };
    answer
}

pub fn adapter(d: &[u32], s: &[u32], place: usize, adapter: u8) -> Answer {
    let mut answer = [0; 8];
    // SAFETY: two shared slices, lent for the call; any place and adapter are allowed.
    unsafe { tunnels_adapter(d.as_ptr(), d.len(), s.as_ptr(), s.len(), place, adapter, answer.as_mut_ptr()) };
    answer
}

pub fn link_speed(d: &[u32], s: &[u32], place: usize, adapter: u8) -> Answer {
    let mut answer = [0; 8];
    // SAFETY: two shared slices, lent for the call; any place and adapter are allowed.
    unsafe { tunnels_link_speed(d.as_ptr(), d.len(), s.as_ptr(), s.len(), place, adapter, answer.as_mut_ptr()) };
    answer
}

pub fn max_hop(d: &[u32], s: &[u32], place: usize, adapter: u8) -> Answer {
    let mut answer = [0; 8];
    // SAFETY: two shared slices, lent for the call; any place and adapter are allowed.
    unsafe { tunnels_max_hop(d.as_ptr(), d.len(), s.as_ptr(), s.len(), place, adapter, answer.as_mut_ptr()) };
    answer
}

pub fn parent(d: &[u32], s: &[u32], place: usize) -> Answer {
    let mut answer = [0; 8];
    // SAFETY: two shared slices, lent for the call; any place is allowed.
    unsafe { tunnels_parent(d.as_ptr(), d.len(), s.as_ptr(), s.len(), place, answer.as_mut_ptr()) };
    answer
}

pub fn walk(d: &[u32], s: &[u32], place: usize, adapter: u8, hop: u16, output: &mut [u32]) -> Answer {
    let mut answer = [0; 8];
    // SAFETY: three slices, lent for the call; the one that is written overlaps nothing; any place, adapter and HopID are allowed.
    unsafe {
        tunnels_walk(d.as_ptr(), d.len(), s.as_ptr(), s.len(), place, adapter, hop, output.as_mut_ptr(), output.len(), answer.as_mut_ptr())
    };
    answer
}

pub fn discover(d: &[u32], s: &[u32], place: usize, adapter: u8, output: &mut [u32]) -> Answer {
    let mut answer = [0; 8];
    // SAFETY: three slices, lent for the call; the one that is written overlaps nothing; any place and adapter are allowed.
    unsafe {
        tunnels_discover(d.as_ptr(), d.len(), s.as_ptr(), s.len(), place, adapter, output.as_mut_ptr(), output.len(), answer.as_mut_ptr())
    };
    answer
}
