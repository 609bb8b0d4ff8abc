//! The exported functions as include/kusikhut.h has them. A slice passes as a pointer and a length, and Rust's slices
//! are never null, so the wrappers below only have to lend memory that overlaps nothing, which `&mut` ensures.

pub type Decode = unsafe extern "C" fn(*const u8, usize, usize, usize, *mut u8, usize, *mut u64) -> u8;
pub type BytesOut = unsafe extern "C" fn(*const u8, usize, *mut u8, usize, *mut u64) -> u8;
pub type Word = unsafe extern "C" fn(*const u8, usize, usize, *mut u64) -> u8;
pub type Change = unsafe extern "C" fn(*mut u8, usize, usize, u8, *mut u64) -> u8;
pub type Judge = unsafe extern "C" fn(*const u8, usize, *const u8, usize, *mut u64) -> u8;
pub type Size = unsafe extern "C" fn(u8, *mut u64) -> u8;

extern "C" {
    pub fn kusikhut_decode_nrz(
        c: *const u8,
        cl: usize,
        start: usize,
        n: usize,
        o: *mut u8,
        ol: usize,
        r: *mut u64,
    ) -> u8;
    pub fn kusikhut_decode_three_of_six(
        c: *const u8,
        cl: usize,
        start: usize,
        n: usize,
        o: *mut u8,
        ol: usize,
        r: *mut u64,
    ) -> u8;
    pub fn kusikhut_decode_manchester(
        c: *const u8,
        cl: usize,
        start: usize,
        n: usize,
        o: *mut u8,
        ol: usize,
        r: *mut u64,
    ) -> u8;
    pub fn kusikhut_encode_nrz(b: *const u8, bl: usize, o: *mut u8, ol: usize, r: *mut u64) -> u8;
    pub fn kusikhut_encode_three_of_six(b: *const u8, bl: usize, o: *mut u8, ol: usize, r: *mut u64) -> u8;
    pub fn kusikhut_encode_manchester(b: *const u8, bl: usize, o: *mut u8, ol: usize, r: *mut u64) -> u8;
    pub fn kusikhut_word_nrz(c: *const u8, cl: usize, at: usize, r: *mut u64) -> u8;
    pub fn kusikhut_word_three_of_six(c: *const u8, cl: usize, at: usize, r: *mut u64) -> u8;
    pub fn kusikhut_word_manchester(c: *const u8, cl: usize, at: usize, r: *mut u64) -> u8;
    pub fn kusikhut_search(c: *const u8, cl: usize, start: usize, allowance: usize, r: *mut u64) -> u8;
    pub fn kusikhut_check(b: *const u8, bl: usize) -> u16;
    pub fn kusikhut_update(old_check: u16, old: u8, new: u8, distance: usize, r: *mut u64) -> u8;
    pub fn kusikhut_frame_size_a(l: u8, r: *mut u64) -> u8;
    pub fn kusikhut_frame_size_b(l: u8, r: *mut u64) -> u8;
    pub fn kusikhut_read_a(b: *const u8, bl: usize, o: *mut u8, ol: usize, r: *mut u64) -> u8;
    pub fn kusikhut_read_b(b: *const u8, bl: usize, o: *mut u8, ol: usize, r: *mut u64) -> u8;
    pub fn kusikhut_write_a(c: *const u8, cl: usize, o: *mut u8, ol: usize, r: *mut u64) -> u8;
    pub fn kusikhut_write_b(c: *const u8, cl: usize, o: *mut u8, ol: usize, r: *mut u64) -> u8;
    pub fn kusikhut_change_a(f: *mut u8, fl: usize, place: usize, byte: u8, r: *mut u64) -> u8;
    pub fn kusikhut_change_b(f: *mut u8, fl: usize, place: usize, byte: u8, r: *mut u64) -> u8;
    pub fn kusikhut_correction_write_a(b: *const u8, bl: usize, o: *mut u8, ol: usize, r: *mut u64) -> u8;
    pub fn kusikhut_correction_write_b(b: *const u8, bl: usize, o: *mut u8, ol: usize, r: *mut u64) -> u8;
    pub fn kusikhut_correction_check_bytes(w: *const u8, wl: usize, o: *mut u8, ol: usize, r: *mut u64) -> u8;
    pub fn kusikhut_correction_header(b: *const u8, bl: usize) -> u8;
    pub fn kusikhut_mending_judge_a(p: *const u8, pl: usize, s: *const u8, sl: usize, r: *mut u64) -> u8;
    pub fn kusikhut_mending_judge_b(p: *const u8, pl: usize, s: *const u8, sl: usize, r: *mut u64) -> u8;
    pub fn kusikhut_mending_propose_one_a(s: *const u8, sl: usize, o: *mut u8, ol: usize, r: *mut u64) -> u8;
    pub fn kusikhut_mending_propose_one_b(s: *const u8, sl: usize, o: *mut u8, ol: usize, r: *mut u64) -> u8;
    pub fn kusikhut_mending_propose_a(s: *const u8, sl: usize, o: *mut u8, ol: usize, r: *mut u64) -> u8;
    pub fn kusikhut_mending_propose_b(s: *const u8, sl: usize, o: *mut u8, ol: usize, r: *mut u64) -> u8;
    pub fn kusikhut_receive(
        c: *const u8,
        cl: usize,
        start: usize,
        allowance: usize,
        o: *mut u8,
        ol: usize,
        r: *mut u64,
    ) -> u8;
    pub fn kusikhut_receive_manchester(c: *const u8, cl: usize, start: usize, o: *mut u8, ol: usize, r: *mut u64)
        -> u8;
    pub fn kusikhut_send_t_a(c: *const u8, cl: usize, o: *mut u8, ol: usize, r: *mut u64) -> u8;
    pub fn kusikhut_send_c_a(c: *const u8, cl: usize, o: *mut u8, ol: usize, r: *mut u64) -> u8;
    pub fn kusikhut_send_c_b(c: *const u8, cl: usize, o: *mut u8, ol: usize, r: *mut u64) -> u8;
    pub fn kusikhut_send_manchester_a(c: *const u8, cl: usize, o: *mut u8, ol: usize, r: *mut u64) -> u8;
    pub fn kusikhut_header_read(b: *const u8, bl: usize, r: *mut u64) -> u8;
    pub fn kusikhut_header_write_8c(cc: u8, acc: u8, o: *mut u8, ol: usize, r: *mut u64) -> u8;
    pub fn kusikhut_header_write_8d(cc: u8, acc: u8, sn: u32, crc: *const u8, o: *mut u8, ol: usize, r: *mut u64)
        -> u8;
    pub fn kusikhut_header_write_8e(cc: u8, acc: u8, m2: u16, a2: *const u8, o: *mut u8, ol: usize, r: *mut u64) -> u8;
    pub fn kusikhut_header_write_8f(
        cc: u8,
        acc: u8,
        m2: u16,
        a2: *const u8,
        sn: u32,
        crc: *const u8,
        o: *mut u8,
        ol: usize,
        r: *mut u64,
    ) -> u8;
    pub fn kusikhut_access(cc: u8) -> u8;
    pub fn kusikhut_maker(m: u16, r: *mut u64) -> u8;
    pub fn kusikhut_filter(e: *const u8, count: usize, c: *const u8, cl: usize, r: *mut u64) -> u8;
    pub fn kusikhut_store_empty(s: *mut u8, sl: usize, r: *mut u64) -> u8;
    pub fn kusikhut_store_add(s: *mut u8, sl: usize, meter: *const u8, mode: u8, format: u8, r: *mut u64) -> u8;
    pub fn kusikhut_store_hear(s: *mut u8, sl: usize, meter: *const u8, number: u32, r: *mut u64) -> u8;
    pub fn kusikhut_store_issue(s: *mut u8, sl: usize, meter: *const u8, r: *mut u64) -> u8;
    pub fn kusikhut_store_restore(s: *mut u8, sl: usize, file: *const u8, fl: usize, r: *mut u64) -> u8;
    pub fn kusikhut_store_write(s: *const u8, sl: usize, o: *mut u8, ol: usize, r: *mut u64) -> u8;
    pub fn kusikhut_store_look_up(s: *const u8, sl: usize, meter: *const u8, r: *mut u64) -> u8;
    pub fn kusikhut_store_allowance(s: *const u8, sl: usize, r: *mut u64) -> u8;
    pub fn kusikhut_store_set_allowance(s: *mut u8, sl: usize, allowance: u32, r: *mut u64) -> u8;
    pub fn kusikhut_row(index: usize, row: *mut f64);
    pub fn kusikhut_centre(index: usize, channel: usize, centre: *mut f64) -> u8;
    pub fn kusikhut_band_line(b: *const u8, bl: usize, k: usize, r: *mut u64) -> u8;
}
