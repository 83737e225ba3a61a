//! The library's functions, as crates/chanrelout exports them: a slice is a pointer and a length. Nothing holds these
//! declarations to the library but the tests.

extern "C" {
    pub fn chanrelout_line(line: *const u8, line_len: usize, out: *mut u8, out_len: usize) -> u64;
    pub fn chanrelout_call(call: *const u64, call_len: usize, out: *mut u64, out_len: usize) -> u8;
    pub fn chanrelout_line_by(
        reading: u64,
        engine: u64,
        line: *const u8,
        line_len: usize,
        out: *mut u8,
        out_len: usize,
    ) -> u64;
    pub fn chanrelout_call_by(
        reading: u64,
        engine: u64,
        call: *const u64,
        call_len: usize,
        out: *mut u64,
        out_len: usize,
    ) -> u8;
    pub fn chanrelout_calls_by(
        reading: u64,
        engine: u64,
        calls: *const u64,
        calls_len: usize,
        out: *mut u64,
        out_len: usize,
    ) -> u8;
    pub fn chanrelout_read_value(text: *const u8, text_len: usize, value: *mut u64, value_len: usize) -> u64;
    pub fn chanrelout_write_value(value: *const u64, value_len: usize, out: *mut u8, out_len: usize) -> u64;
    pub fn chanrelout_compare(a: *const u64, a_len: usize, b: *const u64, b_len: usize) -> u8;
    pub fn chanrelout_sort(listing: *const u8, listing_len: usize, index: *mut u16, index_len: usize) -> u64;
    pub fn chanrelout_diff(
        left: *const u8,
        left_len: usize,
        right: *const u8,
        right_len: usize,
        kinds: *mut u8,
        kinds_len: usize,
    ) -> u64;
    pub fn chanrelout_first_difference(left: *const u8, left_len: usize, right: *const u8, right_len: usize) -> u64;
    pub fn chanrelout_f32_to_f16(bits: u32) -> u16;
    pub fn chanrelout_f32_to_f16_told(bits: u32) -> u32;
    pub fn chanrelout_f16_to_f32(bits: u16) -> u32;
}
