//! The entries of the archive of the crate `compare_calls`: what compare/ asks and the C library does not have.

/// Hello and output for a text, each with its length after it.
pub(super) type Text = unsafe extern "C" fn(*const u8, usize, *mut u8, usize) -> u64;

extern "C" {
    pub(super) fn compare_varint_size(value: u64) -> u64;
    pub(super) fn compare_varint_write(value: u64, out: *mut u8, out_len: usize) -> u64;
    pub(super) fn compare_varint_value(input: *const u8, input_len: usize) -> u64;
    pub(super) fn compare_varint_width(input: *const u8, input_len: usize) -> u64;
    pub(super) fn compare_varint_sum(input: *const u8, input_len: usize) -> u64;
    pub(super) fn compare_drawn(
        browser: u64,
        name: *const u8,
        name_len: usize,
        scid: *const u8,
        scid_len: usize,
        tape: *const u8,
        tape_len: usize,
        out: *mut u8,
        out_len: usize,
    ) -> u64;
    pub(super) fn compare_report(
        hello: *const u8,
        hello_len: usize,
        out: *mut u8,
        out_len: usize,
    ) -> u64;
    pub(super) fn compare_set(
        hello: *const u8,
        hello_len: usize,
        out: *mut u8,
        out_len: usize,
    ) -> u64;
    pub(super) fn compare_stopped(hello: *const u8, hello_len: usize) -> u64;
    pub(super) fn compare_picked(hello: *const u8, hello_len: usize, place: usize) -> u64;
    pub(super) fn compare_next(blob: *const u8, blob_len: usize, place: usize) -> u64;
    pub(super) fn compare_record(
        blob: *const u8,
        blob_len: usize,
        place: usize,
        out: *mut u8,
        out_len: usize,
    ) -> u64;
}
