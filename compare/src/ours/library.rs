//! The calls of the C library, as include/crustdelta.h declares them.

use super::{told, Told, REFUSED};

extern "C" {
    fn crustdelta_make(
        profile: u64,
        name: *const u8,
        name_length: usize,
        scid: *const u8,
        scid_length: usize,
        tape: *const u8,
        tape_length: usize,
        out: *mut u8,
        out_length: usize,
    ) -> u64;
    fn crustdelta_read(hello: *const u8, hello_length: usize) -> u64;
    fn crustdelta_report(
        hello: *const u8,
        hello_length: usize,
        out: *mut u8,
        out_length: usize,
    ) -> u64;
    fn crustdelta_join(
        frames: *const u8,
        frames_length: usize,
        out: *mut u8,
        out_length: usize,
        marks: *mut u8,
        marks_length: usize,
    ) -> u64;
    fn crustdelta_frames(
        c: u64,
        hello: *const u8,
        hello_length: usize,
        out: *mut u8,
        out_length: usize,
    ) -> u64;
    fn crustdelta_alike(a: *const u8, a_length: usize, b: *const u8, b_length: usize) -> u64;
}

/// The length of the hello that is made.
pub(crate) fn make(profile: u64, name: &[u8], scid: &[u8], tape: &[u8], out: &mut [u8]) -> Told {
    // SAFETY: each pointer and length are those of one slice; the call reads three, and the last is lent to nobody else.
    let number = unsafe {
        crustdelta_make(
            profile,
            name.as_ptr(),
            name.len(),
            scid.as_ptr(),
            scid.len(),
            tape.as_ptr(),
            tape.len(),
            out.as_mut_ptr(),
            out.len(),
        )
    };
    told(number, REFUSED)
}

/// 0 where the reader accepts a hello. No report is built.
pub(crate) fn refusal(hello: &[u8]) -> Told {
    // SAFETY: pointer and length are those of one slice, which the call reads.
    let number = unsafe { crustdelta_read(hello.as_ptr(), hello.len()) };
    told(number, REFUSED)
}

/// The length of the report that is written to the front of the output, in the layout of include/crustdelta.h.
pub(crate) fn report_bytes(hello: &[u8], out: &mut [u8]) -> Told {
    // SAFETY: each pointer and length are those of one slice; the call reads the first, and the other is lent to nobody else.
    let number =
        unsafe { crustdelta_report(hello.as_ptr(), hello.len(), out.as_mut_ptr(), out.len()) };
    told(number, REFUSED)
}

/// The end of the joined stream.
pub(crate) fn join(frames: &[u8], out: &mut [u8], marks: &mut [u8]) -> Told {
    // SAFETY: each pointer and length are those of one slice; the call reads the first, and the two others are lent to
    // nobody else.
    let number = unsafe {
        crustdelta_join(
            frames.as_ptr(),
            frames.len(),
            out.as_mut_ptr(),
            out.len(),
            marks.as_mut_ptr(),
            marks.len(),
        )
    };
    told(number, REFUSED)
}

/// The length of the frames of `c` data bytes that a hello is cut into.
pub(crate) fn frames(c: u64, hello: &[u8], out: &mut [u8]) -> Told {
    // SAFETY: each pointer and length are those of one slice; the call reads the first, and the other is lent to nobody else.
    let number =
        unsafe { crustdelta_frames(c, hello.as_ptr(), hello.len(), out.as_mut_ptr(), out.len()) };
    told(number, REFUSED)
}

/// 1 where two hellos are alike, and 0 where they are not.
pub(crate) fn alike(a: &[u8], b: &[u8]) -> u64 {
    // SAFETY: each pointer and length are those of one slice, which the call reads.
    unsafe { crustdelta_alike(a.as_ptr(), a.len(), b.as_ptr(), b.len()) }
}
