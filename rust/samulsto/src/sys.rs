//! The archive's functions as include/samulsto.h declares them. Lent as slices their buffers are what they ask for:
//! as long as they say, never null, and those that are written overlap no other.

#[repr(C)]
pub struct Answer {
    pub code: u32,
    pub length: u32,
    pub definitions: u32,
    pub lifted: u32,
    pub at: u32,
}

#[repr(C)]
pub struct PremiseAnswer {
    pub code: u32,
    pub holds: u32,
    pub at: u32,
}

extern "C" {
    fn samulsto_elaborate(
        book: *const u8,
        book_length: usize,
        out: *mut u8,
        out_length: usize,
        work: *mut u8,
        work_length: usize,
    ) -> Answer;

    fn samulsto_elaborate_nested(
        book: *const u8,
        book_length: usize,
        out: *mut u8,
        out_length: usize,
        work: *mut u8,
        work_length: usize,
    ) -> Answer;

    fn samulsto_premise(
        book: *const u8,
        book_length: usize,
        work: *mut u8,
        work_length: usize,
    ) -> PremiseAnswer;
}

/// How often macros are expanded.
#[derive(Clone, Copy)]
pub enum Mode {
    Plain,
    Nested,
}

pub fn elaborate(mode: Mode, book: &[u8], out: &mut [u8], work: &mut [u8]) -> Answer {
    let call = match mode {
        Mode::Plain => samulsto_elaborate,
        Mode::Nested => samulsto_elaborate_nested,
    };
    // SAFETY: each pointer is a slice's, with that slice's length; slices that are lent `&mut` overlap no other.
    unsafe {
        call(
            book.as_ptr(),
            book.len(),
            out.as_mut_ptr(),
            out.len(),
            work.as_mut_ptr(),
            work.len(),
        )
    }
}

pub fn premise(book: &[u8], work: &mut [u8]) -> PremiseAnswer {
    // SAFETY: as above.
    unsafe { samulsto_premise(book.as_ptr(), book.len(), work.as_mut_ptr(), work.len()) }
}
