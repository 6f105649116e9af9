//! The port's Rattle sources, contracts taken off (`build.rs` says why), held against the driver.

#![allow(clippy::all, unused, unused_parens, improper_ctypes_definitions)]

include!(concat!(env!("OUT_DIR"), "/port.rs"));

/// The code and the place that reading gives a book: 0 and 0 if it reads without fault. Code 2 is not reading's.
pub fn read(bytes: &[u8]) -> (u8, usize) {
    match read_book::book::read(bytes) {
        Ok(()) => (0, 0),
        Err(fault) => (fault.code.into(), fault.at),
    }
}

/// The code, and the length of the result in `out`.
pub fn elaborate(bytes: &[u8], out: &mut [u8], work: &mut [u8]) -> (u32, usize) {
    let answer = elab::samulsto_elaborate(bytes, out, work);
    (answer.code, answer.length as usize)
}
