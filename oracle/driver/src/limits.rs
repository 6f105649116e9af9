//! Document 01's numbers.

/// Bytes of a book, of a macro's combinator and of a result.
pub const BOOK_BYTES: usize = 16_384;
/// Definitions of a book and of a result.
pub const DEFINITIONS: usize = 512;
/// Levels of a body.
pub const LEVELS: usize = 64;
/// Bytes of a name.
pub const NAME_BYTES: usize = 255;
/// Passes of the nested mode (document 02 b).
pub const PASSES: usize = 16;

/// Document 01's codes as far as a judge without buffers can give them: 1 and
/// 11 speak of the work area and the output. 12 is document 02's, request b.
pub mod code {
    pub const DONE: u8 = 0;
    pub const BOOK_TOO_LONG: u8 = 2;
    pub const NOT_A_BOOK: u8 = 3;
    pub const BAD_NAME: u8 = 4;
    pub const TOO_DEEP: u8 = 5;
    pub const MACRO_GROWTH: u8 = 6;
    pub const LEFTOVER_MACRO: u8 = 7;
    pub const NO_BINDER: u8 = 8;
    pub const LIFTED_NAME_TOO_LONG: u8 = 9;
    pub const RESULT_TOO_LARGE: u8 = 10;
    pub const MACRO_CALL_LEFT: u8 = 12;
}
