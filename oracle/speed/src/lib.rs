//! The port's call beside the Rust, in one process and on the same books: our whole call, zeroing included, to the
//! Rust's decode, `elaborate` and encode.

pub mod clock;
pub mod kinds;
pub mod passes;
pub mod plot;
pub mod shapes;
pub mod tables;

/// The call that is timed: book, output, work area; the code, and the length of the result in the output.
pub type Elaborate = fn(&[u8], &mut [u8], &mut [u8]) -> (u32, usize);

/// A book with a name.
pub type Named = (String, Vec<u8>);

/// Deep books recurse in the Rust: the work is done on a stack that is never short.
pub fn on_a_large_stack<T: Send + 'static>(work: impl FnOnce() -> T + Send + 'static) -> T {
    let worker = std::thread::Builder::new()
        .stack_size(256 << 20)
        .spawn(work);
    let outcome = worker.expect("a thread to work on").join();
    outcome.unwrap_or_else(|_| panic!("the work has panicked"))
}
