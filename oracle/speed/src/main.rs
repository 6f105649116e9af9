//! The proved archive beside the Rust, in one process. `compare/speed` of the repository builds and runs it.

#[cfg(archive)]
fn main() {
    let words: Vec<String> = std::env::args().skip(1).collect();
    let [path] = &words[..] else {
        eprintln!("speed: the one word is the plot's file");
        std::process::exit(2);
    };
    let plot = speed::on_a_large_stack(|| {
        let plot = speed::tables::measure(archive::elaborate);
        println!(
            "{}",
            speed::passes::table(archive::elaborate, archive::elaborate_nested)
        );
        plot
    });
    if let Err(error) = std::fs::write(path, plot) {
        eprintln!("speed: {path} can't be written: {error}");
        std::process::exit(1);
    }
}

#[cfg(not(archive))]
fn main() {
    eprintln!("speed: built without the proved archive, which is x86-64 code: set SAMULSTO_ARCHIVE on such a machine, or run compare/speed");
    std::process::exit(2);
}

#[cfg(archive)]
mod archive {
    /// As in include/samulsto.h.
    #[repr(C)]
    struct Answer {
        code: u32,
        length: u32,
        definitions: u32,
        lifted: u32,
        at: u32,
    }

    type Call = unsafe extern "C" fn(*const u8, usize, *mut u8, usize, *mut u8, usize) -> Answer;

    extern "C" {
        fn samulsto_elaborate(
            book: *const u8,
            book_length: usize,
            out: *mut u8,
            out_length: usize,
            work: *mut u8,
            work_length: usize,
        ) -> Answer;
        fn samulsto_elaborate_nested(
            book: *const u8,
            book_length: usize,
            out: *mut u8,
            out_length: usize,
            work: *mut u8,
            work_length: usize,
        ) -> Answer;
    }

    fn called(call: Call, book: &[u8], out: &mut [u8], work: &mut [u8]) -> (u32, usize) {
        // SAFETY: each pointer has as many bytes behind it as its length says; the slices that are written overlap none.
        let answer = unsafe {
            call(
                book.as_ptr(),
                book.len(),
                out.as_mut_ptr(),
                out.len(),
                work.as_mut_ptr(),
                work.len(),
            )
        };
        (answer.code, answer.length as usize)
    }

    pub fn elaborate(book: &[u8], out: &mut [u8], work: &mut [u8]) -> (u32, usize) {
        called(samulsto_elaborate, book, out, work)
    }

    pub fn elaborate_nested(book: &[u8], out: &mut [u8], work: &mut [u8]) -> (u32, usize) {
        called(samulsto_elaborate_nested, book, out, work)
    }
}
