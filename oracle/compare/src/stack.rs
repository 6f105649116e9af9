//! How much stack a call uses: at least, and at most over the limits, the stories and generated books.

use crate::callee::{Call, Callee, Request, Times};
use crate::case::WORK_BYTES;
use crate::parts::{limits, told};
use driver::cases::{case, nested_case};
use driver::limits::BOOK_BYTES;
use std::fmt::Write;

/// 0 to 12.
const CODES: usize = 13;

/// A table in Markdown: bytes of stack by code, the deepest book of each.
pub fn stack(
    callee: &mut dyn Callee,
    calls: &[Call],
    seed: u64,
    count: u64,
) -> Result<String, String> {
    let mut text = String::new();
    for call in calls {
        let _ = writeln!(
            text,
            "| {}, code | books | least stack | most stack |\n|---|---|---|---|",
            call.word()
        );
        for (code, [books, least, most]) in used(callee, *call, seed, count)?.iter().enumerate() {
            if *books > 0 {
                let _ = writeln!(text, "| {code} | {books} | {least} | {most} |");
            }
        }
        text.push('\n');
    }
    Ok(text)
}

/// For each code: how many books, the least and the most bytes.
fn used(
    callee: &mut dyn Callee,
    call: Call,
    seed: u64,
    count: u64,
) -> Result<[[u32; 3]; CODES], String> {
    let nested = call == Call::Nested;
    let told = limits(nested).into_iter().chain(told(nested));
    let generated = (0..count).map(|number| case(seed, number).bytes);
    let for_nested = if nested { count } else { 0 };
    let macros = (0..for_nested).map(|number| nested_case(seed, number).bytes);
    let mut codes = [[0, u32::MAX, 0]; CODES];
    for book in told.chain(generated).chain(macros) {
        let reply = callee.call(&Request {
            call,
            book: &book,
            out: BOOK_BYTES,
            work: WORK_BYTES,
            noise: 0,
            times: Times::ForStack,
        })?;
        let code = codes.get_mut(reply.numbers[0] as usize);
        let [books, least, most] = code.ok_or("an unknown code was answered")?;
        *books += 1;
        *least = reply.measure.min(*least);
        *most = reply.measure.max(*most);
    }
    Ok(codes)
}
