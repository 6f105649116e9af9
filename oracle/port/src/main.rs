//! The port's text, compiled natively: reading compared with the driver's and timed against size, the whole call timed beside the Rust.

use driver::cases::case;
use driver::places::places;
use driver::read::read;
use std::hint::black_box;
use std::time::Instant;

fn main() {
    let words: Vec<String> = std::env::args().skip(1).collect();
    let words: Vec<&str> = words.iter().map(String::as_str).collect();
    match words[..] {
        ["read", seed, count] => match (seed.parse(), count.parse()) {
            (Ok(seed), Ok(count)) => compare(seed, count),
            _ => fail("SEED and COUNT are numbers"),
        },
        ["times"] => times(),
        ["speed"] => {
            speed::on_a_large_stack(|| speed::tables::measure(port::elaborate));
        }
        _ => fail("the words are: read SEED COUNT, times, speed"),
    }
}

fn fail(line: &str) {
    eprintln!("port: {line}");
    std::process::exit(1);
}

/// Codes and places of faults: a fault of each kind of item, then generated cases.
fn compare(seed: u64, count: u64) {
    let mut codes = [0u64; 16];
    let told = places().into_iter().map(|one| (one.name, one.bytes));
    let generated = (0..count).map(|number| {
        let name = format!("case {number} of seed {seed}");
        (name, case(seed, number).bytes)
    });
    for (name, book) in told.chain(generated) {
        let expected = match read(&book) {
            Ok(_) => (0, 0),
            Err(fault) => (fault.code, fault.at),
        };
        if expected.0 == 2 {
            continue;
        }
        if port::read(&book) != expected {
            let found = port::read(&book);
            return fail(&format!("{name}: {found:?}, expected {expected:?}"));
        }
        codes[expected.0 as usize] += 1;
    }
    for (code, n) in codes.iter().enumerate().filter(|(_, n)| **n > 0) {
        println!("code {code}: {n} alike, 0 different");
    }
}

/// A book of one struct with so many fields, about 20 bytes each.
fn sized(fields: u16) -> Vec<u8> {
    let field = [
        &[1, 6][..],
        b"number",
        &[10, 1, 0, 1, b'n', 3, 0],
        b"@n ",
        &[0],
    ]
    .concat();
    let body = [
        &[1, b'm', 0, 0, 4][..],
        &fields.to_le_bytes(),
        &field.repeat(fields as usize),
        &[0],
    ]
    .concat();
    let length = (body.len() as u16).to_le_bytes();
    [&[1, 0, 1, 0, 8, 0][..], &length, &body].concat()
}

/// Nanoseconds for a byte, best of many, against the book's size.
fn times() {
    for fields in [50, 100, 200, 400, 819] {
        let book = sized(fields);
        assert_eq!(port::read(&book), (0, 0));
        let best = (0..2000)
            .map(|_| {
                let start = Instant::now();
                black_box(port::read(black_box(&book)));
                start.elapsed().as_nanos()
            })
            .min()
            .unwrap_or(0);
        println!(
            "{} bytes: {best} ns, {:.2} ns a byte",
            book.len(),
            best as f64 / book.len() as f64
        );
    }
}
