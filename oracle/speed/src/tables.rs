//! The tables of docs/SPEED.md, in Markdown.

use crate::clock::{pair, Pair};
use crate::kinds::{kinds, result, HURTING, TYPICAL, WORKED};
use crate::plot::plot;
use crate::shapes::{largest, SHAPES};
use crate::{Elaborate, Named};

/// How long the books of a kind are that are looked at by size, in bytes.
const STEPS: [(usize, usize); 4] = [(200, 499), (500, 999), (1000, 1999), (2000, 4000)];
const KILOBYTES: std::ops::RangeInclusive<usize> = 1..=16;
/// The sizes that the table shows; the plot has all of them.
const SHOWN: [usize; 5] = [1, 2, 4, 8, 16];

/// A book, timed.
struct Row {
    name: String,
    bytes: usize,
    time: Pair,
}

/// Time against size for a shape: bytes of the book or, where that is longer, of its result; and what it takes.
pub type Series = (&'static str, Vec<(usize, Pair)>);

/// Prints all tables as they are found; the plot is what comes back.
pub fn measure(elaborate: Elaborate) -> String {
    println!("{HEAD}");
    let mut after = String::new();
    for (kind, books) in kinds() {
        let rows = timed(elaborate, &books);
        println!("{}", summary(kind, rows.iter().collect()));
        if kind == TYPICAL {
            after += &by_size(&rows);
        }
        if kind == WORKED || kind == HURTING {
            after += &one_by_one(kind, &rows);
        }
    }
    println!("{after}");
    let series = against_size(elaborate);
    println!("{}", size_table(&series));
    plot(&series)
}

const HEAD: &str =
    "| books | count | median ratio | largest ratio | median microseconds |\n|---|---|---|---|---|";

fn timed(elaborate: Elaborate, books: &[Named]) -> Vec<Row> {
    let time = |(name, book): &Named| Row {
        name: name.clone(),
        bytes: book.len(),
        time: pair(elaborate, book),
    };
    books.iter().map(time).collect()
}

/// A line on a kind: the middle ratio, the largest and its book, the middle time.
fn summary(kind: &str, mut rows: Vec<&Row>) -> String {
    rows.sort_by_key(|row| row.time.ours);
    let middle = micros(rows[rows.len() / 2].time.ours);
    rows.sort_by(|a, b| a.time.ratio().total_cmp(&b.time.ratio()));
    let (median, most) = (rows[rows.len() / 2], rows[rows.len() - 1]);
    format!(
        "| {kind} | {} | {:.2} | {:.2} ({}, {} bytes) | {middle} |",
        rows.len(),
        median.time.ratio(),
        most.time.ratio(),
        most.name,
        most.bytes
    )
}

fn by_size(rows: &[Row]) -> String {
    let mut text = format!("\n{}", HEAD.replace("books", "typical, bytes"));
    for (least, most) in STEPS {
        let within = rows
            .iter()
            .filter(|row| (least..=most).contains(&row.bytes));
        text += &format!(
            "\n{}",
            summary(&format!("{least} to {most}"), within.collect())
        );
    }
    text + "\n"
}

fn one_by_one(kind: &str, rows: &[Row]) -> String {
    let mut text =
        format!("\n| {kind} | bytes | microseconds | the Rust | ratio |\n|---|---|---|---|---|");
    for Row { name, bytes, time } in rows {
        let (ours, rust) = (micros(time.ours), micros(time.rust));
        text += &format!(
            "\n| {name} | {bytes} | {ours} | {rust} | {:.2} |",
            time.ratio()
        );
    }
    text + "\n"
}

fn against_size(elaborate: Elaborate) -> Vec<Series> {
    let point = |book: Vec<u8>| {
        let bytes = book.len().max(result(&book).unwrap_or(0));
        (bytes, pair(elaborate, &book))
    };
    let of_shape = |shape| {
        KILOBYTES
            .map(|size| point(largest(shape, 1024 * size)))
            .collect()
    };
    SHAPES
        .iter()
        .map(|shape| (shape.0, of_shape(shape)))
        .collect()
}

fn size_table(series: &[Series]) -> String {
    let sizes: Vec<String> = SHOWN.iter().map(|size| format!("{size} KB")).collect();
    let mut text = format!(
        "| ours / the Rust, microseconds | {} |\n|---|{}",
        sizes.join(" | "),
        "---|".repeat(SHOWN.len())
    );
    for (shape, points) in series {
        text += &format!("\n| {shape} |");
        for size in SHOWN {
            let time = points[size - KILOBYTES.start()].1;
            text += &format!(" {} / {} |", micros(time.ours), micros(time.rust));
        }
    }
    text + "\n"
}

/// Three digits of it, or all that stand before the point.
pub fn micros(nanoseconds: u128) -> String {
    let value = nanoseconds as f64 / 1000.0;
    match value {
        _ if value < 10.0 => format!("{value:.2}"),
        _ if value < 100.0 => format!("{value:.1}"),
        _ => format!("{value:.0}"),
    }
}
