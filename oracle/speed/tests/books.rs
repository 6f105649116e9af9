//! The books are what their names say, and the plot has all lines.

use driver::limits::BOOK_BYTES;
use speed::clock::Pair;
use speed::kinds::{hurting, result};
use speed::plot::plot;
use speed::shapes::{largest, SHAPES};

#[test]
fn books_that_hurt_are_accepted() {
    for (name, book) in hurting() {
        assert!(result(&book).is_some(), "{name}");
    }
}

#[test]
fn shapes_fill_their_size() {
    for shape in &SHAPES {
        for size in [1024, BOOK_BYTES] {
            let book = largest(shape, size);
            let result = result(&book).expect(shape.0);
            let longest = result.max(book.len());
            assert!(longest <= size, "{}: {longest} of {size}", shape.0);
            assert!(size - longest < 256, "{}: {longest} of {size}", shape.0);
        }
    }
}

#[test]
fn a_plot_has_two_lines_for_a_shape() {
    let point = |size: u32| {
        let time = Pair {
            ours: u128::from(size),
            rust: u128::from(3 * size),
        };
        (size as usize, time)
    };
    let series = ["a", "b"].map(|name| (name, (1..=16).map(|kb| point(1024 * kb)).collect()));
    let svg = plot(&series);
    assert_eq!(svg.matches("<polyline").count(), 4);
    assert!(svg.ends_with("</svg>\n") && !svg.contains("NaN"));
}
