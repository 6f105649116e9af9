//! Bad input gets one clear line and a non-zero exit, never a panic; and what
//! one run writes, the next one writes again.

use std::io::Write;
use std::process::{Command, Output, Stdio};

fn oracle(words: &[&str], input: &[u8]) -> Output {
    let mut child = Command::new(env!("CARGO_BIN_EXE_oracle"))
        .args(words)
        .stdin(Stdio::piped())
        .stdout(Stdio::piped())
        .stderr(Stdio::piped())
        .spawn()
        .expect("the oracle starts");
    let mut stdin = child.stdin.take().expect("a pipe");
    let input = input.to_vec();
    // A program that refuses its words may end before it reads.
    let writer = std::thread::spawn(move || drop(stdin.write_all(&input)));
    let output = child.wait_with_output().expect("the oracle ends");
    writer.join().expect("the writer ends");
    output
}

/// One line on the error output, and a failure that is no panic.
fn refuses(words: &[&str], input: &[u8], part: &str) {
    let output = oracle(words, input);
    let line = String::from_utf8_lossy(&output.stderr).into_owned();
    assert_eq!(output.status.code(), Some(1), "{words:?}: {line}");
    assert_eq!(line.matches('\n').count(), 1, "{words:?}: {line}");
    assert!(
        line.starts_with("oracle: ") && line.contains(part),
        "{words:?}: {line}"
    );
    assert!(!line.contains("panicked"), "{words:?}: {line}");
}

fn succeeds(words: &[&str], input: &[u8]) -> Vec<u8> {
    let output = oracle(words, input);
    let line = String::from_utf8_lossy(&output.stderr).into_owned();
    assert!(
        output.status.success() && line.is_empty(),
        "{words:?}: {line}"
    );
    output.stdout
}

#[test]
fn words() {
    refuses(&[], b"", "no subcommand");
    refuses(&["nonsense"], b"", "`nonsense`");
    refuses(&["answer", "--netsed"], b"", "no subcommand");
    refuses(&["listing", "--netsed"], b"", "no subcommand");
    refuses(&["sweep", "--nested"], b"", "no subcommand");
    refuses(&["cases", "--nested", "x", "1"], b"", "`x` is no number");
    refuses(&["answer", "two\nlines"], b"", "no subcommand");
    refuses(&["cases"], b"", "no subcommand");
    refuses(&["cases", "x", "1"], b"", "`x` is no number");
    refuses(&["cases", "1", "-1"], b"", "`-1` is no number");
    refuses(&["cases", "1", "18446744073709551616"], b"", "is no number");
    refuses(&["tally", "1", ""], b"", "`` is no number");
    refuses(&["book"], b"", "no subcommand");
    refuses(&["bench", "0"], b"", "0 repetitions");
    refuses(&["bench", "5"], b"", "none of 0 books");
}

#[test]
fn streams() {
    for words in [
        &["answer"][..],
        &["premise"],
        &["answer", "--nested"],
        &["bench", "1"],
    ] {
        refuses(words, &[1, 2, 3], "case 0: the stream ends inside a length");
        refuses(
            words,
            &[9, 0, 0, 0, 1],
            "case 0: the stream ends inside a book: 1 of 9 bytes",
        );
        refuses(
            words,
            &[2, 0, 0, 0, 0, 0, 7],
            "case 1: the stream ends inside a length",
        );
        refuses(words, &[255; 64], "this is no case stream");
    }
    assert_eq!(succeeds(&["answer"], b""), b"");
    let one = [2, 0, 0, 0, 0, 0];
    assert_eq!(
        succeeds(&["answer"], &one),
        [0, 2, 0, 0, 0, 0, 0, 0, 0, 0, 0, 0, 0]
    );
    assert_eq!(succeeds(&["premise"], &one), [0, 1, 0, 0, 2, 0, 0, 0, 0, 0]);
    // A book of one definition without an entry: 3 at 2.
    let cut = [2, 0, 0, 0, 1, 0];
    for words in [&["answer"][..], &["answer", "--nested"]] {
        assert_eq!(succeeds(words, &cut), [3, 0, 0, 0, 0, 0, 0, 0, 0, 2, 0]);
    }
    for words in [&["premise"][..], &["premise", "--nested"]] {
        assert_eq!(succeeds(words, &cut), [3, 0, 2, 0, 0, 0, 0, 0]);
    }
}

#[test]
fn books_as_text() {
    let refuses = |text: &str, part| refuses(&["book", "write"], text.as_bytes(), part);
    refuses("format", "line 1, column 7: expected a name, found the end");
    refuses(
        "format m =\n  struct {\n    a nothing }",
        "line 3, column 7: expected `:`",
    );
    refuses(
        "format m = \"x\"",
        "line 1, column 12: expected a format, found a text",
    );
    refuses(
        "format a.b = nothing",
        "line 1, column 8: expected a name without '.'",
    );
    refuses(
        "const é = \"\"",
        "line 1, column 7: 'é' begins nothing here",
    );
    refuses("const k = \"abc", "line 1, column 11: this text has no end");
    refuses("const k = \"\\x+1\"", "line 1, column 12: \\x wants two");
    refuses("const `a", "line 1, column 7: this name has no end");
    refuses(
        "const `\\u{d800}` = \"\"",
        "line 1, column 8: \\u{..} wants",
    );
    refuses(
        "format m = choose {}",
        "expected `enums`, `ints` or `arrays`",
    );
    refuses(
        "format m = order",
        "line 1, column 12: expected a format, found `order`",
    );
    refuses(
        &format!("format m = {}", "vec<".repeat(5000)),
        "more than 300 levels",
    );
    refuses(
        &format!("format m = {}", "zz!(".repeat(5000)),
        "more than 300 levels",
    );
    refuses(
        &format!("format {} = tail", "x".repeat(256)),
        "a name of 256 bytes is over 255",
    );
    refuses(
        &format!("const k = \"{}\"", "x".repeat(70_000)),
        "is over 65535",
    );
    refuses(&"order \"\"\n".repeat(70_000), "is over 65535");
}

#[test]
fn books_as_bytes() {
    refuses(&["book", "write"], &[0xff, 0xfe], "the text is not UTF-8");
    refuses(&["book", "read"], b"", "refused 3 at 0");
    refuses(&["book", "read"], &[0, 0, 0], "refused 3 at 2");
    refuses(&["book", "read"], &[0; 20_000], "refused 2\n");
    refuses(&["elaborate"], &[1], "refused 3 at 0\n");
    refuses(&["elaborate", "--nested"], &[0, 0, 0], "refused 3 at 2\n");
    assert_eq!(succeeds(&["elaborate"], &[0, 0]), [0, 0]);
}

#[test]
fn any_bytes_get_an_answer() {
    let listing = |bytes: &[u8]| String::from_utf8(succeeds(&["listing"], bytes)).expect("ASCII");
    assert_eq!(listing(b""), "refused 3 at 0\n");
    assert_eq!(listing(&[1, 0]), "refused 3 at 2\n");
    assert_eq!(listing(&[0, 0]), "ok 0 0\n");
    assert_eq!(listing(&[7; 20_000]), "refused 2\n");
}

#[test]
fn nested_mode() {
    let text = "macro f!() = vec<g!()> macro g!() = enum format m = struct { a: f!() }";
    let book = succeeds(&["book", "write"], text.as_bytes());
    assert_eq!(succeeds(&["listing"], &book), b"ok 1 0\nformat m 0\n");
    let listed = "ok 3 2\nformat m 0\nlifted m_a_item 0\nlifted m_a 0\n";
    assert_eq!(succeeds(&["listing", "--nested"], &book), listed.as_bytes());
    let result = succeeds(&["elaborate", "--nested"], &book);
    assert_eq!(succeeds(&["elaborate"], &result), result);
    let back = succeeds(
        &["book", "write"],
        b"macro f!() = f!() format m = struct { a: f!() }",
    );
    refuses(&["elaborate", "--nested"], &back, "refused 12");
    assert_eq!(succeeds(&["listing", "--nested"], &back), b"refused 12\n");
}

#[test]
fn files() {
    refuses(
        &["record", "1", "10", "no-such-directory", "."],
        b"",
        "no-such-directory: ",
    );
    refuses(
        &["record", "1", "10", "src", "."],
        b"",
        "no file ends in .book",
    );
    refuses(
        &["record", "1", "999999", "src", "."],
        b"",
        "at most 100000",
    );
    let nowhere = "no-such-directory";
    refuses(
        &["record", "1", "10", "../../examples", nowhere],
        b"",
        "no-such-directory/cases-0.bin",
    );
}

#[test]
fn one_seed_one_stream() {
    let once = succeeds(&["cases", "5", "400"], b"");
    assert_eq!(succeeds(&["cases", "5", "400"], b""), once);
    assert!(succeeds(&["cases", "5", "401"], b"").starts_with(&once));
    assert_ne!(succeeds(&["cases", "6", "400"], b""), once);
    let answers = succeeds(&["answer"], &once);
    assert_eq!(succeeds(&["answer"], &once), answers);
    let nested = succeeds(&["cases", "--nested", "5", "400"], b"");
    assert_eq!(succeeds(&["cases", "--nested", "5", "400"], b""), nested);
    assert_ne!(nested, once);
}

#[test]
fn help_and_judges_speak() {
    assert!(succeeds(&["help"], b"").starts_with(b"oracle answer"));
    assert!(succeeds(&["judges"], b"").starts_with(b"code"));
}
