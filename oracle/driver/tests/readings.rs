//! What the Rust does where document 01 leaves a choice: source and result in
//! the notation, or the code. Each runs through the unchanged Rust.

use driver::answer::{answer, Answer};
use driver::expand::Mode;
use driver::notation::{parse, print};
use driver::read::read;
use driver::write::write;

fn answered(source: &str) -> Answer {
    let book = write(&parse(source).expect(source)).expect(source);
    answer(&book, Mode::Plain).expect("both readings agree")
}

fn gives(source: &str, result: &str) {
    match answered(source) {
        Answer::Refused(refusal) => panic!("{source}: {refusal}"),
        Answer::Done(done) => {
            let found = read(&done.book).expect("a result is a book");
            assert_eq!(
                print(&found),
                print(&parse(result).expect(result)),
                "{source}"
            );
        }
    }
}

fn refuses(source: &str, code: u8) {
    assert_eq!(answered(source).code(), code, "{source}");
}

#[test]
fn search_for_a_binder() {
    gives(
        "format m(@n: int \"one\") = struct { s: struct { @n: int \"two\", h: struct { b: bytes[@n] } } }",
        "format m(@n: int \"one\") = struct { s: m_s }
         format m_s_h(@n: int \"one\") = struct { b: bytes[@n] }
         format m_s = struct { @n: int \"two\", h: m_s_h(@n) }",
    );
    gives(
        "format m = struct { @n: int, s: enum >>= struct { b: bytes[@n] } }",
        "format m = struct { @n: int, s: m_s }
         format m_s_0(@n: int) = struct { b: bytes[@n] }
         format m_s = enum >>= m_s_0(@n)",
    );
    refuses(
        "format m = struct { @n: int } >>= struct { b: bytes[@n] }",
        8,
    );
    refuses(
        "format m = struct { a: struct { @n: int }, h: struct { b: bytes[@n] } }",
        8,
    );
}

#[test]
fn order_at_lifts() {
    refuses(
        "format m = struct { s: struct { x: bytes[@n] } >>= struct { y: zz!() } }",
        8,
    );
    refuses(
        "format m = struct { s: struct { x: bytes[@n], y: zz!() } }",
        7,
    );
}

#[test]
fn substitution() {
    gives(
        "macro f!(a) = struct { x: a(@k) >>= a } format m = f!(nothing)",
        "format m = struct { x: nothing >>= nothing }",
    );
    gives(
        "macro f!(a, a) = a format m = f!(vec<a>, nothing)",
        "format m = vec<nothing>",
    );
    gives(
        "macro f!(a, b) = struct { x: a, y: b } format m = f!(nothing, a)",
        "format m = struct { x: nothing, y: a }",
    );
    gives(
        "macro f!(n) = struct { x: bytes[@n], y: choose(@n) ints {}, z: zz!(n), w: n >>= n }
         format m(@n: n) = f!(tail)",
        "format m(@n: n) = struct { x: bytes[@n], y: m_y(@n), z: zz!(n), w: tail >>= tail }
         format m_y(@n: n) = choose(@n) ints {}",
    );
}

#[test]
fn chains_at_calls_and_arguments() {
    gives(
        "macro f!() = nothing >>= enum format m = f!() >>= f!()",
        "format m = nothing >>= nothing",
    );
    gives(
        "macro f!() = nothing format m = zz!(f!(), struct {})",
        "format m = zz!(f!(), struct {})",
    );
    gives(
        "macro f!() = tail macro f!() = nothing format m = f!()",
        "format m = nothing",
    );
}

#[test]
fn names() {
    gives(
        "format m = struct { s: struct { x: enum } >>= enum } const m_s = \"\"",
        "format m = struct { s: m_s_0 } const m_s = \"\"
         format m_s_0_0 = enum
         format m_s_0_x = enum
         format m_s_0 = struct { x: m_s_0_x } >>= m_s_0_0",
    );
    gives(
        "format m = bytes[] >>= bytes[] >>= enum",
        "format m = bytes[] >>= bytes[] >>= m_0 format m_0 = enum",
    );
    gives(
        "format m = choose ints { \"\" => nothing, \"\" => enum }",
        "format m = choose ints { \"\" => nothing, \"\" => m_choice1 } format m_choice1 = enum",
    );
    gives(
        "format `` = struct { ``: enum } macro _anon!() = nothing",
        "format `` = struct { ``: _anon } format _anon = enum",
    );
    gives(
        "format m = struct { `٣`: enum, `A٣-é`: enum }",
        "format m = struct { `٣`: m__, `A٣-é`: m_a___ } format m__ = enum format m_a___ = enum",
    );
    gives(
        "format m = struct { a: m_a_0, b: struct { c: enum } } format m_b_c = nothing",
        "format m = struct { a: m_a_0, b: m_b } format m_b_c = nothing
         format m_b_c_0 = enum format m_b = struct { c: m_b_c_0 }",
    );
}

#[test]
fn types() {
    gives(
        "format m = struct { @n: enum, h: struct { b: bytes[@n] } }",
        "format m = struct { @n: m_n, h: m_h(@n) } format m_n = enum
         format m_h(@n: m_n) = struct { b: bytes[@n] }",
    );
    gives(
        "format m = struct { @n: vec<bytes[] >>= enum> >>= tail, h: struct { b: bytes[@n] } }",
        "format m = struct { @n: vec<bytes[] >>= m_n_item> >>= tail, h: m_h(@n) }
         format m_n_item = enum
         format m_h(@n: vec<bytes[] >>= m_n_item>) = struct { b: bytes[@n] }",
    );
    gives(
        "macro f!() = nothing format m(@n: zz!(f!()), @n: tail) = struct { h: struct { b: bytes[@n] } }",
        "format m(@n: zz!(f!()), @n: tail) = struct { h: m_h(@n) }
         format m_h(@n: zz!(f!())) = struct { b: bytes[@n] }",
    );
    gives(
        "format m = struct { @n: int, @k: bytes[@n], h: struct { b: bytes[@k] } }",
        "format m = struct { @n: int, @k: bytes[@n], h: m_h(@k) }
         format m_h(@k: bytes[@n]) = struct { b: bytes[@k] }",
    );
}

#[test]
fn collection() {
    gives(
        "format m = struct { s: enum >>= zz!() }",
        "format m = struct { s: m_s } format m_s = enum >>= zz!()",
    );
    refuses("format m = struct { s: enum >>= struct { x: zz!() } }", 7);
    gives("format m = zz!()", "format m = zz!()");
    gives("format m = bytes[@n]", "format m = bytes[@n]");
    gives(
        "format m(@``: int) = vec<choose(@`.x`) ints {}>",
        "format m(@``: int) = vec<m_item(@``)> format m_item(@``: int) = choose(@`.x`) ints {}",
    );
    gives(
        "format m(@b: int \"b\", @B: int \"B\", @`é`: int, @a: int \"a\") = vec<struct { x: m(@`é`, @b.q, @a, @B, @a) }>",
        "format m(@b: int \"b\", @B: int \"B\", @`é`: int, @a: int \"a\") = vec<m_item(@B, @a, @b, @`é`)>
         format m_item(@B: int \"B\", @a: int \"a\", @b: int \"b\", @`é`: int)
           = struct { x: m(@`é`, @b.q, @a, @B, @a) }",
    );
}
