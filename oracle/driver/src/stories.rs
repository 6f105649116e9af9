//! Books with a story: document 01's runs, and those of the settled readings.
//! The worked books P1 to P10 stand as text in the repository's examples.

use crate::answer::Answer;
use crate::build::*;
use crate::limits::code;
use crate::tree::{Book, Combinator, Definition, Inner};
use crate::write::write;

pub struct Story {
    pub name: &'static str,
    pub bytes: Vec<u8>,
    pub code: u8,
    /// Names of the lifted formats, in order, where it matters.
    pub lifted: Option<Vec<&'static str>>,
}

fn raw(name: &'static str, bytes: &[u8], code: u8) -> Story {
    Story {
        name,
        bytes: bytes.to_vec(),
        code,
        lifted: None,
    }
}

fn refused(name: &'static str, source: Book, code: u8) -> Story {
    raw(name, &write(&source).unwrap_or_default(), code)
}

fn lifts(name: &'static str, source: Book, lifted: &[&'static str]) -> Story {
    Story {
        lifted: Some(lifted.to_vec()),
        ..refused(name, source, code::DONE)
    }
}

/// `h: struct { b: Bytes, root n }`.
fn use_of_n() -> crate::tree::Field {
    field("h", structure(vec![field("b", bytes(&["n"]))]))
}

fn vecs(count: usize) -> Inner {
    (0..count).fold(nothing(), |inner, _| vec(inner))
}

fn two() -> Inner {
    Inner::Leaf(crate::tree::Leaf::ConstraintInt, b"two".to_vec())
}

/// Document 01's run by name: m with parameter n of one type, field s: struct
/// { Dependent n of another; h: struct { Bytes, root n } }.
pub fn binder_search() -> Book {
    let one = Inner::Leaf(crate::tree::Leaf::ConstraintInt, b"one".to_vec());
    let s = structure(vec![dependent("n", two()), use_of_n()]);
    book(vec![format_with(
        "m",
        vec![("n", one)],
        structure(vec![field("s", s)]),
    )])
}

/// Six uses of n, each at a place of its own.
pub fn six_uses() -> Book {
    let uses = structure(vec![
        field("a", bytes(&["n", "n"])),
        field("b", array(&["n"], nothing())),
        field("c", call("m", &["n", "n.x"])),
        field("d", bytes(&["n"])),
    ]);
    book(vec![format_with(
        "m",
        vec![("n", int())],
        structure(vec![field("s", uses)]),
    )])
}

/// A format whose lift collides with its own taken name of so many bytes.
fn taken(bytes: usize) -> Book {
    let name = "q".repeat(bytes - 2);
    let base = format!("{name}_a");
    book(vec![
        format(&name, structure(vec![field("a", enumeration())])),
        constant(&base, &[]),
    ])
}

pub fn stories() -> Vec<Story> {
    let zz = || macro_call("zz", vec![]);
    let m = |inner: Inner| book(vec![format("m", inner)]);
    let chained = |inner: Inner, next: Inner| Combinator::chained(inner, next.into());
    let long = "x".repeat(255);
    vec![
        raw("no bytes", &[], 3),
        raw("one byte", &[0], 3),
        raw("bytes after an empty book", &[0, 0, 0], 3),
        raw(
            "4 among items whose count is too high",
            &[1, 0, 4, 0, 8, 0, 5, 0, 0, 3, 0, 1, 0x2e],
            4,
        ),
        raw(
            "bytes after the last body before a body's 4",
            &[1, 0, 2, 0, 8, 0, 4, 0, 1, 0x2e, 0, 0, 9],
            3,
        ),
        refused("63 vecs", m(vecs(63)), 0),
        refused("64 vecs", m(vecs(64)), 5),
        refused("a taken base of 253 bytes", taken(253), 0),
        refused("a taken base of 254 bytes", taken(254), 9),
        lifts(
            "where the search starts",
            binder_search(),
            &["m_s_h", "m_s"],
        ),
        lifts("six uses, one parameter", six_uses(), &["m_s"]),
        lifts(
            "no n inside the lifted m_s",
            m(structure(vec![
                dependent("n", int()),
                field(
                    "s",
                    chained(enumeration(), structure(vec![field("b", bytes(&["n"]))])),
                ),
            ])),
            &["m_s_0", "m_s"],
        ),
        refused(
            "a root's chain before its fields",
            book(vec![format(
                "m",
                chained(
                    structure(vec![dependent("n", int())]),
                    structure(vec![field("b", bytes(&["n"]))]),
                ),
            )]),
            8,
        ),
        refused(
            "8 at the lift, 7 inside it",
            m(structure(vec![field(
                "s",
                chained(
                    structure(vec![field("x", bytes(&["n"]))]),
                    structure(vec![field("y", zz())]),
                ),
            )])),
            8,
        ),
        refused(
            "7 and 8 at one lift",
            m(structure(vec![field(
                "s",
                structure(vec![field("x", bytes(&["n"])), field("y", zz())]),
            )])),
            7,
        ),
        refused(
            "a chain that is not collected",
            m(structure(vec![field("s", chained(enumeration(), zz()))])),
            0,
        ),
        refused(
            "a struct in such a chain",
            m(structure(vec![field(
                "s",
                chained(enumeration(), structure(vec![field("x", zz())])),
            )])),
            7,
        ),
        refused("a leftover call at a root", m(zz()), 0),
        refused("a free use at a root", m(bytes(&["n"])), 0),
        refused(
            "9 before 7 and 8",
            book(vec![format(
                &long,
                structure(vec![field(
                    "s",
                    structure(vec![field("x", zz()), field("y", bytes(&["n"]))]),
                )]),
            )]),
            9,
        ),
        lifts(
            "the chosen name goes on",
            book(vec![
                format(
                    "m",
                    structure(vec![field(
                        "s",
                        chained(structure(vec![field("x", enumeration())]), enumeration()),
                    )]),
                ),
                constant("m_s", &[]),
            ]),
            &["m_s_0_0", "m_s_0_x", "m_s_0"],
        ),
        lifts(
            "the empty name",
            book(vec![format("", structure(vec![field("", enumeration())]))]),
            &["_anon"],
        ),
        refused(
            "a parameter named twice",
            book(vec![
                macro_definition("f", &["a", "a"], call("a", &[])),
                format("m", macro_call("f", vec![vec(call("a", &[])), nothing()])),
            ]),
            0,
        ),
        refused(
            "a macro that calls a macro, lifted",
            book(vec![
                macro_definition(
                    "f",
                    &[],
                    structure(vec![field("x", macro_call("g", vec![]))]),
                ),
                macro_definition("g", &[], nothing()),
                format("m", vec(macro_call("f", vec![]))),
            ]),
            7,
        ),
    ]
}

/// Books of the nested mode (document 02 b); `code` is its answer.
pub fn nested_stories() -> Vec<Story> {
    let f = || macro_call("f", vec![]);
    let g = || macro_call("g", vec![]);
    let macro_f = |inner: Inner| macro_definition("f", &[], inner);
    let s = |inner: Inner| structure(vec![field("s", structure(vec![field("x", inner)]))]);
    let m = |of: Vec<Definition>, inner: Inner| {
        book(of.into_iter().chain([format("m", inner)]).collect())
    };
    let long = "x".repeat(254);
    let twice = |name: &str| {
        let one = || macro_call(name, vec![]);
        structure(vec![field("l", one()), field("r", one())])
    };
    vec![
        refused(
            "the smallest 12",
            book(vec![
                format("", macro_call("", vec![])),
                macro_definition("", &[], macro_call("", vec![])),
            ]),
            12,
        ),
        refused(
            "two passes",
            m(
                vec![macro_f(g()), macro_definition("g", &[], nothing())],
                f(),
            ),
            0,
        ),
        lifts(
            "a macro that calls a macro, lifted",
            m(
                vec![
                    macro_f(structure(vec![field("x", g())])),
                    macro_definition("g", &[], enumeration()),
                ],
                vec(f()),
            ),
            &["m_item_x", "m_item"],
        ),
        refused(
            "a cycle of one in a vec",
            m(vec![macro_f(vec(f()))], f()),
            12,
        ),
        refused(
            "a cycle of three",
            m(
                vec![
                    macro_f(g()),
                    macro_definition("g", &[], macro_call("h", vec![])),
                    macro_definition("h", &[], f()),
                ],
                f(),
            ),
            12,
        ),
        refused("6 before 12", m(vec![macro_f(twice("f"))], f()), 6),
        refused(
            "an unknown macro's arguments at a lift",
            m(vec![macro_f(f())], s(macro_call("zz", vec![f()]))),
            7,
        ),
        refused(
            "12 before 7 at a lift that comes first",
            book(vec![
                format("m", s(macro_call("zz", vec![]))),
                macro_f(f()),
                format("r", f()),
            ]),
            12,
        ),
        refused(
            "12 before 8 and 9",
            book(vec![
                format(&long, s(bytes(&["n"]))),
                macro_f(f()),
                format("r", f()),
            ]),
            12,
        ),
        refused(
            "known calls in the arguments of an unknown macro",
            m(vec![macro_f(f())], macro_call("zz", vec![f(), vec(f())])),
            0,
        ),
        refused(
            "an argument that is dropped",
            m(
                vec![macro_definition("g", &["a"], nothing()), macro_f(f())],
                macro_call("g", vec![f()]),
            ),
            0,
        ),
        refused(
            "a cycle in a parameter's type",
            book(vec![
                macro_f(f()),
                format_with("m", vec![("n", f())], nothing()),
            ]),
            0,
        ),
        refused(
            "a cycle in a chain that is lost",
            m(
                vec![macro_definition(
                    "f",
                    &[],
                    Combinator::chained(nothing(), f().into()),
                )],
                f(),
            ),
            0,
        ),
        refused(
            "the last definition counts in the second pass too",
            m(
                vec![
                    macro_f(f()),
                    macro_definition("g", &[], f()),
                    macro_f(nothing()),
                ],
                g(),
            ),
            0,
        ),
        refused(
            "an argument that comes back",
            m(
                vec![
                    macro_definition("g", &["a"], call("a", &[])),
                    macro_f(macro_call("g", vec![f()])),
                ],
                f(),
            ),
            12,
        ),
    ]
}

/// The names that an answer lifted, in order.
pub fn lifted_names(answer: &Answer) -> Vec<String> {
    let Answer::Done(done) = answer else {
        return Vec::new();
    };
    let Ok(book) = crate::read::read(&done.book) else {
        return Vec::new();
    };
    let first = book.definitions.len() - done.lifted;
    book.definitions[first..]
        .iter()
        .filter_map(|definition| match definition {
            Definition::Format { name, .. } => Some(name.clone()),
            _ => None,
        })
        .collect()
}
