//! Macros that call macros: what the nested mode of document 02 b is for.
//!
//! A stream of its own, so that the cases of `case` stay what they are.

use super::edge::{self, written};
use super::exact::{pair, Side};
use super::growth;
use super::macros;
use super::plain::{self, Size};
use super::race;
use super::rng::Rng;
use super::scope;
use crate::build::*;
use crate::limits::{code, PASSES};
use crate::read::read;
use crate::tree::{Book, Cases, Combinator, Definition, Inner, Leaf};

/// What a nested case was made to try.
#[derive(Debug, Clone, Copy, PartialEq, Eq, Hash, PartialOrd, Ord)]
pub enum NestedKind {
    /// Each macro calls the next one.
    Chain,
    /// Arguments that are put in and call macros themselves.
    Arguments,
    /// One to three macros that come back to themselves.
    Cycle,
    /// Known calls and cycles where no pass reaches.
    Aside,
    /// What document 01's cases have in the first pass, some passes later.
    Late,
    /// Each macro calls the next one twice.
    Doubling,
    /// Macros that call each other as it comes.
    Mixed,
}

/// Each kind with its share of 1,000 cases.
pub const NESTED_KINDS: [(NestedKind, usize); 7] = [
    (NestedKind::Chain, 250),
    (NestedKind::Arguments, 130),
    (NestedKind::Cycle, 130),
    (NestedKind::Aside, 70),
    (NestedKind::Late, 200),
    (NestedKind::Doubling, 50),
    (NestedKind::Mixed, 170),
];

pub struct NestedCase {
    pub kind: NestedKind,
    pub bytes: Vec<u8>,
}

/// Nested case `number` of a seed.
pub fn nested_case(seed: u64, number: u64) -> NestedCase {
    let mut rng = Rng::of_case(seed, number);
    let weights: Vec<usize> = NESTED_KINDS.iter().map(|(_, weight)| *weight).collect();
    let kind = NESTED_KINDS[rng.weighted(&weights)].0;
    let made = match kind {
        NestedKind::Chain => chain(&mut rng),
        NestedKind::Arguments => arguments(&mut rng),
        NestedKind::Cycle => cycle(&mut rng),
        NestedKind::Aside => aside(&mut rng),
        NestedKind::Late => late(&mut rng),
        NestedKind::Doubling => doubling(&mut rng),
        NestedKind::Mixed => mixed(&mut rng),
    };
    NestedCase {
        kind,
        bytes: written(&made),
    }
}

/// How many passes to ask for: few, up to 16, and more than there are.
fn wanted(rng: &mut Rng) -> usize {
    match rng.below(10) {
        0..=4 => rng.between(1, PASSES),
        5 | 6 => rng.between(2, 5),
        7 | 8 => rng.between(PASSES - 1, PASSES + 2),
        _ => rng.between(PASSES + 1, PASSES + 4),
    }
}

/// Puts an inner somewhere where the pass reaches it.
fn placed(rng: &mut Rng, inner: Inner) -> Inner {
    let case = |child: Inner| vec![(vec![7], nothing().into()), (vec![], child.into())];
    match rng.below(16) {
        0 => structure(vec![field("a", inner)]),
        1 => structure(vec![dependent("n", inner), field("u", bytes(&["n"]))]),
        2 => structure(vec![field("x", inner), field("y", call("a", &[]))]),
        3 => vec(inner),
        4 => option(inner),
        5 => wrap(inner),
        6 => array(&[], inner),
        7 => choice(None, Cases::Enums(vec![("A-b".into(), inner.into())])),
        8 => choice(None, Cases::Ints(case(inner))),
        9 => choice(None, Cases::Arrays(case(inner))),
        10 => vec(Combinator::chained(bytes(&[]), inner.into())),
        11 => vec(Combinator::chained(inner, nothing().into())),
        _ => inner,
    }
}

/// What stands at the end of a way: most are fine, some are 7, 8 or lifted.
fn ending(rng: &mut Rng) -> Inner {
    match rng.below(10) {
        0 => macro_call("zz", vec![nothing()]),
        1 => structure(vec![field("z", macro_call("zz", vec![]))]),
        2 => structure(vec![field("z", bytes(&["n"]))]),
        3 => structure(vec![dependent("k", int()), field("z", bytes(&["k"]))]),
        4 => enumeration(),
        5 => call("a", &[]),
        6 => Inner::Leaf(Leaf::Tail, b"end".to_vec()),
        _ => nothing(),
    }
}

const PARAMS: [&[&str]; 6] = [&[], &["a"], &["b"], &["a", "b"], &["b", "a"], &["a", "a"]];

/// Macro `number` of a chain.
fn link(number: usize) -> String {
    format!("~{number}")
}

/// A call of macro `number`, with arguments that call only later ones.
fn link_call(rng: &mut Rng, number: usize, count: usize) -> Inner {
    let args = rng.weighted(&[60, 30, 10]);
    let arg = |rng: &mut Rng| match rng.below(5) {
        0 if number + 1 < count => macro_call(&link(rng.between(number + 1, count - 1)), vec![]),
        1 => call("b", &[]),
        2 => macro_call("zz", vec![macro_call(&link(0), vec![])]),
        _ => ending(rng),
    };
    macro_call(&link(number), (0..args).map(|_| arg(rng)).collect())
}

/// A chain of so many macros, down to an inner.
fn links(rng: &mut Rng, count: usize, end: Inner) -> Vec<Definition> {
    let straight = rng.chance(20);
    let mut made = Vec::new();
    for number in 0..count {
        let inside = match number + 1 == count {
            true => end.clone(),
            false => link_call(rng, number + 1, count),
        };
        let body = match straight {
            true => inside,
            false => placed(rng, inside),
        };
        let params = *rng.pick(&PARAMS);
        made.push(macro_definition(&link(number), params, body));
    }
    made
}

/// The macros in any order, and formats among them.
fn shuffled(rng: &mut Rng, mut definitions: Vec<Definition>, formats: Vec<Definition>) -> Book {
    for left in (1..definitions.len()).rev() {
        definitions.swap(left, rng.below(left + 1));
    }
    for one in formats {
        definitions.insert(rng.below(definitions.len() + 1), one);
    }
    book(definitions)
}

/// A format that reaches an inner, with a parameter for a use of n at times.
fn caller(rng: &mut Rng, name: &str, inner: Inner) -> Definition {
    let params = match rng.chance(60) {
        true => vec![("n", int())],
        false => vec![],
    };
    let root = placed(rng, inner);
    match rng.chance(15) {
        true => {
            let root = Combinator::chained(bytes(&[]), root.into());
            format_with(name, params, root)
        }
        false => format_with(name, params, root),
    }
}

fn chain(rng: &mut Rng) -> Book {
    let count = wanted(rng);
    let end = ending(rng);
    let mut definitions = links(rng, count, end);
    let mut formats = Vec::new();
    for name in ["m", "r"].into_iter().take(rng.between(1, 2)) {
        let start = if name == "m" { 0 } else { rng.below(count) };
        let inner = link_call(rng, start, count);
        formats.push(caller(rng, name, inner));
    }
    if rng.chance(15) {
        definitions.push(constant("m_a", b"taken"));
    }
    let mut made = shuffled(rng, definitions, formats);
    if rng.chance(15) {
        // The last definition of a name counts, in every pass.
        let name = link(rng.below(count));
        let first = macro_call(&name, vec![]);
        made.definitions
            .insert(0, macro_definition(&name, &[], first));
    }
    made
}

/// A call in an argument in an argument: each pass lays one more bare.
fn nested_arguments(rng: &mut Rng, count: usize, inside: Inner) -> Inner {
    (0..count).fold(inside, |inner, _| match rng.below(6) {
        0 => macro_call("q", vec![inner, nothing()]),
        1 => macro_call("q", vec![call("b", &[]), inner]),
        2 => macro_call("p", vec![inner, nothing()]),
        3 => macro_call("s", vec![inner]),
        _ => macro_call("p", vec![inner]),
    })
}

fn arguments(rng: &mut Rng) -> Book {
    let count = wanted(rng);
    let end = ending(rng);
    let inner = match rng.chance(20) {
        true => nested_arguments(rng, count, vec(end)),
        false => nested_arguments(rng, count, end),
    };
    let a = || call("a", &[]);
    let s = placed(rng, a());
    let definitions = vec![
        macro_definition("p", &["a"], a()),
        macro_definition("q", &["a", "b"], structure(vec![field("x", a())])),
        macro_definition("s", &["a"], s),
    ];
    let formats = vec![caller(rng, "m", inner)];
    shuffled(rng, definitions, formats)
}

fn cycle(rng: &mut Rng) -> Book {
    let (lead, length) = (rng.below(4), rng.between(1, 3));
    let count = lead + length;
    let back = macro_call(&link(lead), vec![]);
    let mut definitions = match rng.below(8) {
        0 => {
            // Only an argument leads back.
            let put_in = macro_call("p", vec![back]);
            let mut made = links(rng, count, put_in);
            made.push(macro_definition("p", &["a"], call("a", &[])));
            made
        }
        // Twice as many calls in each round: 6.
        1 => links(
            rng,
            count,
            structure(vec![field("l", back.clone()), field("r", back)]),
        ),
        // An argument of an unknown macro leads nowhere.
        2 => links(rng, count, macro_call("zz", vec![back])),
        _ => links(rng, count, back),
    };
    if rng.chance(30) {
        definitions.push(format("r", vec(structure(vec![field("z", ending(rng))]))));
    }
    let formats = vec![caller(rng, "m", macro_call(&link(0), vec![]))];
    shuffled(rng, definitions, formats)
}

fn aside(rng: &mut Rng) -> Book {
    let own = macro_call("o", vec![]);
    let unreached = match rng.below(5) {
        0 => macro_call("zz", vec![own.clone(), vec(own.clone())]),
        1 => macro_call("t", vec![own.clone()]),
        2 => macro_call("c", vec![]),
        3 => macro_call("t", vec![macro_call("zz", vec![own.clone()])]),
        _ => call("o", &[]),
    };
    let params = match rng.chance(30) {
        true => vec![("n", own.clone())],
        false => vec![("n", int())],
    };
    let root = placed(rng, unreached);
    let lost = Combinator::chained(ending(rng), own.clone().into());
    book(vec![
        macro_definition("o", &[], vec(own)),
        macro_definition("t", &["b"], call("a", &[])),
        macro_definition("c", &[], lost),
        format_with("m", params, root),
    ])
}

/// A book of document 01's cases whose formats come to be what they are only
/// after some passes.
fn late(rng: &mut Rng) -> Book {
    let source = match rng.below(10) {
        0..=2 => growth::random(rng),
        3 => race::random(rng),
        4 => edge::lifted_names(rng),
        5 => edge::lifted_definitions(rng),
        6 => read(&edge::result_bytes(rng)).unwrap_or_default(),
        7 => scope::random(rng),
        8 => macros::random(rng),
        _ => plain::book(rng, Size::Small),
    };
    let passes = match rng.chance(85) {
        true => rng.between(1, PASSES - 1),
        false => rng.between(PASSES - 1, PASSES + 1),
    };
    delayed(source, passes)
}

/// The same book, of which each format is put in by so many macros.
pub fn delayed(source: Book, passes: usize) -> Book {
    let mut definitions = Vec::new();
    for (number, mut one) in source.definitions.into_iter().enumerate() {
        if let Definition::Format { body, .. } = &mut one {
            let name = |pass: usize| format!("~{number}~{pass}");
            let last = macro_call(&name(passes - 1), vec![]);
            let root = std::mem::replace(body, last.into());
            definitions.push(macro_definition(&name(0), &[], root));
            for pass in 1..passes {
                let next = macro_call(&name(pass - 1), vec![]);
                definitions.push(macro_definition(&name(pass), &[], next));
            }
        }
        definitions.push(one);
    }
    book(definitions)
}

fn doubling(rng: &mut Rng) -> Book {
    let count = rng.between(2, PASSES + 1);
    let mut definitions = Vec::new();
    for number in 0..count {
        let next = || match number + 1 == count {
            true => nothing(),
            false => macro_call(&link(number + 1), vec![]),
        };
        let body = match rng.below(3) {
            0 => vec(Combinator::chained(next(), next().into())),
            _ => structure(vec![field("l", next()), field("r", next())]),
        };
        definitions.push(macro_definition(&link(number), &[], body));
    }
    let formats = vec![caller(rng, "m", macro_call(&link(0), vec![]))];
    shuffled(rng, definitions, formats)
}

const NAMES: [&str; 5] = ["f", "g", "h", "e", ""];

fn mixed(rng: &mut Rng) -> Book {
    let count = rng.between(2, NAMES.len());
    let down = rng.chance(75);
    let mut definitions = Vec::new();
    for (number, name) in NAMES.iter().enumerate().take(count) {
        let from = if down { number + 1 } else { 0 };
        let depth = rng.between(0, 2);
        let body = tangle(rng, depth, from, count);
        let params = *rng.pick(&PARAMS);
        definitions.push(macro_definition(name, params, body));
    }
    let mut formats = Vec::new();
    for name in ["m", "r"].into_iter().take(rng.between(1, 2)) {
        let depth = rng.between(1, 3);
        let inner = tangle(rng, depth, 0, count).inner;
        formats.push(caller(rng, name, inner));
    }
    shuffled(rng, definitions, formats)
}

/// Calls of the macros from one on, of parameters and of unknown macros.
fn tangle(rng: &mut Rng, depth: usize, from: usize, count: usize) -> Combinator {
    if depth == 0 {
        return tangled(rng, 2, from, count).into();
    }
    let below = depth - 1;
    match rng.below(6) {
        0 => structure(vec![
            dependent("n", tangle(rng, below, from, count)),
            field("x", tangle(rng, below, from, count)),
        ])
        .into(),
        1 => Combinator::chained(
            tangled(rng, 2, from, count),
            tangle(rng, below, from, count),
        ),
        2 => tangled(rng, 2, from, count).into(),
        _ => {
            let child = tangle(rng, below, from, count);
            placed(rng, child.inner).into()
        }
    }
}

fn tangled(rng: &mut Rng, depth: usize, from: usize, count: usize) -> Inner {
    match rng.below(8) {
        0..=3 if from < count => {
            let args = if depth == 0 { 0 } else { rng.below(3) };
            let name = NAMES[rng.between(from, count - 1)];
            let arg = |_| tangled(rng, depth - 1, from, count);
            macro_call(name, (0..args).map(arg).collect())
        }
        4 | 5 => call(rng.pick::<&str>(&["a", "b"]), &[]),
        _ => ending(rng),
    }
}

/// A chain of so many macros without anything else.
fn bare_chain(count: usize) -> Book {
    let next = |number: usize| match number == count {
        true => nothing(),
        false => macro_call(&link(number), vec![]),
    };
    let macros = (0..count).map(|number| macro_definition(&link(number), &[], next(number + 1)));
    book(macros.chain([format("m", next(0))]).collect())
}

fn bare_arguments(count: usize) -> Book {
    let inner = (0..count).fold(nothing(), |inner, _| macro_call("p", vec![inner]));
    book(vec![
        macro_definition("p", &["a"], vec(call("a", &[]))),
        format("m", inner),
    ])
}

/// The nested mode's limits from both sides: `code` is its answer.
pub fn nested_sides() -> Vec<Side> {
    let left = |name, make: fn(usize) -> Book| {
        pair(name, code::MACRO_CALL_LEFT, move |past| {
            written(&make(PASSES + past))
        })
    };
    let grown = |name, passes: usize, make: fn(&mut Rng, usize) -> Book| {
        pair(name, code::MACRO_GROWTH, move |past| {
            written(&delayed(make(&mut Rng::of_case(1, 7), past), passes))
        })
    };
    [
        left("passes of a chain", bare_chain),
        left("passes of arguments", bare_arguments),
        grown("bytes after one parameter, pass 2", 1, growth::step_bytes),
        grown("levels after one parameter, pass 3", 2, growth::step_levels),
        grown("bytes on the way, pass 9", 8, growth::shrinking),
        grown("bytes of the book left by pass 2", 1, growth::left_bytes),
        grown("bytes of the book left by pass 16", 15, growth::left_bytes),
        grown(
            "levels of the book left by pass 16",
            15,
            growth::left_levels,
        ),
    ]
    .into_iter()
    .flatten()
    .collect()
}
