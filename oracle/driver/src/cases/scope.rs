//! Binders and uses: shadowing, several parameters, every kind of use, uses
//! before and after their binder. Every type tells where it comes from.

use super::rng::Rng;
use crate::build::*;
use crate::tree::{Book, Cases, Combinator, Field, Inner, Leaf, Length};

/// Byte order, length and alphabet all sort these differently.
const NAMES: [&str; 9] = ["n", "N", "len", "a", "b", "ab", "", "é", "n0"];
const PATHS: [&str; 4] = ["x", "", "x.y", "n"];

struct Maker<'r> {
    rng: &'r mut Rng,
    /// The few names of this book.
    names: Vec<&'static str>,
    scope: Vec<&'static str>,
    /// Types made so far: each gets its own text.
    types: u8,
    /// Percent of uses that need not be bound.
    stray: usize,
}

pub fn random(rng: &mut Rng) -> Book {
    let count = rng.between(2, 5);
    let names = (0..count).map(|_| *rng.pick(&NAMES)).collect();
    let stray = *rng.pick(&[0, 0, 0, 6]);
    let mut maker = Maker {
        rng,
        names,
        scope: Vec::new(),
        types: 0,
        stray,
    };
    let formats = maker.rng.weighted(&[0, 80, 20]);
    let name = |number| ["m", "r"][number];
    book(
        (0..formats)
            .map(|number| maker.format(name(number)))
            .collect(),
    )
}

impl Maker<'_> {
    fn format(&mut self, name: &str) -> crate::tree::Definition {
        let count = self.rng.weighted(&[30, 30, 25, 15]);
        let params: Vec<(&str, Inner)> = (0..count)
            .map(|_| {
                let name = self.name();
                (name, self.own_type())
            })
            .collect();
        self.scope = params.iter().map(|(name, _)| *name).collect();
        let depth = self.rng.between(1, 3);
        let root = self.root(depth);
        let body = match self.rng.chance(10) {
            true => Combinator::chained(root, self.using(1)),
            false => root.into(),
        };
        format_with(name, params, body)
    }

    fn name(&mut self) -> &'static str {
        let place = self.rng.below(self.names.len());
        self.names[place]
    }

    /// A name in sight; where none is, or by chance, any name.
    fn used(&mut self) -> &'static str {
        match self.scope.is_empty() || self.rng.chance(self.stray) {
            true => self.name(),
            false => {
                let place = self.rng.below(self.scope.len());
                self.scope[place]
            }
        }
    }

    fn own_type(&mut self) -> Inner {
        self.types += 1;
        Inner::Leaf(Leaf::ConstraintInt, vec![b'0' + self.types % 70])
    }

    /// A binder's combinator: flat, lifted, or with chains in and behind it.
    fn binder(&mut self) -> Combinator {
        let own = self.own_type();
        match self.rng.below(8) {
            0 => structure(vec![field("v", own)]).into(),
            1 => Combinator::chained(own, nothing().into()),
            2 => vec(Combinator::chained(own, enumeration().into())).into(),
            3 => Inner::Bytes(self.length()).into(),
            _ => own.into(),
        }
    }

    /// A struct that first binds, then uses.
    fn root(&mut self, depth: usize) -> Inner {
        let binders = self.rng.between(0, 3);
        let users = self.rng.between(1, 3);
        let outer = self.scope.len();
        let mut fields: Vec<Field> = (0..binders).map(|_| self.bound()).collect();
        fields.extend((0..users).map(|_| self.field(depth)));
        self.scope.truncate(outer);
        structure(fields)
    }

    fn structure(&mut self, depth: usize) -> Inner {
        let outer = self.scope.len();
        let count = self.rng.weighted(&[0, 35, 30, 20, 10, 5]);
        let fields = (0..count).map(|_| self.field(depth)).collect();
        self.scope.truncate(outer);
        structure(fields)
    }

    fn field(&mut self, depth: usize) -> Field {
        if self.rng.chance(25) {
            return self.bound();
        }
        let label = *self.rng.pick(&["s", "t", "S"]);
        field(label, self.using(depth))
    }

    fn bound(&mut self) -> Field {
        let name = self.name();
        let bound = dependent(name, self.binder());
        self.scope.push(name);
        bound
    }

    /// Something that uses, and mostly something that is lifted.
    fn using(&mut self, depth: usize) -> Combinator {
        if depth == 0 || self.rng.chance(15) {
            return self.flat_use().into();
        }
        let below = depth - 1;
        match self.rng.below(14) {
            0..=2 => self.structure(below).into(),
            3 => vec(self.using(below)).into(),
            4 => option(self.using(below)).into(),
            5 => wrap(self.using(below)).into(),
            6 => Inner::Array(self.length(), Box::new(self.using(below))).into(),
            7 => self.choice(below).into(),
            8..=10 => Combinator::chained(leaf(Leaf::Tail), self.using(below)),
            11 | 12 => Combinator::chained(Inner::Bytes(self.length()), self.using(below)),
            _ => {
                let on = self.structure(0);
                Combinator::chained(on, self.using(below))
            }
        }
    }

    fn flat_use(&mut self) -> Inner {
        match self.rng.below(4) {
            0 => call("m", &[]),
            1 => {
                let count = self.rng.between(1, 3);
                let args = (0..count).map(|_| self.dotted()).collect();
                Inner::Invocation("r".to_string(), args)
            }
            _ => Inner::Bytes(self.length()),
        }
    }

    fn choice(&mut self, below: usize) -> Inner {
        let selector = match self.rng.chance(75) {
            true => Some(self.dotted()),
            false => None,
        };
        let cases = match self.rng.below(3) {
            0 => Cases::Enums(vec![("A".to_string(), self.using(below))]),
            1 => Cases::Ints(vec![
                (vec![1], self.using(below)),
                (vec![], nothing().into()),
            ]),
            _ => Cases::Arrays(vec![(vec![2], self.using(below))]),
        };
        Inner::Choice(selector, cases)
    }

    fn dotted(&mut self) -> String {
        let root = self.used();
        match self.rng.chance(40) {
            true => format!("{root}.{}", self.rng.pick(&PATHS)),
            false => root.to_string(),
        }
    }

    fn length(&mut self) -> Length {
        let count = self.rng.weighted(&[5, 40, 30, 25]);
        let roots: Vec<&str> = (0..count).map(|_| self.used()).collect();
        length(&roots)
    }
}
