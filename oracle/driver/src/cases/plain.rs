//! Well-formed books: many lifts, parameters, collisions, shadowing, macros.

use super::rng::Rng;
use crate::tree::{Book, Cases, Combinator, Definition, Field, Inner, Leaf, Length, Text, LEAVES};

/// Names of definitions: few, and many of them what a lift would choose.
const NAMES: [&str; 20] = [
    "m",
    "r",
    "m_a",
    "m_b",
    "m_a_0",
    "m_a_1",
    "m_a_item",
    "m_item",
    "m_0",
    "r_n",
    "r_hdr",
    "m_hdr",
    "m_choice0",
    "m_anon",
    "r_choice1",
    "m__",
    "_anon",
    "",
    "é",
    "k",
];
/// Labels: collisions after mapping, none, non-ASCII, and the fixed segments.
const LABELS: [&str; 22] = [
    "a", "b", "n", "hdr", "A", "a-b", "a_b", "A_B", "Ab-é", "é", "日本", "", "_", "-", "0", "a_0",
    "item", "anon", "choice0", "ß", "N", "𝄞x",
];
/// Names that bind and are used: byte order differs from the alphabet's.
const BINDERS: [&str; 10] = ["n", "len", "t", "a", "", "é", "N", "n_", "n0", "日"];
const MACROS: [&str; 6] = ["f", "g", "m", "rec", "", "é"];
const MACRO_PARAMS: [&str; 6] = ["a", "b", "x", "n", "", "m"];
const PATHS: [&str; 5] = ["", "x", "x.y", ".", "é."];

/// How a book leans, drawn once per book.
struct Taste {
    fuel: usize,
    depth: usize,
    /// Percent of uses that look for no binder.
    stray: usize,
    /// Percent of macro calls that no macro answers.
    leftover: usize,
    chain: usize,
    macros: usize,
    text: usize,
}

struct Maker<'r> {
    rng: &'r mut Rng,
    taste: Taste,
    fuel: usize,
    /// Binders in sight, outermost first.
    scope: Vec<String>,
    macros: Vec<String>,
    formats: Vec<String>,
    /// Parameters of the macro whose body is being made.
    macro_params: Vec<String>,
    /// In a macro's body or argument, where no call is expanded again.
    in_macro: bool,
}

#[derive(Clone, Copy, PartialEq, Eq)]
pub enum Size {
    Small,
    Medium,
    Large,
}

/// One well-formed book. Most are accepted; some are 7 or 8, a few 6, 9 or 10.
pub fn book(rng: &mut Rng, size: Size) -> Book {
    let taste = taste(rng, size);
    let (low, high) = match size {
        Size::Small => (1, 3),
        Size::Medium => (2, 8),
        Size::Large => (5, 40),
    };
    let count = rng.between(low, high);
    let mut maker = Maker::new(rng, taste);
    let kinds: Vec<usize> = (0..count).map(|_| maker.kind()).collect();
    maker.foresee(&kinds);
    let definitions = kinds.iter().map(|kind| maker.definition(*kind)).collect();
    Book { definitions }
}

fn taste(rng: &mut Rng, size: Size) -> Taste {
    let (fuel, depth) = match size {
        Size::Small => (rng.between(1, 12), rng.between(1, 5)),
        Size::Medium => (rng.between(4, 30), rng.between(2, 8)),
        Size::Large => (rng.between(8, 60), rng.between(2, 20)),
    };
    Taste {
        fuel,
        depth,
        stray: *rng.pick(&[0, 0, 0, 0, 1, 5, 20]),
        leftover: *rng.pick(&[0, 0, 0, 0, 2, 10]),
        chain: *rng.pick(&[0, 4, 10, 25]),
        macros: *rng.pick(&[0, 0, 15, 40]),
        text: *rng.pick(&[0, 1, 2, 6]),
    }
}

impl<'r> Maker<'r> {
    fn new(rng: &'r mut Rng, taste: Taste) -> Self {
        Maker {
            rng,
            taste,
            fuel: 0,
            scope: Vec::new(),
            macros: Vec::new(),
            formats: Vec::new(),
            macro_params: Vec::new(),
            in_macro: false,
        }
    }

    fn kind(&mut self) -> usize {
        1 + self.rng.weighted(&[70, 8, 4, self.taste.macros])
    }

    /// Names are drawn before bodies, so that calls may look forward too.
    fn foresee(&mut self, kinds: &[usize]) {
        for kind in kinds {
            match kind {
                1 | 2 => {
                    let name = self.rng.pick(&NAMES).to_string();
                    self.formats.push(name);
                }
                4 => {
                    let name = self.rng.pick(&MACROS).to_string();
                    self.macros.push(name);
                }
                _ => {}
            }
        }
    }

    fn definition(&mut self, kind: usize) -> Definition {
        self.fuel = self.rng.between(1, self.taste.fuel);
        self.scope.clear();
        self.macro_params.clear();
        self.in_macro = kind == 4;
        match kind {
            1 => self.format(),
            2 => Definition::Constant {
                name: self.format_name(),
                text: self.text(),
            },
            3 => Definition::ByteOrder { text: self.text() },
            _ => self.macro_definition(),
        }
    }

    /// Most definitions take a foreseen name; now and then one twice.
    fn format_name(&mut self) -> String {
        let names = self.formats.clone();
        self.rng.pick(&names).clone()
    }

    fn format(&mut self) -> Definition {
        let name = self.format_name();
        let count = self.rng.weighted(&[60, 20, 10, 10]);
        let mut params = Vec::new();
        for _ in 0..count {
            let binder = self.binder();
            let depth = self.rng.weighted(&[70, 20, 10]);
            params.push((binder, self.inner(depth)));
        }
        self.scope = params.iter().map(|(name, _)| name.clone()).collect();
        let depth = self.taste.depth;
        let inner = match self.rng.chance(75) {
            true => self.structure(depth),
            false => self.inner(depth),
        };
        let body = self.chainable(inner, depth);
        Definition::Format { name, params, body }
    }

    fn macro_definition(&mut self) -> Definition {
        let macros = self.macros.clone();
        let name = self.rng.pick(&macros).clone();
        let count = self.rng.weighted(&[10, 35, 35, 15, 5]);
        let params: Vec<String> = (0..count)
            .map(|_| self.rng.pick(&MACRO_PARAMS).to_string())
            .collect();
        self.macro_params = params.clone();
        if self.rng.chance(30) {
            self.scope = vec!["n".to_string()];
        }
        let depth = self.rng.between(0, self.taste.depth.min(4));
        let body = self.combinator(depth);
        Definition::Macro { name, params, body }
    }

    fn combinator(&mut self, depth: usize) -> Combinator {
        let inner = self.inner(depth);
        self.chainable(inner, depth)
    }

    /// Gives an inner a chain, sometimes.
    fn chainable(&mut self, inner: Inner, depth: usize) -> Combinator {
        let liked = matches!(inner, Inner::Bytes(_) | Inner::Leaf(Leaf::Tail, _));
        let percent = self.taste.chain * if liked { 3 } else { 1 };
        let chain = match depth > 0 && self.fuel > 0 && self.rng.chance(percent) {
            true => Some(Box::new(self.combinator(depth - 1))),
            false => None,
        };
        Combinator { inner, chain }
    }

    fn boxed(&mut self, depth: usize) -> Box<Combinator> {
        Box::new(self.combinator(depth))
    }

    fn inner(&mut self, depth: usize) -> Inner {
        if self.fuel == 0 || depth == 0 {
            return self.flat();
        }
        self.fuel -= 1;
        let below = depth - 1;
        match self.rng.weighted(&[30, 26, 14, 8, 7, 7, 7]) {
            0 => self.flat(),
            1 => self.structure(depth),
            2 => self.choice(below),
            3 => Inner::Vec(self.boxed(below)),
            4 => Inner::Array(self.length(), self.boxed(below)),
            5 => Inner::Option(self.boxed(below)),
            _ => Inner::Wrap(self.text(), self.boxed(below), self.text()),
        }
    }

    /// An inner without combinators inside.
    fn flat(&mut self) -> Inner {
        let call_macro = match self.in_macro {
            true => self.taste.leftover,
            false => self.taste.macros / 2 + self.taste.leftover,
        };
        let call_param = if self.macro_params.is_empty() { 0 } else { 60 };
        match self.rng.weighted(&[40, 25, 15, call_macro, call_param]) {
            0 => {
                let leaf = *self.rng.pick(&LEAVES);
                Inner::Leaf(leaf, self.text())
            }
            1 => Inner::Bytes(self.length()),
            2 => self.call(),
            3 => self.macro_call(),
            _ => {
                let params = self.macro_params.clone();
                let name = self.rng.pick(&params).clone();
                Inner::Invocation(name, self.arguments())
            }
        }
    }

    fn call(&mut self) -> Inner {
        let name = match self.formats.is_empty() || self.rng.chance(10) {
            true => self.rng.pick(&NAMES).to_string(),
            false => self.format_name(),
        };
        Inner::Invocation(name, self.arguments())
    }

    fn arguments(&mut self) -> Vec<String> {
        let count = self.rng.weighted(&[60, 25, 10, 5]);
        (0..count).filter_map(|_| self.dotted_use()).collect()
    }

    fn macro_call(&mut self) -> Inner {
        let known = !self.macros.is_empty() && !self.rng.chance(self.taste.leftover);
        let name = match known {
            true => {
                let macros = self.macros.clone();
                self.rng.pick(&macros).clone()
            }
            false => self.rng.pick(&["zz", "f", ""]).to_string(),
        };
        let count = self.rng.weighted(&[10, 35, 35, 15, 5]);
        let depth = self.rng.weighted(&[60, 25, 15]);
        let outer = std::mem::replace(&mut self.in_macro, true);
        let args = (0..count).map(|_| self.inner(depth)).collect();
        self.in_macro = outer;
        Inner::MacroInvocation(name, args)
    }

    fn structure(&mut self, depth: usize) -> Inner {
        let outer = self.scope.len();
        let count = self.rng.weighted(&[4, 20, 30, 22, 12, 8, 4]);
        let fields = (0..count).map(|_| self.field(depth)).collect();
        self.scope.truncate(outer);
        Inner::Struct(fields)
    }

    fn field(&mut self, depth: usize) -> Field {
        let below = depth.saturating_sub(1);
        match self.rng.weighted(&[60, 32, 8]) {
            0 => Field::Ordinary(self.label(), self.combinator(below)),
            1 => {
                let label = self.binder();
                let field = Field::Dependent(label.clone(), self.combinator(below));
                self.scope.push(label);
                field
            }
            _ => Field::Const(self.label(), self.text()),
        }
    }

    fn choice(&mut self, below: usize) -> Inner {
        let selector = match self.rng.chance(60) {
            true => self.dotted_use(),
            false => None,
        };
        let count = self.rng.weighted(&[5, 25, 40, 20, 10]);
        let kind = self.rng.below(3);
        let cases = match kind {
            0 => Cases::Enums(
                (0..count)
                    .map(|_| (self.label(), self.combinator(below)))
                    .collect(),
            ),
            1 => Cases::Ints(self.text_cases(count, below)),
            _ => Cases::Arrays(self.text_cases(count, below)),
        };
        Inner::Choice(selector, cases)
    }

    fn text_cases(&mut self, count: usize, below: usize) -> Vec<(Text, Combinator)> {
        (0..count)
            .map(|_| (self.text(), self.combinator(below)))
            .collect()
    }

    fn length(&mut self) -> Length {
        let count = self.rng.weighted(&[30, 45, 15, 10]);
        Length {
            roots: (0..count).filter_map(|_| self.plain_use()).collect(),
            text: self.text(),
        }
    }

    /// A name in sight, or a stray one, or none where nothing is in sight.
    fn plain_use(&mut self) -> Option<String> {
        if self.rng.chance(self.taste.stray) {
            return Some(self.binder());
        }
        match self.scope.is_empty() {
            true => None,
            false => {
                let place = self.rng.below(self.scope.len());
                Some(self.scope[place].clone())
            }
        }
    }

    fn dotted_use(&mut self) -> Option<String> {
        let root = self.plain_use()?;
        match self.rng.chance(30) {
            true => Some(format!("{root}.{}", self.rng.pick(&PATHS))),
            false => Some(root),
        }
    }

    fn binder(&mut self) -> String {
        self.rng.pick(&BINDERS).to_string()
    }

    fn label(&mut self) -> String {
        self.rng.pick(&LABELS).to_string()
    }

    fn text(&mut self) -> Text {
        let count = self.rng.between(0, self.taste.text);
        self.rng.bytes(count)
    }
}
