//! Everything short: all strings of at most two bytes, and all one-format books
//! of at most four nodes over a small stock of parts.

use super::edge::written;
use crate::build::*;
use crate::tree::{Cases, Combinator, Field, Inner, Leaf, LEAVES};

/// All strings of no, one and two bytes.
pub fn strings() -> impl Iterator<Item = Vec<u8>> {
    let one = (0..=255u8).map(|byte| vec![byte]);
    let two = (0..=u16::MAX).map(|pair| pair.to_le_bytes().to_vec());
    std::iter::once(Vec::new()).chain(one).chain(two)
}

/// Books of one format m(n) with at most three nodes over all leaves, and those
/// of four nodes over the leaves that behave differently. A node is a
/// combinator or a macro's argument.
pub fn books() -> impl Iterator<Item = Vec<u8>> {
    let all = Stock::new(all_leaves(), 3);
    let few = Stock::new(few_leaves(), 4);
    let small = (1..=3).flat_map(move |nodes| all.combinators[nodes].clone());
    let large = few.combinators[4].clone();
    small.chain(large).map(|body| {
        let format = format_with("m", vec![("n", int())], body);
        written(&book(vec![format]))
    })
}

fn all_leaves() -> Vec<Inner> {
    let mut leaves: Vec<Inner> = LEAVES.iter().map(|one| leaf(*one)).collect();
    leaves.extend(
        few_leaves()
            .into_iter()
            .filter(|one| !matches!(one, Inner::Leaf(..))),
    );
    leaves.push(choice(Some("n"), Cases::Ints(vec![])));
    leaves.push(bytes(&[]));
    leaves
}

fn few_leaves() -> Vec<Inner> {
    vec![
        nothing(),
        enumeration(),
        leaf(Leaf::Tail),
        bytes(&["n"]),
        bytes(&["k"]),
        structure(vec![]),
        call("m", &["k.x"]),
        macro_call("f", vec![]),
    ]
}

/// All combinators by their number of nodes.
struct Stock {
    inners: Vec<Vec<Inner>>,
    combinators: Vec<Vec<Combinator>>,
}

impl Stock {
    fn new(leaves: Vec<Inner>, most: usize) -> Self {
        let mut stock = Stock {
            inners: vec![Vec::new(), leaves],
            combinators: vec![Vec::new()],
        };
        for nodes in 1..=most {
            if nodes > 1 {
                let inners = stock.inners_of(nodes);
                stock.inners.push(inners);
            }
            let combinators = stock.combinators_of(nodes);
            stock.combinators.push(combinators);
        }
        stock
    }

    fn combinators_of(&self, nodes: usize) -> Vec<Combinator> {
        let mut all: Vec<Combinator> = Vec::new();
        all.extend(self.inners[nodes].iter().cloned().map(Combinator::from));
        for own in 1..nodes {
            for inner in &self.inners[own] {
                for next in &self.combinators[nodes - own] {
                    all.push(Combinator::chained(inner.clone(), next.clone()));
                }
            }
        }
        all
    }

    fn inners_of(&self, nodes: usize) -> Vec<Inner> {
        let mut all = Vec::new();
        for child in &self.combinators[nodes - 1] {
            let child = child.clone();
            all.push(vec(child.clone()));
            all.push(wrap(child.clone()));
            all.push(array(&["n"], child.clone()));
            all.push(structure(vec![field("a", child.clone())]));
            all.push(structure(vec![dependent("k", child.clone())]));
            all.push(choice(None, Cases::Enums(vec![("A".into(), child)])));
        }
        for arg in &self.inners[nodes - 1] {
            all.push(macro_call("f", vec![arg.clone()]));
        }
        for (first, second) in self.pairs(nodes - 1) {
            let case = |combinator: &Combinator| (Vec::new(), combinator.clone());
            all.push(choice(None, Cases::Ints(vec![case(&first), case(&second)])));
            for bind in [field as fn(&str, Combinator) -> Field, dependent] {
                let fields = vec![bind("k", first.clone()), field("b", second.clone())];
                all.push(structure(fields));
            }
        }
        all
    }

    fn pairs(&self, nodes: usize) -> Vec<(Combinator, Combinator)> {
        let mut pairs = Vec::new();
        for left in 1..nodes {
            for first in &self.combinators[left] {
                for second in &self.combinators[nodes - left] {
                    pairs.push((first.clone(), second.clone()));
                }
            }
        }
        pairs
    }
}
