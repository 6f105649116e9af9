//! The places that macro expansion and substitution reach, which are also the
//! places of document 01's premise: a body and its chains, fields, choices,
//! Wrap, Vec, Array and Option; no macro arguments, no parameter types.

use vest::ast::{
    ArrayCombinator, Choices, Combinator, CombinatorInner, Definition, OptionCombinator,
    StructField, VecCombinator,
};

/// Visits every format body of the list, in order.
pub fn bodies<'d, 'a>(
    definitions: &'d [Definition<'a>],
    visit: &mut dyn FnMut(&'d Combinator<'a>),
) {
    for definition in definitions {
        if let Definition::Combinator { combinator, .. } = definition {
            reach(combinator, visit);
        }
    }
}

/// Visits a combinator and everything reached from it.
pub fn reach<'d, 'a>(combinator: &'d Combinator<'a>, visit: &mut dyn FnMut(&'d Combinator<'a>)) {
    visit(combinator);
    if let Some(chain) = &combinator.and_then {
        reach(chain, visit);
    }
    match &combinator.inner {
        CombinatorInner::Struct(c) => {
            for field in &c.fields {
                if let StructField::Ordinary { combinator, .. }
                | StructField::Dependent { combinator, .. } = field
                {
                    reach(combinator, visit);
                }
            }
        }
        CombinatorInner::Choice(c) => match &c.choices {
            Choices::Enums(cases) => cases.iter().for_each(|(_, c)| reach(c, visit)),
            Choices::Ints(cases) => cases.iter().for_each(|(_, c)| reach(c, visit)),
            Choices::Arrays(cases) => cases.iter().for_each(|(_, c)| reach(c, visit)),
        },
        CombinatorInner::Wrap(c) => reach(&c.combinator, visit),
        CombinatorInner::Vec(VecCombinator::Vec(child))
        | CombinatorInner::Array(ArrayCombinator {
            combinator: child, ..
        })
        | CombinatorInner::Option(OptionCombinator(child)) => reach(child, visit),
        _ => {}
    }
}
