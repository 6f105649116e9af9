//! Bytes and levels of the Rust's nodes as document 01 lays them out, without
//! writing them. A test holds these numbers against what `write` writes.

use crate::bridge::{Strange, Texts};
use crate::limits::{BOOK_BYTES, LEVELS};
use vest::ast;

/// Bytes, and levels with the node itself at level 1.
#[derive(Debug, Clone, Copy, PartialEq, Eq, Default)]
pub struct Measure {
    pub bytes: usize,
    pub levels: usize,
}

type Measured = Result<Measure, Strange>;

impl Measure {
    pub fn past_a_limit(self) -> bool {
        self.bytes > BOOK_BYTES || self.levels > LEVELS
    }

    fn flat(bytes: usize) -> Self {
        Measure { bytes, levels: 0 }
    }

    /// Side by side.
    fn beside(self, other: Self) -> Self {
        Measure {
            bytes: self.bytes + other.bytes,
            levels: self.levels.max(other.levels),
        }
    }

    /// One level further down.
    fn below(self) -> Self {
        Measure {
            levels: self.levels + 1,
            ..self
        }
    }
}

/// The book as a whole: contents, and each body with its parameter types.
pub fn book(definitions: &[ast::Definition], texts: &Texts) -> Measured {
    let mut sum = Measure::flat(2);
    let mut orders = 0;
    for one in definitions {
        sum = sum
            .beside(Measure::flat(6))
            .beside(definition(one, texts, orders)?);
        orders += usize::from(matches!(one, ast::Definition::Endianess(_)));
    }
    Ok(sum)
}

fn definition(definition: &ast::Definition, texts: &Texts, orders: usize) -> Measured {
    Ok(match definition {
        ast::Definition::Combinator {
            name,
            param_defns,
            combinator: body,
            ..
        } => {
            let mut sum = Measure::flat(name_bytes(&name.name) + 2);
            for one in param_defns {
                sum = sum.beside(param(one, texts)?);
            }
            sum.beside(combinator(body, texts)?)
        }
        ast::Definition::ConstCombinator {
            name,
            const_combinator,
            ..
        } => {
            let text = texts.of_constant(const_combinator)?;
            Measure::flat(name_bytes(&name.name) + text_bytes(text))
        }
        ast::Definition::Endianess(_) => Measure::flat(text_bytes(texts.of_byte_order(orders)?)),
        ast::Definition::MacroDefn { name, params, body } => {
            let params: usize = params.iter().map(|param| name_bytes(param)).sum();
            Measure::flat(name_bytes(&name.name) + 2 + params).beside(combinator(body, texts)?)
        }
    })
}

/// A parameter of a format: its name and its type.
pub fn param(param: &ast::ParamDefn, texts: &Texts) -> Measured {
    let ast::ParamDefn::Dependent {
        name, combinator, ..
    } = param;
    Ok(Measure::flat(name_bytes(&name.name)).beside(inner(combinator, texts)?))
}

pub fn combinator(combinator: &ast::Combinator, texts: &Texts) -> Measured {
    let own = inner(&combinator.inner, texts)?.beside(Measure::flat(1));
    match &combinator.and_then {
        None => Ok(own),
        Some(chain) => Ok(own.beside(self::combinator(chain, texts)?.below())),
    }
}

pub fn inner(inner: &ast::CombinatorInner, texts: &Texts) -> Measured {
    use ast::CombinatorInner as Ast;
    let text = |span| Ok(Measure::flat(text_bytes(texts.at(span)?)));
    let items = match inner {
        Ast::ConstraintInt(c) => text(c.span),
        Ast::ConstraintEnum(c) => text(c.span),
        Ast::Bits(c) => text(c.span),
        Ast::Enum(c) => text(c.as_span()),
        Ast::Tail(c) => text(c.span),
        Ast::Nothing(c) => text(c.span),
        Ast::Never(c) => text(c.span),
        Ast::Struct(c) => counted(&c.fields, |one| field(one, texts)),
        Ast::Wrap(c) => {
            let sides = text_bytes(texts.of_side(&c.prior)?) + text_bytes(texts.of_side(&c.post)?);
            Ok(Measure::flat(sides).beside(combinator(&c.combinator, texts)?))
        }
        Ast::Choice(c) => choice(c, texts),
        Ast::Vec(ast::VecCombinator::Vec(child)) => combinator(child, texts),
        Ast::Array(c) => Ok(length(&c.len, texts)?.beside(combinator(&c.combinator, texts)?)),
        Ast::Bytes(c) => length(&c.len, texts),
        Ast::Option(ast::OptionCombinator(child)) => combinator(child, texts),
        Ast::Invocation(c) => Ok(Measure::flat(invocation_items(c))),
        Ast::MacroInvocation { name, args } => {
            let args = counted(args, |arg| self::inner(arg, texts))?;
            Ok(Measure::flat(name_bytes(name)).beside(args))
        }
    }?;
    Ok(Measure::flat(1).beside(items).below())
}

fn invocation_items(call: &ast::CombinatorInvocation) -> usize {
    let args: usize = call
        .args
        .iter()
        .map(|ast::Param::Dependent(arg)| name_bytes(&arg.name))
        .sum();
    name_bytes(&call.func.name) + 2 + args
}

fn field(field: &ast::StructField, texts: &Texts) -> Measured {
    let (label, rest) = match field {
        ast::StructField::Ordinary {
            label, combinator, ..
        }
        | ast::StructField::Dependent {
            label, combinator, ..
        } => (label, self::combinator(combinator, texts)?),
        ast::StructField::Const {
            label, combinator, ..
        } => (
            label,
            Measure::flat(text_bytes(texts.of_constant(combinator)?)),
        ),
    };
    Ok(Measure::flat(1 + name_bytes(&label.name)).beside(rest))
}

fn choice(choice: &ast::ChoiceCombinator, texts: &Texts) -> Measured {
    let selector = choice
        .depend_id
        .as_ref()
        .map_or(0, |id| name_bytes(&id.name));
    let case = |key: usize, c: &ast::Combinator| -> Measured {
        Ok(Measure::flat(key).beside(combinator(c, texts)?))
    };
    let cases = match &choice.choices {
        ast::Choices::Enums(cases) => counted(cases, |(label, c)| case(name_bytes(&label.name), c)),
        ast::Choices::Ints(cases) => {
            counted(cases, |(p, c)| case(text_bytes(texts.of_pattern(p)?), c))
        }
        ast::Choices::Arrays(cases) => {
            counted(cases, |(p, c)| case(text_bytes(texts.at(p.as_span())?), c))
        }
    }?;
    Ok(Measure::flat(2 + selector).beside(cases))
}

fn length(length: &ast::LengthExpr, texts: &Texts) -> Measured {
    let ids = length.collect_dependent_ids();
    let roots: usize = ids.iter().map(|id| name_bytes(&id.root)).sum();
    Ok(Measure::flat(
        2 + roots + text_bytes(texts.of_length(length)?),
    ))
}

fn counted<T>(items: &[T], item: impl Fn(&T) -> Measured) -> Measured {
    items
        .iter()
        .try_fold(Measure::flat(2), |sum, one| Ok(sum.beside(item(one)?)))
}

pub fn name_bytes(name: &str) -> usize {
    1 + name.len()
}

fn text_bytes(text: &[u8]) -> usize {
    2 + text.len()
}
