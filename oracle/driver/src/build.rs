//! Short words for building trees, for the generator and the tests.

use crate::tree::{Book, Cases, Combinator, Definition, Field, Inner, Leaf, Length};

pub fn book(definitions: Vec<Definition>) -> Book {
    Book { definitions }
}

pub fn format(name: &str, body: impl Into<Combinator>) -> Definition {
    format_with(name, Vec::new(), body)
}

pub fn format_with(
    name: &str,
    params: Vec<(&str, Inner)>,
    body: impl Into<Combinator>,
) -> Definition {
    Definition::Format {
        name: name.to_string(),
        params: params
            .into_iter()
            .map(|(name, inner)| (name.to_string(), inner))
            .collect(),
        body: body.into(),
    }
}

pub fn constant(name: &str, text: &[u8]) -> Definition {
    Definition::Constant {
        name: name.to_string(),
        text: text.to_vec(),
    }
}

pub fn byte_order(text: &[u8]) -> Definition {
    Definition::ByteOrder {
        text: text.to_vec(),
    }
}

pub fn macro_definition(name: &str, params: &[&str], body: impl Into<Combinator>) -> Definition {
    Definition::Macro {
        name: name.to_string(),
        params: strings(params),
        body: body.into(),
    }
}

fn strings(names: &[&str]) -> Vec<String> {
    names.iter().map(|name| name.to_string()).collect()
}

pub fn leaf(leaf: Leaf) -> Inner {
    Inner::Leaf(leaf, Vec::new())
}

pub fn nothing() -> Inner {
    leaf(Leaf::Nothing)
}

pub fn int() -> Inner {
    leaf(Leaf::ConstraintInt)
}

pub fn enumeration() -> Inner {
    leaf(Leaf::Enum)
}

/// Nothing with a text of so many bytes: 4 bytes and the text.
pub fn padding(bytes: usize) -> Inner {
    Inner::Leaf(Leaf::Nothing, vec![b'.'; bytes])
}

pub fn length(roots: &[&str]) -> Length {
    Length {
        roots: strings(roots),
        text: Vec::new(),
    }
}

pub fn bytes(roots: &[&str]) -> Inner {
    Inner::Bytes(length(roots))
}

pub fn call(name: &str, args: &[&str]) -> Inner {
    Inner::Invocation(name.to_string(), strings(args))
}

pub fn macro_call(name: &str, args: Vec<Inner>) -> Inner {
    Inner::MacroInvocation(name.to_string(), args)
}

pub fn structure(fields: Vec<Field>) -> Inner {
    Inner::Struct(fields)
}

pub fn field(label: &str, combinator: impl Into<Combinator>) -> Field {
    Field::Ordinary(label.to_string(), combinator.into())
}

pub fn dependent(label: &str, combinator: impl Into<Combinator>) -> Field {
    Field::Dependent(label.to_string(), combinator.into())
}

pub fn vec(child: impl Into<Combinator>) -> Inner {
    Inner::Vec(Box::new(child.into()))
}

pub fn option(child: impl Into<Combinator>) -> Inner {
    Inner::Option(Box::new(child.into()))
}

pub fn array(roots: &[&str], child: impl Into<Combinator>) -> Inner {
    Inner::Array(length(roots), Box::new(child.into()))
}

pub fn wrap(child: impl Into<Combinator>) -> Inner {
    Inner::Wrap(Vec::new(), Box::new(child.into()), Vec::new())
}

pub fn choice(selector: Option<&str>, cases: Cases) -> Inner {
    Inner::Choice(selector.map(str::to_string), cases)
}
