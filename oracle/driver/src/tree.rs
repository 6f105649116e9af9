//! A definition book as a tree: what document 01's bytes say, and no more.

/// Bytes that are copied and never read.
pub type Text = Vec<u8>;

#[derive(Debug, Clone, PartialEq, Eq, Default)]
pub struct Book {
    pub definitions: Vec<Definition>,
}

#[derive(Debug, Clone, PartialEq, Eq)]
pub enum Definition {
    Format {
        name: String,
        params: Vec<(String, Inner)>,
        body: Combinator,
    },
    Constant {
        name: String,
        text: Text,
    },
    ByteOrder {
        text: Text,
    },
    Macro {
        name: String,
        params: Vec<String>,
        body: Combinator,
    },
}

#[derive(Debug, Clone, PartialEq, Eq)]
pub struct Combinator {
    pub inner: Inner,
    pub chain: Option<Box<Combinator>>,
}

#[derive(Debug, Clone, PartialEq, Eq)]
pub enum Inner {
    Leaf(Leaf, Text),
    Struct(Vec<Field>),
    Wrap(Text, Box<Combinator>, Text),
    Choice(Option<String>, Cases),
    Vec(Box<Combinator>),
    Array(Length, Box<Combinator>),
    Bytes(Length),
    Option(Box<Combinator>),
    Invocation(String, Vec<String>),
    MacroInvocation(String, Vec<Inner>),
}

/// The seven inners that are a tag and a text.
#[derive(Debug, Clone, Copy, PartialEq, Eq)]
pub enum Leaf {
    ConstraintInt,
    ConstraintEnum,
    Bits,
    Enum,
    Tail,
    Nothing,
    Never,
}

#[derive(Debug, Clone, PartialEq, Eq)]
pub enum Field {
    Ordinary(String, Combinator),
    Dependent(String, Combinator),
    Const(String, Text),
}

#[derive(Debug, Clone, PartialEq, Eq)]
pub enum Cases {
    Enums(Vec<(String, Combinator)>),
    Ints(Vec<(Text, Combinator)>),
    Arrays(Vec<(Text, Combinator)>),
}

#[derive(Debug, Clone, PartialEq, Eq, Default)]
pub struct Length {
    pub roots: Vec<String>,
    pub text: Text,
}

pub const LEAVES: [Leaf; 7] = [
    Leaf::ConstraintInt,
    Leaf::ConstraintEnum,
    Leaf::Bits,
    Leaf::Enum,
    Leaf::Tail,
    Leaf::Nothing,
    Leaf::Never,
];

/// The tags of inners that are no leaves.
pub mod tag {
    pub const STRUCT: u8 = 4;
    pub const WRAP: u8 = 5;
    pub const CHOICE: u8 = 7;
    pub const VEC: u8 = 8;
    pub const ARRAY: u8 = 9;
    pub const BYTES: u8 = 10;
    pub const OPTION: u8 = 12;
    pub const INVOCATION: u8 = 15;
    pub const MACRO_INVOCATION: u8 = 16;
}

impl Leaf {
    pub fn tag(self) -> u8 {
        match self {
            Leaf::ConstraintInt => 1,
            Leaf::ConstraintEnum => 2,
            Leaf::Bits => 3,
            Leaf::Enum => 6,
            Leaf::Tail => 11,
            Leaf::Nothing => 13,
            Leaf::Never => 14,
        }
    }

    pub fn of_tag(tag: u8) -> Option<Leaf> {
        LEAVES.into_iter().find(|leaf| leaf.tag() == tag)
    }
}

impl Definition {
    /// Document 01's kind, 1 to 4.
    pub fn kind(&self) -> u8 {
        match self {
            Definition::Format { .. } => 1,
            Definition::Constant { .. } => 2,
            Definition::ByteOrder { .. } => 3,
            Definition::Macro { .. } => 4,
        }
    }
}

impl From<Inner> for Combinator {
    fn from(inner: Inner) -> Self {
        Combinator { inner, chain: None }
    }
}

impl Combinator {
    pub fn chained(inner: Inner, next: Combinator) -> Self {
        Combinator {
            inner,
            chain: Some(Box::new(next)),
        }
    }
}
