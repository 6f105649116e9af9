//! Stand-in for the crate `pest`: the names that ast.rs takes from it.
//!
//! Nothing is ever parsed, so no `Pair` exists; its methods are there for the
//! compiler alone. A `Span` here is any two numbers: the driver numbers nodes
//! with it.

/// A place in a source text. Real pest checks both ends; this one does not.
#[derive(Debug, Clone, Copy, PartialEq, Eq, Hash)]
pub struct Span<'i> {
    input: &'i str,
    start: usize,
    end: usize,
}

impl<'i> Span<'i> {
    pub fn new(input: &'i str, start: usize, end: usize) -> Option<Self> {
        Some(Span { input, start, end })
    }

    pub fn get_input(&self) -> &'i str {
        self.input
    }

    pub fn start(&self) -> usize {
        self.start
    }

    pub fn end(&self) -> usize {
        self.end
    }
}

pub trait Parser<R> {
    fn parse(rule: R, input: &str) -> Result<iterators::Pairs<'_, R>, error::Error<R>>;
}

pub mod error {
    use std::marker::PhantomData;

    /// The only outcome of parsing here.
    #[derive(Debug)]
    pub struct Error<R>(PhantomData<R>);

    impl<R> Error<R> {
        pub fn never_parses() -> Self {
            Error(PhantomData)
        }
    }
}

pub mod iterators {
    use super::Span;
    use std::convert::Infallible;
    use std::marker::PhantomData;

    /// No value of this type can be made.
    #[derive(Clone)]
    pub struct Pair<'i, R> {
        never: Infallible,
        marker: PhantomData<(&'i str, R)>,
    }

    impl<'i, R> Pair<'i, R> {
        pub fn as_rule(&self) -> R {
            match self.never {}
        }

        pub fn as_span(&self) -> Span<'i> {
            match self.never {}
        }

        pub fn as_str(&self) -> &'i str {
            match self.never {}
        }

        pub fn into_inner(self) -> Pairs<'i, R> {
            match self.never {}
        }
    }

    /// No value of this type can be made either.
    #[derive(Clone)]
    pub struct Pairs<'i, R> {
        never: Infallible,
        marker: PhantomData<Pair<'i, R>>,
    }

    impl<'i, R> Pairs<'i, R> {
        pub fn peek(&self) -> Option<Pair<'i, R>> {
            match self.never {}
        }
    }

    impl<'i, R> Iterator for Pairs<'i, R> {
        type Item = Pair<'i, R>;

        fn next(&mut self) -> Option<Self::Item> {
            match self.never {}
        }
    }
}
