//! How the passes of the nested mode go, for those who count them.

use crate::answer::Internal;
use crate::bridge::to_ast;
use crate::expand::{course, Mode};
use crate::limits::code;
use crate::read::read;
use crate::stop::Stop;
use crate::tree::{Book, Cases, Combinator, Definition, Field, Inner};
use std::collections::{HashMap, HashSet};

#[derive(Debug, Clone, Copy, PartialEq, Eq, PartialOrd, Ord)]
pub enum End {
    /// No known call is left.
    Settled,
    /// 6.
    Grown,
    /// 12, of macros none of which comes back to itself.
    LongChain,
    /// 12, of macros that come back to themselves.
    Cycle,
}

/// The pass with which it ended, from 1, and how; none for a book that does not read.
pub fn passes(bytes: &[u8]) -> Result<Option<(usize, End)>, Internal> {
    let Ok(book) = read(bytes) else {
        return Ok(None);
    };
    let (source, texts) = to_ast(&book);
    let course = course(source, &texts, Mode::Nested);
    let end = match course.outcome {
        Ok(_) => End::Settled,
        Err(Stop::Refused(refusal)) if refusal.code == code::MACRO_GROWTH => End::Grown,
        Err(Stop::Refused(_)) if comes_back(&book) => End::Cycle,
        Err(Stop::Refused(_)) => End::LongChain,
        Err(Stop::Internal(message)) => return Err(message),
    };
    Ok(Some((course.passes, end)))
}

type Called<'b> = HashSet<&'b str>;

/// Whether a macro that the formats lead to leads to itself.
fn comes_back(book: &Book) -> bool {
    let mut macros: HashMap<&str, &Inner> = HashMap::new();
    for definition in &book.definitions {
        if let Definition::Macro { name, body, .. } = definition {
            macros.insert(name, &body.inner);
        }
    }
    let mut calls = Calls {
        macros: macros.keys().copied().collect(),
        found: Called::new(),
    };
    for definition in &book.definitions {
        if let Definition::Format { body, .. } = definition {
            calls.combinator(body);
        }
    }
    let first = std::mem::take(&mut calls.found);
    let mut called = HashMap::new();
    for (name, body) in macros {
        calls.inner(body);
        called.insert(name, std::mem::take(&mut calls.found));
    }
    let returns = |name: &str| led_to(&called[name], &called).contains(name);
    led_to(&first, &called).into_iter().any(returns)
}

/// These macros and all that they lead to.
fn led_to<'b>(first: &Called<'b>, called: &HashMap<&'b str, Called<'b>>) -> Called<'b> {
    let mut found = Called::new();
    let mut open: Vec<&str> = first.iter().copied().collect();
    while let Some(name) = open.pop() {
        if found.insert(name) {
            open.extend(&called[name]);
        }
    }
    found
}

/// Known macros called, in arguments of known ones too: these may be put in.
struct Calls<'b> {
    macros: Called<'b>,
    found: Called<'b>,
}

impl<'b> Calls<'b> {
    fn combinator(&mut self, one: &'b Combinator) {
        self.inner(&one.inner);
        if let Some(chain) = &one.chain {
            self.combinator(chain);
        }
    }

    fn inner(&mut self, one: &'b Inner) {
        match one {
            Inner::MacroInvocation(name, arguments) => {
                if self.macros.contains(name.as_str()) {
                    self.found.insert(name);
                    arguments.iter().for_each(|argument| self.inner(argument));
                }
            }
            Inner::Struct(fields) => {
                for field in fields {
                    if let Field::Ordinary(_, child) | Field::Dependent(_, child) = field {
                        self.combinator(child);
                    }
                }
            }
            Inner::Choice(_, Cases::Enums(cases)) => {
                cases.iter().for_each(|(_, child)| self.combinator(child));
            }
            Inner::Choice(_, Cases::Ints(cases) | Cases::Arrays(cases)) => {
                cases.iter().for_each(|(_, child)| self.combinator(child));
            }
            Inner::Wrap(_, child, _)
            | Inner::Vec(child)
            | Inner::Array(_, child)
            | Inner::Option(child) => self.combinator(child),
            Inner::Leaf(..) | Inner::Bytes(_) | Inner::Invocation(..) => {}
        }
    }
}
