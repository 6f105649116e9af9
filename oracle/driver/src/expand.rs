//! Macro expansion: the Rust's own, with code 6 measured around it.
//!
//! The Rust expands without a limit, so before `expand_macros` is let loose
//! every call is tried alone, parameter by parameter, with the Rust's own
//! `substitute_in_combinator`. One substitution may multiply a body, so its
//! size is foretold first; a foretold size within reach must then come true.

use crate::bridge::Texts;
use crate::limits::{code, BOOK_BYTES, PASSES};
use crate::measure;
use crate::reach;
use crate::stop::Stop;
use std::collections::HashMap;
use vest::ast::{Combinator, CombinatorInner, Definition};
use vest::elab::reach as rust;

/// How often the pass is run.
#[derive(Debug, Clone, Copy, PartialEq, Eq)]
pub enum Mode {
    /// Document 01: one pass.
    Plain,
    /// Document 02 b: until no known call is left, 16 passes at the most.
    Nested,
}

/// Past this size a substitution is not carried out: foretelling it is enough.
const CARRIED_OUT: usize = 1 << 20;

type Macros<'d, 'a> = HashMap<&'d str, (&'d [String], &'d Combinator<'a>)>;

/// What became of a list, and the pass in which it was decided.
pub struct Course<'a> {
    pub passes: usize,
    pub outcome: Result<Vec<Definition<'a>>, Stop>,
}

/// Expands the list, macros removed, or answers 6 (or 12, in nested mode).
pub fn expand<'a>(
    definitions: Vec<Definition<'a>>,
    texts: &Texts,
    mode: Mode,
) -> Result<Vec<Definition<'a>>, Stop> {
    course(definitions, texts, mode).outcome
}

/// The same, with the count of passes.
pub fn course<'a>(definitions: Vec<Definition<'a>>, texts: &Texts, mode: Mode) -> Course<'a> {
    let library: Vec<Definition> = definitions
        .iter()
        .filter(|definition| matches!(definition, Definition::MacroDefn { .. }))
        .cloned()
        .collect();
    let macros = macros(&library);
    let ended = |passes, outcome| Course { passes, outcome };
    let mut outcome = pass(definitions, &macros, texts);
    for passes in 1..PASSES {
        match outcome {
            Ok(mut list) if mode == Mode::Nested && has_known_call(&list, &macros) => {
                list.splice(0..0, library.iter().cloned());
                outcome = pass(list, &macros, texts);
            }
            settled => return ended(passes, settled),
        }
    }
    match outcome {
        Ok(list) if has_known_call(&list, &macros) => {
            ended(PASSES, Err(Stop::refused(code::MACRO_CALL_LEFT)))
        }
        settled => ended(PASSES, settled),
    }
}

/// The last definition of a name counts.
fn macros<'d, 'a>(definitions: &'d [Definition<'a>]) -> Macros<'d, 'a> {
    let mut macros = HashMap::new();
    for definition in definitions {
        if let Definition::MacroDefn { name, params, body } = definition {
            macros.insert(name.name.as_str(), (params.as_slice(), body));
        }
    }
    macros
}

/// One pass of `expand_macros` over a list that holds its macros.
fn pass<'a>(
    mut definitions: Vec<Definition<'a>>,
    macros: &Macros<'_, 'a>,
    texts: &Texts,
) -> Result<Vec<Definition<'a>>, Stop> {
    try_calls(&definitions, macros, texts)?;
    rust::expand_macros(&mut definitions);
    if measure::book(&definitions, texts)?.past_a_limit() {
        return Err(Stop::refused(code::MACRO_GROWTH));
    }
    Ok(definitions)
}

/// Tries each known call alone. What calls leave stands side by side in the
/// expanded book, so once it sums to more than a book the answer is 6.
fn try_calls<'a>(
    definitions: &[Definition<'a>],
    macros: &Macros<'_, 'a>,
    texts: &Texts,
) -> Result<(), Stop> {
    let mut left = 0;
    let mut outcome = Ok(());
    reach::bodies(definitions, &mut |combinator| {
        if outcome.is_ok() && left <= BOOK_BYTES {
            if let CombinatorInner::MacroInvocation { name, args } = &combinator.inner {
                if let Some((params, body)) = macros.get(name.as_str()) {
                    match try_call(params, body, args, texts) {
                        Ok(bytes) => left += bytes,
                        Err(stop) => outcome = Err(stop),
                    }
                }
            }
        }
    });
    match outcome {
        Ok(()) if left > BOOK_BYTES => Err(Stop::refused(code::MACRO_GROWTH)),
        other => other,
    }
}

/// Substitutes one parameter after the other and measures after each. Answers
/// the bytes of the inner that the call would leave.
fn try_call<'a>(
    params: &[String],
    body: &Combinator<'a>,
    args: &[CombinatorInner<'a>],
    texts: &Texts,
) -> Result<usize, Stop> {
    let mut body = body.clone();
    for (param, arg) in params.iter().zip(args) {
        let foretold = foretell(&body, param, arg, texts)?;
        if foretold > CARRIED_OUT {
            return Err(Stop::refused(code::MACRO_GROWTH));
        }
        rust::substitute_in_combinator(&mut body, param, arg.clone());
        let measure = measure::combinator(&body, texts)?;
        if measure.bytes != foretold {
            return Err(Stop::Internal(format!(
                "a substitution of {foretold} foretold bytes left {}",
                measure.bytes
            )));
        }
        if measure.past_a_limit() {
            return Err(Stop::refused(code::MACRO_GROWTH));
        }
    }
    Ok(measure::inner(&body.inner, texts)?.bytes)
}

/// The bytes that the combinator will have after one substitution.
fn foretell(
    body: &Combinator,
    param: &str,
    arg: &CombinatorInner,
    texts: &Texts,
) -> Result<usize, String> {
    let arg = measure::inner(arg, texts)?.bytes;
    let (mut gone, mut calls) = (0, 0);
    let mut outcome = Ok(());
    reach::reach(body, &mut |combinator| {
        if let CombinatorInner::Invocation(call) = &combinator.inner {
            if call.func.name == param {
                calls += 1;
                match measure::inner(&combinator.inner, texts) {
                    Ok(measure) => gone += measure.bytes,
                    Err(message) => outcome = Err(message),
                }
            }
        }
    });
    outcome?;
    Ok(measure::combinator(body, texts)?.bytes - gone + calls * arg)
}

fn has_known_call(definitions: &[Definition], macros: &Macros) -> bool {
    let mut found = false;
    reach::bodies(definitions, &mut |combinator| {
        if let CombinatorInner::MacroInvocation { name, .. } = &combinator.inner {
            found |= macros.contains_key(name.as_str());
        }
    });
    found
}
