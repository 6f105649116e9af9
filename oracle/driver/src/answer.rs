//! The judge's answers. README.md says, code by code, which part is the Rust's
//! word and which is a second reading of document 01.

use crate::bridge::{from_ast, to_ast, Texts};
use crate::caught;
use crate::expand::{expand, Mode};
use crate::lift::{lift, Lifted};
use crate::limits::{code, BOOK_BYTES, DEFINITIONS, NAME_BYTES};
use crate::measure;
use crate::reach;
use crate::read::read;
use crate::stop::{Refusal, Stop};
use crate::write::write;
use std::collections::HashSet;
use vest::ast::{CombinatorInner, Definition};

/// What document 01's call answers, the two codes about buffers aside.
#[derive(Debug, Clone, PartialEq, Eq)]
pub enum Answer {
    Done(Done),
    Refused(Refusal),
}

#[derive(Debug, Clone, PartialEq, Eq)]
pub struct Done {
    pub book: Vec<u8>,
    pub definitions: usize,
    pub lifted: usize,
}

/// The two readings disagree, or the Rust did what no reading allows for.
pub type Internal = String;

impl Answer {
    pub fn code(&self) -> u8 {
        match self {
            Answer::Done(_) => code::DONE,
            Answer::Refused(refusal) => refusal.code,
        }
    }
}

/// Elaborates a book.
pub fn answer(bytes: &[u8], mode: Mode) -> Result<Answer, Internal> {
    settle(elaborate(bytes, mode), Answer::Refused)
}

fn settle<T>(outcome: Result<T, Stop>, refused: impl Fn(Refusal) -> T) -> Result<T, Internal> {
    match outcome {
        Ok(value) => Ok(value),
        Err(Stop::Refused(refusal)) => Ok(refused(refusal)),
        Err(Stop::Internal(message)) => Err(message),
    }
}

fn elaborate(bytes: &[u8], mode: Mode) -> Result<Answer, Stop> {
    let book = read(bytes)?;
    let (source, texts) = to_ast(&book);
    let expanded = expand(source, &texts, mode)?;
    let word = match mode {
        Mode::Plain => to_ast(&book).0,
        // After the last pass no macro is left: the Rust then only lifts.
        Mode::Nested => expanded.clone(),
    };
    match lift(expanded, &texts) {
        Ok(reading) => done(reading, word, &texts),
        Err(Stop::Refused(refusal)) => {
            confirm_refusal(refusal.code, word, &texts)?;
            Ok(Answer::Refused(refusal))
        }
        Err(internal) => Err(internal),
    }
}

/// A result on which the second reading and the real `elaborate` agree.
fn done(reading: Lifted, mut word: Vec<Definition>, texts: &Texts) -> Result<Answer, Stop> {
    let names: HashSet<String> = caught::catch(|| vest::elab::elaborate(&mut word))
        .map_err(|panic| format!("the Rust panicked where nothing is refused: {panic:?}"))?;
    let result = from_ast(&word, texts)?;
    if result != from_ast(&reading.definitions, texts)? {
        return Err(Stop::Internal("the Rust's result is another one".into()));
    }
    if names != reading.names || names.len() != reading.appended {
        return Err(Stop::Internal("the Rust's lifted names are others".into()));
    }
    let book = write(&result)?;
    if book.len() != reading.bytes {
        return Err(Stop::Internal(format!(
            "the result has {} bytes where {} were counted",
            book.len(),
            reading.bytes
        )));
    }
    Ok(Answer::Done(Done {
        book,
        definitions: result.definitions.len(),
        lifted: reading.appended,
    }))
}

/// The real `elaborate` panics as 7 or 8 says. It has no limits; but where it
/// comes to an end, its result must be past the limit that 9 or 10 names.
fn confirm_refusal(code: u8, mut word: Vec<Definition>, texts: &Texts) -> Result<(), Stop> {
    let outcome = caught::catch(|| vest::elab::elaborate(&mut word));
    let confirmed = match (code, outcome) {
        (code::LEFTOVER_MACRO | code::NO_BINDER, Err(panic)) => panic.code()? == code,
        (code::LIFTED_NAME_TOO_LONG, Ok(names)) => names.iter().any(|name| name.len() > NAME_BYTES),
        (code::RESULT_TOO_LARGE, Ok(_)) => {
            word.len() > DEFINITIONS || measure::book(&word, texts)?.bytes > BOOK_BYTES
        }
        // A panic at a later lift says nothing about a limit at an earlier one.
        (code::LIFTED_NAME_TOO_LONG | code::RESULT_TOO_LARGE, Err(panic)) => panic.code().is_ok(),
        _ => false,
    };
    match confirmed {
        true => Ok(()),
        false => Err(Stop::Internal(format!(
            "the Rust does not bear out code {code}"
        ))),
    }
}

/// The premise test's answer, with the expanded book it looked at.
#[derive(Debug, Clone, PartialEq, Eq)]
pub enum Premise {
    Holds { yes: bool, expanded: Vec<u8> },
    Refused(Refusal),
}

/// Document 01's premise test. The expansion is the Rust's; the test itself is
/// document 01's alone.
pub fn premise(bytes: &[u8], mode: Mode) -> Result<Premise, Internal> {
    settle(test_premise(bytes, mode), Premise::Refused)
}

fn test_premise(bytes: &[u8], mode: Mode) -> Result<Premise, Stop> {
    let book = read(bytes)?;
    let (source, texts) = to_ast(&book);
    let list = expand(source, &texts, mode)?;
    Ok(Premise::Holds {
        yes: called_names_exist(&list) && chains_stand_on_bytes_or_tail(&list),
        expanded: write(&from_ast(&list, &texts)?)?,
    })
}

fn called_names_exist(list: &[Definition]) -> bool {
    let known: HashSet<&str> = list
        .iter()
        .filter_map(|definition| match definition {
            Definition::Combinator { name, .. } | Definition::ConstCombinator { name, .. } => {
                Some(name.name.as_str())
            }
            _ => None,
        })
        .collect();
    let mut all = true;
    reach::bodies(list, &mut |combinator| {
        if let CombinatorInner::Invocation(call) = &combinator.inner {
            all &= known.contains(call.func.name.as_str());
        }
    });
    all
}

fn chains_stand_on_bytes_or_tail(list: &[Definition]) -> bool {
    let mut all = true;
    reach::bodies(list, &mut |combinator| {
        all &= combinator.and_then.is_none()
            || matches!(
                combinator.inner,
                CombinatorInner::Bytes(_) | CombinatorInner::Tail(_)
            );
    });
    all
}
