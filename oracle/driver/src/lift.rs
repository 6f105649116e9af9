//! The walk of `expand_definitions` once more, with 9, 7, 8 and 10 tested at
//! each lift. Which child is walked next, and when a limit is tested, is a
//! second reading of document 01; what is anonymous, what a name becomes, which
//! parameters are free and how they are typed are the Rust's own functions, and
//! 7 and 8 are their panics. The result is held against the real `elaborate`.

use crate::bridge::Texts;
use crate::caught;
use crate::limits::{code, BOOK_BYTES, DEFINITIONS, NAME_BYTES};
use crate::measure::{self, name_bytes};
use crate::stop::Stop;
use std::collections::HashSet;
use vest::ast::{
    ArrayCombinator, Choices, Combinator, CombinatorInner, CombinatorInvocation, Definition,
    Identifier, OptionCombinator, Param, ParamDefn, StructField, VecCombinator,
};
use vest::elab::reach as rust;

/// A list after lifting.
pub struct Lifted<'a> {
    pub definitions: Vec<Definition<'a>>,
    pub names: HashSet<String>,
    /// How many definitions were appended.
    pub appended: usize,
    /// Document 01's running measure after the last lift.
    pub bytes: usize,
}

type Binders<'a> = Vec<(String, CombinatorInner<'a>)>;

struct Walk<'t, 'a> {
    texts: &'t Texts,
    taken: HashSet<String>,
    lifted: Vec<Definition<'a>>,
    /// Of the book as if the walk stopped here.
    bytes: usize,
    definitions: usize,
}

/// Lifts every definition of an expanded list, or answers 7, 8, 9 or 10.
pub fn lift<'a>(mut definitions: Vec<Definition<'a>>, texts: &Texts) -> Result<Lifted<'a>, Stop> {
    let mut walk = Walk {
        texts,
        taken: taken_at_start(&definitions),
        lifted: Vec::new(),
        bytes: measure::book(&definitions, texts)?.bytes,
        definitions: definitions.len(),
    };
    for definition in &mut definitions {
        if let Definition::Combinator {
            name,
            param_defns,
            combinator,
            ..
        } = definition
        {
            let mut binders = param_defns.iter().map(binder).collect();
            walk.node(&name.name, combinator, &mut binders)?;
        }
    }
    let names = walk.lifted.iter().filter_map(format_name).collect();
    let appended = walk.lifted.len();
    definitions.extend(walk.lifted);
    Ok(Lifted {
        definitions,
        names,
        appended,
        bytes: walk.bytes,
    })
}

fn taken_at_start(definitions: &[Definition]) -> HashSet<String> {
    definitions
        .iter()
        .filter_map(|definition| match definition {
            Definition::ConstCombinator { name, .. } => Some(name.name.clone()),
            other => format_name(other),
        })
        .collect()
}

fn format_name(definition: &Definition) -> Option<String> {
    match definition {
        Definition::Combinator { name, .. } => Some(name.name.clone()),
        _ => None,
    }
}

fn binder<'a>(param: &ParamDefn<'a>) -> (String, CombinatorInner<'a>) {
    let ParamDefn::Dependent {
        name, combinator, ..
    } = param;
    (name.name.clone(), combinator.clone())
}

type Step = Result<(), Stop>;

impl<'a> Walk<'_, 'a> {
    /// A node that keeps its place: the chain first, then the children.
    fn node(
        &mut self,
        name: &str,
        combinator: &mut Combinator<'a>,
        binders: &mut Binders<'a>,
    ) -> Step {
        if let Some(chain) = &mut combinator.and_then {
            self.child(name, chain, binders)?;
        }
        match &mut combinator.inner {
            CombinatorInner::Struct(c) => self.fields(name, &mut c.fields, binders),
            CombinatorInner::Choice(c) => self.cases(name, &mut c.choices, binders),
            CombinatorInner::Wrap(c) => self.under(name, "anon", &mut c.combinator, binders),
            CombinatorInner::Vec(VecCombinator::Vec(child))
            | CombinatorInner::Array(ArrayCombinator {
                combinator: child, ..
            })
            | CombinatorInner::Option(OptionCombinator(child)) => {
                self.under(name, "item", child, binders)
            }
            _ => Ok(()),
        }
    }

    fn fields(
        &mut self,
        name: &str,
        fields: &mut [StructField<'a>],
        binders: &mut Binders<'a>,
    ) -> Step {
        for field in fields {
            match field {
                StructField::Ordinary {
                    label, combinator, ..
                } => self.labelled(name, label, combinator, binders)?,
                StructField::Dependent {
                    label, combinator, ..
                } => {
                    self.labelled(name, label, combinator, binders)?;
                    binders.push((label.name.clone(), combinator.inner.clone()));
                }
                StructField::Const { .. } => {}
            }
        }
        Ok(())
    }

    fn cases(&mut self, name: &str, choices: &mut Choices<'a>, binders: &mut Binders<'a>) -> Step {
        match choices {
            Choices::Enums(cases) => {
                for (label, combinator) in cases {
                    self.labelled(name, label, combinator, binders)?;
                }
            }
            Choices::Ints(cases) => {
                for (number, (_, combinator)) in cases.iter_mut().enumerate() {
                    self.under(name, &format!("choice{number}"), combinator, binders)?;
                }
            }
            Choices::Arrays(cases) => {
                for (number, (_, combinator)) in cases.iter_mut().enumerate() {
                    self.under(name, &format!("choice{number}"), combinator, binders)?;
                }
            }
        }
        Ok(())
    }

    fn labelled(
        &mut self,
        name: &str,
        label: &Identifier<'a>,
        combinator: &mut Combinator<'a>,
        binders: &mut Binders<'a>,
    ) -> Step {
        self.under(
            name,
            &rust::generated_segment(&label.name),
            combinator,
            binders,
        )
    }

    fn under(
        &mut self,
        name: &str,
        segment: &str,
        combinator: &mut Combinator<'a>,
        binders: &mut Binders<'a>,
    ) -> Step {
        let base = rust::child_generated_name(name, segment);
        self.child(&base, combinator, binders)
    }

    /// An anonymous child is lifted whole; any other is walked.
    fn child(
        &mut self,
        base: &str,
        combinator: &mut Combinator<'a>,
        binders: &mut Binders<'a>,
    ) -> Step {
        if rust::contains_anonymous_format(combinator) {
            self.lift(base, combinator, binders)
        } else {
            self.node(base, combinator, binders)
        }
    }

    fn lift(&mut self, base: &str, combinator: &mut Combinator<'a>, binders: &Binders<'a>) -> Step {
        let name = rust::fresh_generated_name(base, &mut self.taken);
        if name.len() > NAME_BYTES {
            return Err(Stop::refused(code::LIFTED_NAME_TOO_LONG));
        }
        let span = combinator.span;
        let params = caught(|| rust::sorted_params(combinator))?;
        let types = caught(|| rust::build_param_defns(&params, binders, span))?;
        self.count(&name, &types)?;

        let identifier = Identifier {
            name: name.clone(),
            span,
        };
        let call = call(identifier.clone(), params);
        let mut body = std::mem::replace(combinator, call);
        self.node(&name, &mut body, &mut binders.clone())?;
        self.lifted.push(Definition::Combinator {
            name: identifier,
            param_defns: types,
            combinator: body,
            span,
        });
        Ok(())
    }

    /// Code 10 with this lift made: an entry, the new body and the call are
    /// added; the combinator moved is in the new body and no longer here.
    fn count(&mut self, name: &str, types: &[ParamDefn<'a>]) -> Step {
        let mut head = name_bytes(name) + 2;
        let mut arguments = 0;
        for one in types {
            let ParamDefn::Dependent { name, .. } = one;
            head += measure::param(one, self.texts)?.bytes;
            arguments += name_bytes(&name.name);
        }
        let call = 1 + name_bytes(name) + 2 + arguments + 1;
        self.bytes += 6 + head + call;
        self.definitions += 1;
        if self.bytes > BOOK_BYTES || self.definitions > DEFINITIONS {
            return Err(Stop::refused(code::RESULT_TOO_LARGE));
        }
        Ok(())
    }
}

fn call<'a>(func: Identifier<'a>, args: Vec<Param<'a>>) -> Combinator<'a> {
    let span = func.span;
    Combinator {
        inner: CombinatorInner::Invocation(CombinatorInvocation { func, args, span }),
        and_then: None,
        span,
    }
}

/// The Rust's panic as document 01's code.
fn caught<T>(action: impl FnOnce() -> T) -> Result<T, Stop> {
    caught::catch(action).map_err(|panic| match panic.code() {
        Ok(code) => Stop::refused(code),
        Err(message) => Stop::Internal(message),
    })
}
