//! Everything one step smaller than a book. Each function hands its candidates to `go`, one at a time, until one is
//! taken; whether one was is the answer.

use driver::build::{nothing, vec};
use driver::cases::seal;
use driver::read::read;
use driver::tree::{Book, Cases, Combinator, Definition, Field, Inner, Length, Text};
use driver::write::write;

type Go<'a, T> = &'a mut dyn FnMut(T) -> bool;

/// As trees where the book reads, then as bytes; never a book that is not shorter.
pub fn book(bytes: &[u8], go: Go<Vec<u8>>) -> bool {
    let mut shorter = |smaller: Vec<u8>| smaller.len() < bytes.len() && go(smaller);
    let as_trees = |book: Book, go: Go<Vec<u8>>| {
        list(&book.definitions, definition, &mut |definitions| {
            write(&Book { definitions }).is_ok_and(&mut *go)
        })
    };
    read(bytes).is_ok_and(|book| as_trees(book, &mut shorter))
        || as_bodies(bytes, &mut shorter)
        || cut(bytes, &mut shorter)
}

/// With contents that fit again.
fn as_bodies(bytes: &[u8], go: Go<Vec<u8>>) -> bool {
    let Some(bodies) = bodies(bytes) else {
        return false;
    };
    let body = |(kind, body): &(u8, Vec<u8>), go: Go<(u8, Vec<u8>)>| {
        cut(body, &mut |body| go((*kind, body)))
    };
    list(&bodies, body, &mut |bodies| go(seal(&bodies)))
}

fn bodies(bytes: &[u8]) -> Option<Vec<(u8, Vec<u8>)>> {
    let count = usize::from(u16::from_le_bytes([*bytes.first()?, *bytes.get(1)?]));
    let number = |at: usize| {
        let pair = [*bytes.get(at)?, *bytes.get(at + 1)?];
        Some(usize::from(u16::from_le_bytes(pair)))
    };
    let body = |place: usize| {
        let at = 2 + 6 * place;
        let (start, length) = (number(at + 2)?, number(at + 4)?);
        Some((*bytes.get(at)?, bytes.get(start..start + length)?.to_vec()))
    };
    (0..count).map(body).collect()
}

/// Ranges left out, long ones first; then one item smaller.
fn list<T: Clone>(items: &[T], one: impl Fn(&T, Go<T>) -> bool, go: Go<Vec<T>>) -> bool {
    cut(items, go)
        || (0..items.len()).any(|at| {
            one(&items[at], &mut |smaller| {
                let mut copy = items.to_vec();
                copy[at] = smaller;
                go(copy)
            })
        })
}

fn cut<T: Clone>(items: &[T], go: Go<Vec<T>>) -> bool {
    let mut width = items.len();
    while width > 0 {
        for start in (0..items.len()).step_by(width) {
            let end = items.len().min(start + width);
            if go([&items[..start], &items[end..]].concat()) {
                return true;
            }
        }
        width /= 2;
    }
    false
}

fn text(text: &Text, go: Go<Text>) -> bool {
    cut(text, go)
}

fn name(name: &str, go: Go<String>) -> bool {
    let characters: Vec<char> = name.chars().collect();
    cut(&characters, &mut |left| go(left.into_iter().collect()))
}

fn names(names: &[String], go: Go<Vec<String>>) -> bool {
    list(names, |one, go| name(one, go), go)
}

fn definition(whole: &Definition, go: Go<Definition>) -> bool {
    let mut with = |change: &dyn Fn(&mut Definition)| {
        let mut copy = whole.clone();
        change(&mut copy);
        go(copy)
    };
    match whole {
        Definition::ByteOrder { text: old } => {
            text(old, &mut |text| with(&|d| set_text(d, text.clone())))
        }
        Definition::Constant { name: n, text: t } => {
            name(n, &mut |n| with(&|d| set_name(d, n.clone())))
                || text(t, &mut |t| with(&|d| set_text(d, t.clone())))
        }
        Definition::Macro {
            name: n,
            params,
            body,
        } => {
            names(params, &mut |new| {
                with(&|d| {
                    if let Definition::Macro { params, .. } = d {
                        params.clone_from(&new);
                    }
                })
            }) || combinator(body, &mut |body| with(&|d| set_body(d, body.clone())))
                || name(n, &mut |n| with(&|d| set_name(d, n.clone())))
        }
        Definition::Format {
            name: n,
            params,
            body,
        } => {
            list(params, parameter, &mut |new| {
                with(&|d| {
                    if let Definition::Format { params, .. } = d {
                        params.clone_from(&new);
                    }
                })
            }) || combinator(body, &mut |body| with(&|d| set_body(d, body.clone())))
                || name(n, &mut |n| with(&|d| set_name(d, n.clone())))
        }
    }
}

fn set_name(definition: &mut Definition, new: String) {
    match definition {
        Definition::Format { name, .. }
        | Definition::Constant { name, .. }
        | Definition::Macro { name, .. } => *name = new,
        Definition::ByteOrder { .. } => {}
    }
}

fn set_text(definition: &mut Definition, new: Text) {
    if let Definition::Constant { text, .. } | Definition::ByteOrder { text } = definition {
        *text = new;
    }
}

fn set_body(definition: &mut Definition, new: Combinator) {
    if let Definition::Format { body, .. } | Definition::Macro { body, .. } = definition {
        *body = new;
    }
}

fn parameter((label, kind): &(String, Inner), go: Go<(String, Inner)>) -> bool {
    inner(kind, &mut |kind| go((label.clone(), kind)))
        || name(label, &mut |label| go((label, kind.clone())))
}

/// A child or the chain in its place, a child in a Vec, no chain, or a part smaller.
fn combinator(whole: &Combinator, go: Go<Combinator>) -> bool {
    let chain = whole.chain.as_deref();
    children(&whole.inner)
        .into_iter()
        .any(|child| go(child.clone()))
        || children(&whole.inner).into_iter().any(|child| {
            let inner = vec(child.clone());
            let chain = whole.chain.clone();
            go(Combinator { inner, chain })
        })
        || chain.is_some_and(|chain| go(chain.clone()))
        || chain.is_some_and(|_| go(whole.inner.clone().into()))
        || go(Combinator {
            inner: nothing(),
            chain: whole.chain.clone(),
        })
        || inner(&whole.inner, &mut |inner| {
            let chain = whole.chain.clone();
            go(Combinator { inner, chain })
        })
        || chain.is_some_and(|chain| {
            combinator(chain, &mut |chain| {
                go(Combinator::chained(whole.inner.clone(), chain))
            })
        })
}

fn children(inner: &Inner) -> Vec<&Combinator> {
    match inner {
        Inner::Wrap(_, child, _) | Inner::Vec(child) | Inner::Option(child) => vec![child],
        Inner::Array(_, child) => vec![child],
        Inner::Struct(fields) => fields
            .iter()
            .filter_map(|field| match field {
                Field::Ordinary(_, child) | Field::Dependent(_, child) => Some(child),
                Field::Const(..) => None,
            })
            .collect(),
        Inner::Choice(_, Cases::Enums(cases)) => cases.iter().map(|(_, child)| child).collect(),
        Inner::Choice(_, Cases::Ints(cases) | Cases::Arrays(cases)) => {
            cases.iter().map(|(_, child)| child).collect()
        }
        _ => Vec::new(),
    }
}

fn inner(whole: &Inner, go: Go<Inner>) -> bool {
    match whole {
        Inner::Leaf(leaf, old) => text(old, &mut |text| go(Inner::Leaf(*leaf, text))),
        Inner::Struct(fields) => list(fields, field, &mut |fields| go(Inner::Struct(fields))),
        Inner::Wrap(before, child, after) => {
            combinator(child, &mut |child| {
                go(Inner::Wrap(before.clone(), child.into(), after.clone()))
            }) || text(before, &mut |before| {
                go(Inner::Wrap(before, child.clone(), after.clone()))
            }) || text(after, &mut |after| {
                go(Inner::Wrap(before.clone(), child.clone(), after))
            })
        }
        Inner::Choice(selector, cases) => {
            self::cases(cases, &mut |cases| {
                go(Inner::Choice(selector.clone(), cases))
            }) || self::selector(selector, &mut |selector| {
                go(Inner::Choice(selector, cases.clone()))
            })
        }
        Inner::Vec(child) => combinator(child, &mut |child| go(Inner::Vec(child.into()))),
        Inner::Option(child) => combinator(child, &mut |child| go(Inner::Option(child.into()))),
        Inner::Array(size, child) => {
            combinator(child, &mut |child| {
                go(Inner::Array(size.clone(), child.into()))
            }) || length(size, &mut |size| go(Inner::Array(size, child.clone())))
        }
        Inner::Bytes(size) => length(size, &mut |size| go(Inner::Bytes(size))),
        Inner::Invocation(called, args) => {
            names(args, &mut |args| {
                go(Inner::Invocation(called.clone(), args))
            }) || name(called, &mut |called| {
                go(Inner::Invocation(called, args.clone()))
            })
        }
        Inner::MacroInvocation(called, args) => {
            list(args, inner, &mut |args| {
                go(Inner::MacroInvocation(called.clone(), args))
            }) || name(called, &mut |called| {
                go(Inner::MacroInvocation(called, args.clone()))
            })
        }
    }
}

fn selector(selector: &Option<String>, go: Go<Option<String>>) -> bool {
    selector
        .as_ref()
        .is_some_and(|old| go(None) || name(old, &mut |name| go(Some(name))))
}

fn length(old: &Length, go: Go<Length>) -> bool {
    let Length { roots, text: t } = old;
    names(roots, &mut |roots| {
        let text = t.clone();
        go(Length { roots, text })
    }) || text(t, &mut |text| {
        let roots = roots.clone();
        go(Length { roots, text })
    })
}

fn field(whole: &Field, go: Go<Field>) -> bool {
    match whole {
        Field::Ordinary(label, child) => labelled(
            |old: &String, go| name(old, go),
            label,
            child,
            &mut |(label, child)| go(Field::Ordinary(label, child)),
        ),
        Field::Dependent(label, child) => labelled(
            |old: &String, go| name(old, go),
            label,
            child,
            &mut |(label, child)| go(Field::Dependent(label, child)),
        ),
        Field::Const(label, old) => {
            name(label, &mut |label| go(Field::Const(label, old.clone())))
                || text(old, &mut |text| go(Field::Const(label.clone(), text)))
        }
    }
}

fn labelled<L: Clone>(
    smaller: impl Fn(&L, Go<L>) -> bool,
    label: &L,
    child: &Combinator,
    go: Go<(L, Combinator)>,
) -> bool {
    combinator(child, &mut |child| go((label.clone(), child)))
        || smaller(label, &mut |label| go((label, child.clone())))
}

fn cases(whole: &Cases, go: Go<Cases>) -> bool {
    let plain = |case: &(Text, Combinator), go: Go<(Text, Combinator)>| {
        labelled(text, &case.0, &case.1, go)
    };
    match whole {
        Cases::Enums(cases) => {
            let one = |case: &(String, Combinator), go: Go<(String, Combinator)>| {
                labelled(|old: &String, go| name(old, go), &case.0, &case.1, go)
            };
            list(cases, one, &mut |cases| go(Cases::Enums(cases)))
        }
        Cases::Ints(cases) => list(cases, plain, &mut |cases| go(Cases::Ints(cases))),
        Cases::Arrays(cases) => list(cases, plain, &mut |cases| go(Cases::Arrays(cases))),
    }
}
