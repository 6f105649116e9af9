//! A book to bytes, without any limit but what the numbers can hold.

use crate::tree::{tag, Book, Cases, Combinator, Definition, Field, Inner, Length};

/// Writes a book, or says what does not fit its number.
pub fn write(book: &Book) -> Result<Vec<u8>, String> {
    let mut bodies = Vec::new();
    for definition in &book.definitions {
        bodies.push(body(definition)?);
    }
    let mut out = Writer::default();
    out.number(bodies.len(), "definitions")?;
    let mut offset = 2 + 6 * bodies.len();
    for (definition, body) in book.definitions.iter().zip(&bodies) {
        out.byte(definition.kind());
        out.byte(0);
        out.number(offset, "offset of a body")?;
        out.number(body.len(), "bytes of a body")?;
        offset += body.len();
    }
    bodies.iter().for_each(|body| out.bytes.extend(body));
    Ok(out.bytes)
}

/// The bytes of one definition's body.
pub fn body(definition: &Definition) -> Result<Vec<u8>, String> {
    let mut out = Writer::default();
    match definition {
        Definition::Format { name, params, body } => {
            out.name(name)?;
            out.counted(params, |out, (name, inner)| {
                out.name(name)?;
                out.inner(inner)
            })?;
            out.combinator(body)?;
        }
        Definition::Constant { name, text } => {
            out.name(name)?;
            out.text(text)?;
        }
        Definition::ByteOrder { text } => out.text(text)?,
        Definition::Macro { name, params, body } => {
            out.name(name)?;
            out.counted(params, |out, param| out.name(param))?;
            out.combinator(body)?;
        }
    }
    Ok(out.bytes)
}

/// The bytes of one combinator, its chain included.
pub fn combinator(combinator: &Combinator) -> Result<Vec<u8>, String> {
    let mut out = Writer::default();
    out.combinator(combinator)?;
    Ok(out.bytes)
}

#[derive(Default)]
struct Writer {
    bytes: Vec<u8>,
}

type Write = Result<(), String>;

impl Writer {
    fn byte(&mut self, byte: u8) {
        self.bytes.push(byte);
    }

    fn number(&mut self, number: usize, what: &str) -> Write {
        let small = u16::try_from(number).map_err(|_| format!("{what}: {number} is over 65535"))?;
        self.bytes.extend(small.to_le_bytes());
        Ok(())
    }

    fn name(&mut self, name: &str) -> Write {
        let length = u8::try_from(name.len())
            .map_err(|_| format!("a name of {} bytes is over 255", name.len()))?;
        self.byte(length);
        self.bytes.extend(name.as_bytes());
        Ok(())
    }

    fn text(&mut self, text: &[u8]) -> Write {
        self.number(text.len(), "bytes of a text")?;
        self.bytes.extend(text);
        Ok(())
    }

    fn counted<T>(&mut self, items: &[T], mut item: impl FnMut(&mut Self, &T) -> Write) -> Write {
        self.number(items.len(), "items in one place")?;
        items.iter().try_for_each(|one| item(self, one))
    }

    fn combinator(&mut self, combinator: &Combinator) -> Write {
        self.inner(&combinator.inner)?;
        match &combinator.chain {
            None => {
                self.byte(0);
                Ok(())
            }
            Some(chain) => {
                self.byte(1);
                self.combinator(chain)
            }
        }
    }

    fn inner(&mut self, inner: &Inner) -> Write {
        match inner {
            Inner::Leaf(leaf, text) => {
                self.byte(leaf.tag());
                self.text(text)
            }
            Inner::Struct(fields) => {
                self.byte(tag::STRUCT);
                self.counted(fields, Self::field)
            }
            Inner::Wrap(prior, child, post) => {
                self.byte(tag::WRAP);
                self.text(prior)?;
                self.combinator(child)?;
                self.text(post)
            }
            Inner::Choice(selector, cases) => {
                self.byte(tag::CHOICE);
                self.selector(selector.as_deref())?;
                self.cases(cases)
            }
            Inner::Vec(child) => {
                self.byte(tag::VEC);
                self.combinator(child)
            }
            Inner::Array(length, child) => {
                self.byte(tag::ARRAY);
                self.length(length)?;
                self.combinator(child)
            }
            Inner::Bytes(length) => {
                self.byte(tag::BYTES);
                self.length(length)
            }
            Inner::Option(child) => {
                self.byte(tag::OPTION);
                self.combinator(child)
            }
            Inner::Invocation(name, args) => {
                self.byte(tag::INVOCATION);
                self.name(name)?;
                self.counted(args, |out, arg| out.name(arg))
            }
            Inner::MacroInvocation(name, args) => {
                self.byte(tag::MACRO_INVOCATION);
                self.name(name)?;
                self.counted(args, Self::inner)
            }
        }
    }

    fn field(&mut self, field: &Field) -> Write {
        match field {
            Field::Ordinary(label, combinator) => {
                self.byte(1);
                self.name(label)?;
                self.combinator(combinator)
            }
            Field::Dependent(label, combinator) => {
                self.byte(2);
                self.name(label)?;
                self.combinator(combinator)
            }
            Field::Const(label, text) => {
                self.byte(3);
                self.name(label)?;
                self.text(text)
            }
        }
    }

    fn selector(&mut self, selector: Option<&str>) -> Write {
        match selector {
            None => {
                self.byte(0);
                Ok(())
            }
            Some(name) => {
                self.byte(1);
                self.name(name)
            }
        }
    }

    fn cases(&mut self, cases: &Cases) -> Write {
        match cases {
            Cases::Enums(cases) => {
                self.byte(1);
                self.counted(cases, |out, (label, combinator)| {
                    out.name(label)?;
                    out.combinator(combinator)
                })
            }
            Cases::Ints(cases) => {
                self.byte(2);
                self.counted(cases, Self::text_case)
            }
            Cases::Arrays(cases) => {
                self.byte(3);
                self.counted(cases, Self::text_case)
            }
        }
    }

    fn text_case(&mut self, (text, combinator): &(Vec<u8>, Combinator)) -> Write {
        self.text(text)?;
        self.combinator(combinator)
    }

    fn length(&mut self, length: &Length) -> Write {
        self.counted(&length.roots, |out, root| out.name(root))?;
        self.text(&length.text)
    }
}
