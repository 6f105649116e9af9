//! Books to the Rust's `Vec<Definition>` and back.
//!
//! A book's texts have no meaning to elab.rs, and the AST has no one place for
//! them. It has a span in every node, though, and elab.rs copies a leaf's span
//! with the leaf. So every span made here is numbered, and the number is the
//! text's place in a table. Names get numbered spans too, so that no two
//! identifiers of a book are alike in anything but their name: the runs then
//! show that names alone are compared.
//!
//! `Endianess` has no span. Its texts stand in a list of their own, in order,
//! and Little and Big alternate, so that a lost or moved one is noticed.

use crate::tree::{Book, Cases, Combinator, Definition, Field, Inner, Leaf, Length, Text};
use vest::ast;

/// What the AST cannot hold: the text at each span, and those of byte orders.
#[derive(Debug, Default)]
pub struct Texts {
    at_span: Vec<Text>,
    byte_orders: Vec<Text>,
}

/// The AST came back in a shape that no book has. Never seen; always reported.
pub type Strange = String;

pub type Span = ast::Span<'static>;

pub fn to_ast(book: &Book) -> (Vec<ast::Definition<'static>>, Texts) {
    let mut texts = Texts::default();
    let definitions = book
        .definitions
        .iter()
        .map(|definition| texts.definition(definition))
        .collect();
    (definitions, texts)
}

/// The two byte orders take turns.
fn byte_order(number: usize) -> ast::Endianess {
    match number % 2 {
        0 => ast::Endianess::Little,
        _ => ast::Endianess::Big,
    }
}

impl Texts {
    fn span(&mut self, text: &[u8]) -> Span {
        self.at_span.push(text.to_vec());
        numbered(self.at_span.len() - 1)
    }

    fn blank(&mut self) -> Span {
        self.span(&[])
    }

    fn identifier(&mut self, name: &str) -> ast::Identifier<'static> {
        ast::Identifier {
            name: name.to_string(),
            span: self.blank(),
        }
    }

    fn constant(&mut self, text: &[u8]) -> ast::ConstCombinator<'static> {
        ast::ConstCombinator::ConstInt(ast::ConstIntCombinator {
            combinator: ast::IntCombinator::Unsigned(8),
            value: 0,
            span: self.span(text),
        })
    }

    fn definition(&mut self, definition: &Definition) -> ast::Definition<'static> {
        match definition {
            Definition::Format { name, params, body } => ast::Definition::Combinator {
                name: self.identifier(name),
                param_defns: params.iter().map(|param| self.param(param)).collect(),
                combinator: self.combinator(body),
                span: self.blank(),
            },
            Definition::Constant { name, text } => ast::Definition::ConstCombinator {
                name: self.identifier(name),
                const_combinator: self.constant(text),
                span: self.blank(),
            },
            Definition::ByteOrder { text } => {
                self.byte_orders.push(text.clone());
                ast::Definition::Endianess(byte_order(self.byte_orders.len() - 1))
            }
            Definition::Macro { name, params, body } => ast::Definition::MacroDefn {
                name: self.identifier(name),
                params: params.clone(),
                body: self.combinator(body),
            },
        }
    }

    fn param(&mut self, (name, inner): &(String, Inner)) -> ast::ParamDefn<'static> {
        ast::ParamDefn::Dependent {
            name: self.identifier(name),
            combinator: self.inner(inner),
            span: self.blank(),
        }
    }

    fn combinator(&mut self, combinator: &Combinator) -> ast::Combinator<'static> {
        ast::Combinator {
            inner: self.inner(&combinator.inner),
            and_then: combinator.chain.as_ref().map(|chain| self.boxed(chain)),
            span: self.blank(),
        }
    }

    fn boxed(&mut self, combinator: &Combinator) -> Box<ast::Combinator<'static>> {
        Box::new(self.combinator(combinator))
    }

    fn inner(&mut self, inner: &Inner) -> ast::CombinatorInner<'static> {
        use ast::CombinatorInner as Ast;
        match inner {
            Inner::Leaf(leaf, text) => self.leaf(*leaf, text),
            Inner::Struct(fields) => Ast::Struct(ast::StructCombinator {
                fields: fields.iter().map(|field| self.field(field)).collect(),
                span: self.blank(),
            }),
            Inner::Wrap(prior, child, post) => Ast::Wrap(ast::WrapCombinator {
                prior: vec![self.constant(prior)],
                combinator: self.boxed(child),
                post: vec![self.constant(post)],
                span: self.blank(),
            }),
            Inner::Choice(selector, cases) => Ast::Choice(ast::ChoiceCombinator {
                depend_id: selector.as_ref().map(|name| self.identifier(name)),
                choices: self.cases(cases),
                span: self.blank(),
            }),
            Inner::Vec(child) => Ast::Vec(ast::VecCombinator::Vec(self.boxed(child))),
            Inner::Array(length, child) => Ast::Array(ast::ArrayCombinator {
                combinator: self.boxed(child),
                len: self.length(length),
                span: self.blank(),
            }),
            Inner::Bytes(length) => Ast::Bytes(ast::BytesCombinator {
                len: self.length(length),
                span: self.blank(),
            }),
            Inner::Option(child) => Ast::Option(ast::OptionCombinator(self.boxed(child))),
            Inner::Invocation(name, args) => Ast::Invocation(ast::CombinatorInvocation {
                func: self.identifier(name),
                args: args
                    .iter()
                    .map(|arg| ast::Param::Dependent(self.identifier(arg)))
                    .collect(),
                span: self.blank(),
            }),
            Inner::MacroInvocation(name, args) => Ast::MacroInvocation {
                name: name.clone(),
                args: args.iter().map(|arg| self.inner(arg)).collect(),
            },
        }
    }

    fn leaf(&mut self, leaf: Leaf, text: &[u8]) -> ast::CombinatorInner<'static> {
        use ast::CombinatorInner as Ast;
        let span = self.span(text);
        match leaf {
            Leaf::ConstraintInt => Ast::ConstraintInt(ast::ConstraintIntCombinator {
                combinator: ast::IntCombinator::Unsigned(8),
                constraint: None,
                span,
            }),
            Leaf::ConstraintEnum => Ast::ConstraintEnum(ast::ConstraintEnumCombinator {
                combinator: ast::CombinatorInvocation {
                    func: self.identifier(""),
                    args: Vec::new(),
                    span,
                },
                constraint: ast::EnumConstraint::Set(Vec::new()),
                span,
            }),
            Leaf::Bits => Ast::Bits(ast::BitsCombinator {
                fields: Vec::new(),
                span,
            }),
            Leaf::Enum => Ast::Enum(ast::EnumCombinator::Exhaustive {
                enums: Vec::new(),
                span,
            }),
            Leaf::Tail => Ast::Tail(ast::TailCombinator { span }),
            Leaf::Nothing => Ast::Nothing(ast::NothingCombinator { span }),
            Leaf::Never => Ast::Never(ast::NeverCombinator {
                msg: String::new(),
                span,
            }),
        }
    }

    fn field(&mut self, field: &Field) -> ast::StructField<'static> {
        match field {
            Field::Ordinary(label, combinator) => ast::StructField::Ordinary {
                label: self.identifier(label),
                combinator: self.combinator(combinator),
                span: self.blank(),
            },
            Field::Dependent(label, combinator) => ast::StructField::Dependent {
                label: self.identifier(label),
                combinator: self.combinator(combinator),
                span: self.blank(),
            },
            Field::Const(label, text) => ast::StructField::Const {
                label: self.identifier(label),
                combinator: self.constant(text),
                span: self.blank(),
            },
        }
    }

    fn cases(&mut self, cases: &Cases) -> ast::Choices<'static> {
        match cases {
            Cases::Enums(cases) => ast::Choices::Enums(
                cases
                    .iter()
                    .map(|(label, c)| (self.identifier(label), self.combinator(c)))
                    .collect(),
            ),
            Cases::Ints(cases) => ast::Choices::Ints(
                cases
                    .iter()
                    .map(|(text, c)| (Some(self.pattern(text)), self.combinator(c)))
                    .collect(),
            ),
            Cases::Arrays(cases) => ast::Choices::Arrays(
                cases
                    .iter()
                    .map(|(text, c)| (self.array_pattern(text), self.combinator(c)))
                    .collect(),
            ),
        }
    }

    fn pattern(&mut self, text: &[u8]) -> ast::ConstraintElem<'static> {
        ast::ConstraintElem::Single {
            elem: 0,
            span: self.span(text),
        }
    }

    fn array_pattern(&mut self, text: &[u8]) -> ast::ConstArray<'static> {
        ast::ConstArray::Char {
            chars: Vec::new(),
            span: self.span(text),
        }
    }

    /// An expression whose `collect_dependent_ids` are the roots, in order:
    /// their sum, plus a constant whose span holds the text.
    fn length(&mut self, length: &Length) -> ast::LengthExpr<'static> {
        let text = ast::LengthExpr::Const {
            value: 0,
            span: self.span(&length.text),
        };
        match self.sum(&length.roots) {
            None => text,
            Some(roots) => self.plus(roots, text),
        }
    }

    /// A balanced sum, so that thousands of roots do not nest thousands deep.
    fn sum(&mut self, roots: &[String]) -> Option<ast::LengthExpr<'static>> {
        match roots {
            [] => None,
            [root] => Some(ast::LengthExpr::Dependent(ast::DependentId::simple(
                root.clone(),
                self.blank(),
            ))),
            _ => {
                let (left, right) = roots.split_at(roots.len() / 2);
                let (left, right) = (self.sum(left)?, self.sum(right)?);
                Some(self.plus(left, right))
            }
        }
    }

    fn plus(
        &mut self,
        left: ast::LengthExpr<'static>,
        right: ast::LengthExpr<'static>,
    ) -> ast::LengthExpr<'static> {
        ast::LengthExpr::BinOp {
            op: ast::ArithOp::Add,
            left: Box::new(left),
            right: Box::new(right),
            span: self.blank(),
        }
    }
}

/// The span with this number.
fn numbered(number: usize) -> Span {
    pest::Span::new("", number, number).expect("a span of the stand-in is any two numbers")
}

type Back<T> = Result<T, Strange>;

/// Back to a book. Byte orders must come in the order in which they went.
pub fn from_ast(definitions: &[ast::Definition], texts: &Texts) -> Back<Book> {
    let mut orders = 0;
    let mut book = Book::default();
    for definition in definitions {
        book.definitions
            .push(texts.definition_back(definition, &mut orders)?);
    }
    if orders != texts.byte_orders.len() {
        return Err(format!("{orders} byte orders came back"));
    }
    Ok(book)
}

impl Texts {
    pub fn at(&self, span: ast::Span) -> Back<&Text> {
        self.at_span
            .get(span.start())
            .ok_or_else(|| format!("a span numbered {}", span.start()))
    }

    /// The text that stands for the length's own expression.
    pub fn of_length(&self, length: &ast::LengthExpr) -> Back<&Text> {
        match length {
            ast::LengthExpr::Const { span, .. } => self.at(*span),
            ast::LengthExpr::BinOp { right, .. } => self.of_length(right),
            other => Err(format!("a length {other}")),
        }
    }

    pub fn of_constant(&self, constant: &ast::ConstCombinator) -> Back<&Text> {
        self.at(constant.as_span())
    }

    /// The one text on a side of a Wrap.
    pub fn of_side<'t>(&'t self, side: &[ast::ConstCombinator]) -> Back<&'t Text> {
        match side {
            [constant] => self.of_constant(constant),
            _ => Err(format!("a wrap with {} constants on a side", side.len())),
        }
    }

    pub fn of_pattern(&self, pattern: &Option<ast::ConstraintElem>) -> Back<&Text> {
        match pattern {
            Some(element) => self.at(element.as_span()),
            None => Err("a case without its pattern".to_string()),
        }
    }

    pub fn of_byte_order(&self, number: usize) -> Back<&Text> {
        self.byte_orders
            .get(number)
            .ok_or_else(|| format!("byte order {number} came from nowhere"))
    }

    fn definition_back(
        &self,
        definition: &ast::Definition,
        orders: &mut usize,
    ) -> Back<Definition> {
        Ok(match definition {
            ast::Definition::Combinator {
                name,
                param_defns,
                combinator,
                ..
            } => Definition::Format {
                name: name.name.clone(),
                params: self.params_back(param_defns)?,
                body: self.combinator_back(combinator)?,
            },
            ast::Definition::ConstCombinator {
                name,
                const_combinator,
                ..
            } => Definition::Constant {
                name: name.name.clone(),
                text: self.of_constant(const_combinator)?.clone(),
            },
            ast::Definition::Endianess(order) => {
                let text = self.of_byte_order(*orders)?.clone();
                if std::mem::discriminant(order) != std::mem::discriminant(&byte_order(*orders)) {
                    return Err(format!("byte order {orders} is another one"));
                }
                *orders += 1;
                Definition::ByteOrder { text }
            }
            ast::Definition::MacroDefn { name, params, body } => Definition::Macro {
                name: name.name.clone(),
                params: params.clone(),
                body: self.combinator_back(body)?,
            },
        })
    }

    fn params_back(&self, params: &[ast::ParamDefn]) -> Back<Vec<(String, Inner)>> {
        params
            .iter()
            .map(
                |ast::ParamDefn::Dependent {
                     name, combinator, ..
                 }| { Ok((name.name.clone(), self.inner_back(combinator)?)) },
            )
            .collect()
    }

    fn combinator_back(&self, combinator: &ast::Combinator) -> Back<Combinator> {
        let chain = match &combinator.and_then {
            None => None,
            Some(chain) => Some(self.boxed_back(chain)?),
        };
        Ok(Combinator {
            inner: self.inner_back(&combinator.inner)?,
            chain,
        })
    }

    fn boxed_back(&self, combinator: &ast::Combinator) -> Back<Box<Combinator>> {
        Ok(Box::new(self.combinator_back(combinator)?))
    }

    fn inner_back(&self, inner: &ast::CombinatorInner) -> Back<Inner> {
        use ast::CombinatorInner as Ast;
        let leaf = |leaf, span| -> Back<Inner> { Ok(Inner::Leaf(leaf, self.at(span)?.clone())) };
        Ok(match inner {
            Ast::ConstraintInt(c) => leaf(Leaf::ConstraintInt, c.span)?,
            Ast::ConstraintEnum(c) => leaf(Leaf::ConstraintEnum, c.span)?,
            Ast::Bits(c) => leaf(Leaf::Bits, c.span)?,
            Ast::Enum(c) => leaf(Leaf::Enum, c.as_span())?,
            Ast::Tail(c) => leaf(Leaf::Tail, c.span)?,
            Ast::Nothing(c) => leaf(Leaf::Nothing, c.span)?,
            Ast::Never(c) => leaf(Leaf::Never, c.span)?,
            Ast::Struct(c) => Inner::Struct(
                c.fields
                    .iter()
                    .map(|f| self.field_back(f))
                    .collect::<Back<_>>()?,
            ),
            Ast::Wrap(c) => Inner::Wrap(
                self.of_side(&c.prior)?.clone(),
                self.boxed_back(&c.combinator)?,
                self.of_side(&c.post)?.clone(),
            ),
            Ast::Choice(c) => Inner::Choice(
                c.depend_id.as_ref().map(|id| id.name.clone()),
                self.cases_back(&c.choices)?,
            ),
            Ast::Vec(ast::VecCombinator::Vec(child)) => Inner::Vec(self.boxed_back(child)?),
            Ast::Array(c) => {
                Inner::Array(self.length_back(&c.len)?, self.boxed_back(&c.combinator)?)
            }
            Ast::Bytes(c) => Inner::Bytes(self.length_back(&c.len)?),
            Ast::Option(ast::OptionCombinator(child)) => Inner::Option(self.boxed_back(child)?),
            Ast::Invocation(c) => Inner::Invocation(
                c.func.name.clone(),
                c.args
                    .iter()
                    .map(|ast::Param::Dependent(arg)| arg.name.clone())
                    .collect(),
            ),
            Ast::MacroInvocation { name, args } => Inner::MacroInvocation(
                name.clone(),
                args.iter()
                    .map(|arg| self.inner_back(arg))
                    .collect::<Back<_>>()?,
            ),
        })
    }

    fn field_back(&self, field: &ast::StructField) -> Back<Field> {
        Ok(match field {
            ast::StructField::Ordinary {
                label, combinator, ..
            } => Field::Ordinary(label.name.clone(), self.combinator_back(combinator)?),
            ast::StructField::Dependent {
                label, combinator, ..
            } => Field::Dependent(label.name.clone(), self.combinator_back(combinator)?),
            ast::StructField::Const {
                label, combinator, ..
            } => Field::Const(label.name.clone(), self.of_constant(combinator)?.clone()),
        })
    }

    fn cases_back(&self, choices: &ast::Choices) -> Back<Cases> {
        Ok(match choices {
            ast::Choices::Enums(cases) => Cases::Enums(
                cases
                    .iter()
                    .map(|(label, c)| Ok((label.name.clone(), self.combinator_back(c)?)))
                    .collect::<Back<_>>()?,
            ),
            ast::Choices::Ints(cases) => Cases::Ints(
                cases
                    .iter()
                    .map(|(p, c)| Ok((self.of_pattern(p)?.clone(), self.combinator_back(c)?)))
                    .collect::<Back<_>>()?,
            ),
            ast::Choices::Arrays(cases) => Cases::Arrays(
                cases
                    .iter()
                    .map(|(p, c)| Ok((self.at(p.as_span())?.clone(), self.combinator_back(c)?)))
                    .collect::<Back<_>>()?,
            ),
        })
    }

    /// The roots are the Rust's own `collect_dependent_ids`.
    fn length_back(&self, length: &ast::LengthExpr) -> Back<Length> {
        Ok(Length {
            roots: length
                .collect_dependent_ids()
                .into_iter()
                .map(|id| id.root.clone())
                .collect(),
            text: self.of_length(length)?.clone(),
        })
    }
}
