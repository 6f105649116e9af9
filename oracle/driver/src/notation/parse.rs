//! Tokens to a book.

use super::lex::{at, tokens, Place, Token};
use super::KEYWORDS;
use crate::tree::{Book, Cases, Combinator, Definition, Field, Inner, Leaf, Length, Text};

/// Far past document 01's 64, so that a person may write what is refused.
const DEEPEST: usize = 300;

type Parsed<T> = Result<T, String>;

/// Reads a book from text; an error names its line and column.
pub fn parse(text: &str) -> Parsed<Book> {
    let mut parser = Parser {
        tokens: tokens(text)?,
        next: 0,
        depth: 0,
    };
    let mut book = Book::default();
    while parser.peek() != &Token::End {
        book.definitions.push(parser.definition()?);
    }
    Ok(book)
}

struct Parser {
    tokens: Vec<(Token, Place)>,
    next: usize,
    depth: usize,
}

impl Parser {
    fn peek(&self) -> &Token {
        &self.tokens[self.next].0
    }

    fn place(&self) -> Place {
        self.tokens[self.next].1
    }

    /// The end is never passed.
    fn advance(&mut self) -> Token {
        let token = self.peek().clone();
        self.next = (self.next + 1).min(self.tokens.len() - 1);
        token
    }

    fn expected<T>(&self, what: &str) -> Parsed<T> {
        let found = match self.peek() {
            Token::Word(word) => format!("`{word}`"),
            Token::Name(name) => format!("the name {name:?}"),
            Token::Text(_) => "a text".to_string(),
            Token::Symbol(symbol) => format!("`{symbol}`"),
            Token::End => "the end".to_string(),
        };
        at(self.place(), format!("expected {what}, found {found}"))
    }

    fn is(&self, symbol: &'static str) -> bool {
        *self.peek() == Token::Symbol(symbol)
    }

    fn is_word(&self, word: &str) -> bool {
        matches!(self.peek(), Token::Word(found) if found == word)
    }

    fn take(&mut self, symbol: &'static str) -> bool {
        let found = self.is(symbol);
        if found {
            self.advance();
        }
        found
    }

    fn symbol(&mut self, symbol: &'static str) -> Parsed<()> {
        match self.take(symbol) {
            true => Ok(()),
            false => self.expected(&format!("`{symbol}`")),
        }
    }

    /// A name with dots, or any name between backticks.
    fn dotted_name(&mut self) -> Parsed<String> {
        let place = self.place();
        let name = match self.peek() {
            Token::Word(name) | Token::Name(name) => name.clone(),
            _ => return self.expected("a name"),
        };
        if name.len() > 255 {
            return at(place, format!("a name of {} bytes is over 255", name.len()));
        }
        self.advance();
        Ok(name)
    }

    fn plain_name(&mut self) -> Parsed<String> {
        if matches!(self.peek(), Token::Word(word) if word.contains('.')) {
            return self.expected("a name without '.'");
        }
        self.dotted_name()
    }

    fn text(&mut self) -> Parsed<Text> {
        match self.peek() {
            Token::Text(_) => Ok(self.optional_text()),
            _ => self.expected("a text"),
        }
    }

    /// No text stands for the empty one.
    fn optional_text(&mut self) -> Text {
        match self.peek().clone() {
            Token::Text(text) => {
                self.advance();
                text
            }
            _ => Vec::new(),
        }
    }

    /// Items with commas between them, and one after the last if liked.
    fn list<T>(
        &mut self,
        close: &'static str,
        mut item: impl FnMut(&mut Self) -> Parsed<T>,
    ) -> Parsed<Vec<T>> {
        let mut items = Vec::new();
        while !self.take(close) {
            items.push(item(self)?);
            if !self.take(",") && !self.is(close) {
                return self.expected(&format!("`,` or `{close}`"));
            }
        }
        Ok(items)
    }

    fn definition(&mut self) -> Parsed<Definition> {
        let word = match self.peek() {
            Token::Word(word) => word.clone(),
            _ => String::new(),
        };
        match word.as_str() {
            "format" => {
                self.advance();
                self.format()
            }
            "const" => {
                self.advance();
                let name = self.plain_name()?;
                self.symbol("=")?;
                let text = self.text()?;
                Ok(Definition::Constant { name, text })
            }
            "order" => {
                self.advance();
                let text = self.text()?;
                Ok(Definition::ByteOrder { text })
            }
            "macro" => {
                self.advance();
                self.macro_definition()
            }
            _ => self.expected("`format`, `const`, `order` or `macro`"),
        }
    }

    fn format(&mut self) -> Parsed<Definition> {
        let name = self.plain_name()?;
        let params = match self.take("(") {
            true => self.list(")", Self::param)?,
            false => Vec::new(),
        };
        self.symbol("=")?;
        let body = self.combinator()?;
        Ok(Definition::Format { name, params, body })
    }

    fn param(&mut self) -> Parsed<(String, Inner)> {
        self.symbol("@")?;
        let name = self.plain_name()?;
        self.symbol(":")?;
        Ok((name, self.inner()?))
    }

    fn macro_definition(&mut self) -> Parsed<Definition> {
        let name = self.plain_name()?;
        self.symbol("!")?;
        self.symbol("(")?;
        let params = self.list(")", Self::plain_name)?;
        self.symbol("=")?;
        let body = self.combinator()?;
        Ok(Definition::Macro { name, params, body })
    }

    fn combinator(&mut self) -> Parsed<Combinator> {
        self.deeper(|parser| {
            let inner = parser.inner()?;
            let chain = match parser.take(">>=") {
                true => Some(Box::new(parser.combinator()?)),
                false => None,
            };
            Ok(Combinator { inner, chain })
        })
    }

    fn deeper<T>(&mut self, item: impl FnOnce(&mut Self) -> Parsed<T>) -> Parsed<T> {
        if self.depth == DEEPEST {
            return at(self.place(), format!("more than {DEEPEST} levels"));
        }
        self.depth += 1;
        let item = item(self);
        self.depth -= 1;
        item
    }

    fn boxed(&mut self) -> Parsed<Box<Combinator>> {
        Ok(Box::new(self.combinator()?))
    }

    fn inner(&mut self) -> Parsed<Inner> {
        let word = match self.peek() {
            Token::Word(word) if KEYWORDS.contains(&word.as_str()) => word.clone(),
            Token::Word(_) | Token::Name(_) => return self.call(),
            _ => return self.expected("a format"),
        };
        if let Some(leaf) = leaf(&word) {
            self.advance();
            return Ok(Inner::Leaf(leaf, self.optional_text()));
        }
        let place = self.next;
        self.advance();
        match word.as_str() {
            "struct" => {
                self.symbol("{")?;
                Ok(Inner::Struct(self.list("}", Self::field)?))
            }
            "wrap" => self.wrap(),
            "choose" => self.choice(),
            "vec" => Ok(Inner::Vec(self.angled()?)),
            "option" => Ok(Inner::Option(self.angled()?)),
            "array" => {
                let child = self.angled()?;
                Ok(Inner::Array(self.length()?, child))
            }
            "bytes" => Ok(Inner::Bytes(self.length()?)),
            _ => {
                self.next = place;
                self.expected("a format")
            }
        }
    }

    fn angled(&mut self) -> Parsed<Box<Combinator>> {
        self.symbol("<")?;
        let child = self.boxed()?;
        self.symbol(">")?;
        Ok(child)
    }

    fn call(&mut self) -> Parsed<Inner> {
        let name = self.plain_name()?;
        if self.take("!") {
            self.symbol("(")?;
            let args = self.list(")", |parser| parser.deeper(Self::inner))?;
            return Ok(Inner::MacroInvocation(name, args));
        }
        let args = match self.take("(") {
            true => self.list(")", Self::argument)?,
            false => Vec::new(),
        };
        Ok(Inner::Invocation(name, args))
    }

    fn argument(&mut self) -> Parsed<String> {
        self.symbol("@")?;
        self.dotted_name()
    }

    fn field(&mut self) -> Parsed<Field> {
        if self.is_word("const") && self.tokens[self.next + 1].0 != Token::Symbol(":") {
            self.advance();
            let label = self.plain_name()?;
            self.symbol("=")?;
            return Ok(Field::Const(label, self.text()?));
        }
        let dependent = self.take("@");
        let label = self.plain_name()?;
        self.symbol(":")?;
        let combinator = self.combinator()?;
        Ok(match dependent {
            true => Field::Dependent(label, combinator),
            false => Field::Ordinary(label, combinator),
        })
    }

    fn wrap(&mut self) -> Parsed<Inner> {
        self.symbol("(")?;
        let prior = self.text()?;
        self.symbol(",")?;
        let child = self.boxed()?;
        self.symbol(",")?;
        let post = self.text()?;
        self.symbol(")")?;
        Ok(Inner::Wrap(prior, child, post))
    }

    fn choice(&mut self) -> Parsed<Inner> {
        let selector = match self.take("(") {
            true => {
                let name = self.argument()?;
                self.symbol(")")?;
                Some(name)
            }
            false => None,
        };
        let kinds = ["enums", "ints", "arrays"];
        let Some(kind) = kinds.into_iter().find(|kind| self.is_word(kind)) else {
            return self.expected("`enums`, `ints` or `arrays`");
        };
        self.advance();
        self.symbol("{")?;
        let cases = match kind {
            "enums" => Cases::Enums(self.list("}", |p| Ok((p.plain_name()?, p.case()?)))?),
            "ints" => Cases::Ints(self.list("}", |p| Ok((p.text()?, p.case()?)))?),
            _ => Cases::Arrays(self.list("}", |p| Ok((p.text()?, p.case()?)))?),
        };
        Ok(Inner::Choice(selector, cases))
    }

    fn case(&mut self) -> Parsed<Combinator> {
        self.symbol("=>")?;
        self.combinator()
    }

    fn length(&mut self) -> Parsed<Length> {
        self.symbol("[")?;
        let mut roots = Vec::new();
        while self.take("@") {
            roots.push(self.plain_name()?);
            self.take(",");
        }
        let text = self.optional_text();
        match self.take("]") {
            true => Ok(Length { roots, text }),
            false => self.expected("`@`, a text or `]`"),
        }
    }
}

fn leaf(word: &str) -> Option<Leaf> {
    Some(match word {
        "int" => Leaf::ConstraintInt,
        "variant" => Leaf::ConstraintEnum,
        "bits" => Leaf::Bits,
        "enum" => Leaf::Enum,
        "tail" => Leaf::Tail,
        "nothing" => Leaf::Nothing,
        "never" => Leaf::Never,
        _ => return None,
    })
}
