//! Text to tokens, each with its line and column.

#[derive(Debug, Clone, PartialEq, Eq)]
pub enum Token {
    /// A bare word, with dots inside it or not.
    Word(String),
    /// A name between backticks.
    Name(String),
    /// A text between quotes.
    Text(Vec<u8>),
    Symbol(&'static str),
    End,
}

#[derive(Debug, Clone, Copy, PartialEq, Eq)]
pub struct Place {
    pub line: usize,
    pub column: usize,
}

/// What is wrong, and where.
pub fn at<T>(place: Place, what: impl std::fmt::Display) -> Result<T, String> {
    Err(format!(
        "line {}, column {}: {what}",
        place.line, place.column
    ))
}

/// Longer symbols stand before the shorter ones they begin with.
const SYMBOLS: [&str; 14] = [
    ">>=", "=>", "=", "(", ")", "{", "}", "[", "]", "<", ">", ",", ":", "!",
];

pub fn tokens(text: &str) -> Result<Vec<(Token, Place)>, String> {
    let mut lexer = Lexer {
        rest: text,
        place: Place { line: 1, column: 1 },
    };
    let mut tokens = Vec::new();
    loop {
        lexer.skip_blanks();
        let place = lexer.place;
        let token = lexer.token()?;
        let last = token == Token::End;
        tokens.push((token, place));
        if last {
            return Ok(tokens);
        }
    }
}

struct Lexer<'t> {
    rest: &'t str,
    place: Place,
}

impl Lexer<'_> {
    fn peek(&self) -> Option<char> {
        self.rest.chars().next()
    }

    fn next(&mut self) -> Option<char> {
        let character = self.peek()?;
        self.rest = &self.rest[character.len_utf8()..];
        match character {
            '\n' => {
                self.place.line += 1;
                self.place.column = 1;
            }
            _ => self.place.column += 1,
        }
        Some(character)
    }

    fn skip_blanks(&mut self) {
        while let Some(character) = self.peek() {
            if character.is_whitespace() {
                self.next();
            } else if self.rest.starts_with("//") {
                while self.peek().is_some_and(|c| c != '\n') {
                    self.next();
                }
            } else {
                return;
            }
        }
    }

    fn token(&mut self) -> Result<Token, String> {
        let place = self.place;
        match self.peek() {
            None => Ok(Token::End),
            Some('"') => self.text(),
            Some('`') => self.name(),
            Some('@') => {
                self.next();
                Ok(Token::Symbol("@"))
            }
            Some(c) if c.is_ascii_alphabetic() || c == '_' => Ok(self.word()),
            Some(other) => match SYMBOLS.iter().find(|s| self.rest.starts_with(**s)) {
                Some(symbol) => {
                    symbol.chars().for_each(|_| {
                        self.next();
                    });
                    Ok(Token::Symbol(symbol))
                }
                None => at(place, format!("{other:?} begins nothing here")),
            },
        }
    }

    fn word(&mut self) -> Token {
        let mut word = String::new();
        while let Some(c) = self.peek() {
            if !(c.is_ascii_alphanumeric() || c == '_' || c == '.') {
                break;
            }
            word.push(c);
            self.next();
        }
        Token::Word(word)
    }

    fn text(&mut self) -> Result<Token, String> {
        let start = self.place;
        self.next();
        let mut bytes = Vec::new();
        loop {
            let place = self.place;
            match self.next() {
                Some('"') => return Ok(Token::Text(bytes)),
                Some('\\') => bytes.push(self.text_escape(place)?),
                Some('\n') | None => return at(start, "this text has no end on its line"),
                Some(c) => bytes.extend(c.encode_utf8(&mut [0; 4]).as_bytes()),
            }
        }
    }

    fn text_escape(&mut self, place: Place) -> Result<u8, String> {
        match self.next() {
            Some('n') => Ok(b'\n'),
            Some('t') => Ok(b'\t'),
            Some('"') => Ok(b'"'),
            Some('\\') => Ok(b'\\'),
            Some('x') => {
                let digits: String = [self.next(), self.next()].into_iter().flatten().collect();
                match u8::from_str_radix(&digits, 16) {
                    Ok(byte) if digits.len() == 2 && !digits.starts_with('+') => Ok(byte),
                    _ => at(place, "\\x wants two hexadecimal digits"),
                }
            }
            _ => at(place, "a text knows \\n, \\t, \\\", \\\\ and \\xNN"),
        }
    }

    fn name(&mut self) -> Result<Token, String> {
        let start = self.place;
        self.next();
        let mut name = String::new();
        loop {
            let place = self.place;
            match self.next() {
                Some('`') => return Ok(Token::Name(name)),
                Some('\\') => name.push(self.name_escape(place)?),
                Some('\n') | None => return at(start, "this name has no end on its line"),
                Some(c) => name.push(c),
            }
        }
    }

    fn name_escape(&mut self, place: Place) -> Result<char, String> {
        match self.next() {
            Some('`') => Ok('`'),
            Some('\\') => Ok('\\'),
            Some('u') if self.peek() == Some('{') => {
                self.next();
                let mut digits = String::new();
                while self.peek().is_some_and(|c| c.is_ascii_hexdigit()) {
                    digits.extend(self.next());
                }
                let value = u32::from_str_radix(&digits, 16)
                    .ok()
                    .and_then(char::from_u32);
                match (value, self.next()) {
                    (Some(character), Some('}')) => Ok(character),
                    _ => at(place, "\\u{..} wants the number of a character"),
                }
            }
            _ => at(place, "a name knows \\`, \\\\ and \\u{..}"),
        }
    }
}
