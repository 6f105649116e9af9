//! A book to text. What is printed parses to the same book.

use super::{is_bare, KEYWORDS};
use crate::tree::{Book, Cases, Combinator, Definition, Field, Inner, Leaf, Length, Text};

pub fn print(book: &Book) -> String {
    let definitions: Vec<String> = book.definitions.iter().map(definition).collect();
    definitions.join("\n")
}

fn definition(definition: &Definition) -> String {
    match definition {
        Definition::Format { name, params, body } => {
            let params: Vec<String> = params
                .iter()
                .map(|(name, inner)| format!("@{}: {}", plain(name), self::inner(inner, 0)))
                .collect();
            let params = match params.is_empty() {
                true => String::new(),
                false => format!("({})", params.join(", ")),
            };
            format!("format {}{params} = {}\n", plain(name), combinator(body, 0))
        }
        Definition::Constant { name, text } => {
            format!("const {} = {}\n", plain(name), quoted(text))
        }
        Definition::ByteOrder { text } => format!("order {}\n", quoted(text)),
        Definition::Macro { name, params, body } => {
            let params: Vec<String> = params.iter().map(|param| plain(param)).collect();
            let head = format!("macro {}!({})", plain(name), params.join(", "));
            format!("{head} = {}\n", combinator(body, 0))
        }
    }
}

fn combinator(combinator: &Combinator, indent: usize) -> String {
    let own = inner(&combinator.inner, indent);
    match &combinator.chain {
        None => own,
        Some(chain) => format!("{own} >>= {}", self::combinator(chain, indent)),
    }
}

fn inner(inner: &Inner, indent: usize) -> String {
    match inner {
        Inner::Leaf(leaf, text) => format!("{}{}", word(*leaf), trailing(text)),
        Inner::Struct(fields) => {
            let lines = fields.iter().map(|one| field(one, indent + 1)).collect();
            format!("struct {}", block(lines, indent))
        }
        Inner::Wrap(prior, child, post) => format!(
            "wrap({}, {}, {})",
            quoted(prior),
            combinator(child, indent),
            quoted(post)
        ),
        Inner::Choice(selector, cases) => {
            let selector = selector
                .as_ref()
                .map_or(String::new(), |name| format!("(@{})", dotted(name)));
            format!("choose{selector} {}", self::cases(cases, indent))
        }
        Inner::Vec(child) => format!("vec<{}>", combinator(child, indent)),
        Inner::Array(length, child) => {
            format!(
                "array<{}>{}",
                combinator(child, indent),
                self::length(length)
            )
        }
        Inner::Bytes(length) => format!("bytes{}", self::length(length)),
        Inner::Option(child) => format!("option<{}>", combinator(child, indent)),
        Inner::Invocation(name, args) => {
            let args: Vec<String> = args.iter().map(|arg| format!("@{}", dotted(arg))).collect();
            match args.is_empty() {
                true => plain(name),
                false => format!("{}({})", plain(name), args.join(", ")),
            }
        }
        Inner::MacroInvocation(name, args) => {
            let args: Vec<String> = args.iter().map(|arg| self::inner(arg, indent)).collect();
            format!("{}!({})", plain(name), args.join(", "))
        }
    }
}

fn word(leaf: Leaf) -> &'static str {
    match leaf {
        Leaf::ConstraintInt => "int",
        Leaf::ConstraintEnum => "variant",
        Leaf::Bits => "bits",
        Leaf::Enum => "enum",
        Leaf::Tail => "tail",
        Leaf::Nothing => "nothing",
        Leaf::Never => "never",
    }
}

fn field(field: &Field, indent: usize) -> String {
    match field {
        Field::Ordinary(label, c) => format!("{}: {}", plain(label), combinator(c, indent)),
        Field::Dependent(label, c) => format!("@{}: {}", plain(label), combinator(c, indent)),
        Field::Const(label, text) => format!("const {} = {}", plain(label), quoted(text)),
    }
}

fn cases(cases: &Cases, indent: usize) -> String {
    let texts = |cases: &[(Text, Combinator)]| {
        let case = |(text, c): &(Text, Combinator)| {
            format!("{} => {}", quoted(text), combinator(c, indent + 1))
        };
        block(cases.iter().map(case).collect(), indent)
    };
    match cases {
        Cases::Enums(cases) => {
            let case = |(label, c): &(String, Combinator)| {
                format!("{} => {}", plain(label), combinator(c, indent + 1))
            };
            format!("enums {}", block(cases.iter().map(case).collect(), indent))
        }
        Cases::Ints(cases) => format!("ints {}", texts(cases)),
        Cases::Arrays(cases) => format!("arrays {}", texts(cases)),
    }
}

/// One item a line, each with its comma.
fn block(items: Vec<String>, indent: usize) -> String {
    if items.is_empty() {
        return "{}".to_string();
    }
    let margin = "  ".repeat(indent + 1);
    let lines: String = items
        .iter()
        .map(|item| format!("{margin}{item},\n"))
        .collect();
    format!("{{\n{lines}{}}}", "  ".repeat(indent))
}

fn length(length: &Length) -> String {
    let roots: Vec<String> = length
        .roots
        .iter()
        .map(|root| format!("@{}", plain(root)))
        .collect();
    let roots = roots.join(", ");
    match roots.is_empty() || length.text.is_empty() {
        true if length.text.is_empty() => format!("[{roots}]"),
        true => format!("[{}]", quoted(&length.text)),
        false => format!("[{roots} {}]", quoted(&length.text)),
    }
}

fn trailing(text: &[u8]) -> String {
    match text.is_empty() {
        true => String::new(),
        false => format!(" {}", quoted(text)),
    }
}

fn quoted(text: &[u8]) -> String {
    let escaped: String = text.iter().map(|byte| escaped_byte(*byte)).collect();
    format!("\"{escaped}\"")
}

fn escaped_byte(byte: u8) -> String {
    match byte {
        b'"' => "\\\"".to_string(),
        b'\\' => "\\\\".to_string(),
        32..=126 => (byte as char).to_string(),
        _ => format!("\\x{byte:02x}"),
    }
}

fn plain(name: &str) -> String {
    match is_bare(name) && !KEYWORDS.contains(&name) {
        true => name.to_string(),
        false => backticked(name),
    }
}

fn dotted(name: &str) -> String {
    match name.split('.').all(is_bare) && !KEYWORDS.contains(&name) {
        true => name.to_string(),
        false => backticked(name),
    }
}

fn backticked(name: &str) -> String {
    let escaped: String = name
        .chars()
        .map(|c| match c {
            '`' => "\\`".to_string(),
            '\\' => "\\\\".to_string(),
            c if c.is_control() => format!("\\u{{{:x}}}", c as u32),
            c => c.to_string(),
        })
        .collect();
    format!("`{escaped}`")
}
