//! Books as text, both ways, in a small Vest-like notation. oracle/README.md
//! shows it whole.

mod lex;
mod parse;
mod print;

pub use parse::parse;
pub use print::print;

/// Words with a meaning of their own. A name that is one is written `so`.
const KEYWORDS: [&str; 21] = [
    "format", "const", "order", "macro", "struct", "wrap", "choose", "enums", "ints", "arrays",
    "vec", "array", "bytes", "option", "int", "variant", "bits", "enum", "tail", "nothing",
    "never",
];

fn is_bare(name: &str) -> bool {
    let mut characters = name.chars();
    let first = characters.next();
    first.is_some_and(|c| c.is_ascii_alphabetic() || c == '_')
        && characters.all(|c| c.is_ascii_alphanumeric() || c == '_')
}
