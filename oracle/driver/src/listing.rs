//! What document 01's program `listing` prints, with the places of document 02 a.

use crate::answer::Answer;
use crate::read::read;
use crate::tree::Definition;

/// The listing of an answer, every line with its newline. A result that is no
/// book is an internal error.
pub fn listing(answer: &Answer) -> Result<String, String> {
    let done = match answer {
        Answer::Refused(refusal) => return Ok(format!("{refusal}\n")),
        Answer::Done(done) => done,
    };
    let book = read(&done.book).map_err(|refusal| format!("the result is {refusal}"))?;
    let mut text = format!("ok {} {}\n", done.definitions, done.lifted);
    let first_lifted = book.definitions.len() - done.lifted;
    for (number, definition) in book.definitions.iter().enumerate() {
        text.push_str(&line(definition, number >= first_lifted));
        text.push('\n');
    }
    Ok(text)
}

fn line(definition: &Definition, lifted: bool) -> String {
    match definition {
        Definition::Format { name, params, .. } => {
            let word = if lifted { "lifted" } else { "format" };
            format!("{word} {} {}", printed(name), params.len())
        }
        Definition::Constant { name, .. } => format!("const {}", printed(name)),
        Definition::ByteOrder { .. } => "order".to_string(),
        Definition::Macro { name, .. } => format!("macro {}", printed(name)),
    }
}

/// Bytes outside 33..126 and '%' as % and two digits; "" as -, "-" as %2D.
fn printed(name: &str) -> String {
    match name {
        "" => "-".to_string(),
        "-" => "%2D".to_string(),
        _ => name.bytes().map(printed_byte).collect(),
    }
}

fn printed_byte(byte: u8) -> String {
    match byte {
        b'%' => "%25".to_string(),
        33..=126 => (byte as char).to_string(),
        _ => format!("%{byte:02X}"),
    }
}
