//! Names and explanations of the codes, and how an error prints.

use samulsto::{Error, Refusal};
use std::collections::HashSet;

#[test]
fn codes_are_1_to_12() {
    let codes: Vec<u8> = Refusal::ALL.iter().map(|refusal| refusal.code()).collect();
    assert_eq!(codes, (1..=12).collect::<Vec<u8>>());
}

#[test]
fn each_has_its_own_words() {
    let names: HashSet<_> = Refusal::ALL.iter().map(|refusal| refusal.name()).collect();
    let texts: HashSet<_> = Refusal::ALL
        .iter()
        .map(|refusal| refusal.explanation())
        .collect();
    assert_eq!((names.len(), texts.len()), (12, 12));
}

#[test]
fn an_error_prints_as_one_line_with_its_byte() {
    for refusal in Refusal::ALL {
        for (at, begins) in [(None, " ("), (Some(0), " at byte 0 (")] {
            let line = Error { refusal, at }.to_string();
            let begins = format!("refused {}{begins}", refusal.code());
            assert!(line.starts_with(&begins), "{line}");
            assert!(!line.contains('\n') && !line.contains("  "), "{line}");
        }
    }
}
