//! The calls of the archive, through the program that makes them (`compare/harness.c` of the repository), held against
//! the driver, or timed. The scripts beside that program build all of it.

use compare::callee::{Call, Harness};
use compare::run::run;
use compare::stack::stack;
use compare::times::times;
use std::process::ExitCode;

/// Deep books recurse: the work is done on a stack that is never short.
const STACK_BYTES: usize = 256 << 20;

const USAGE: &str = "\
compare answers [--only elaborate|nested|premise] COUNT SEED PROGRAM WORDS..
compare stack [--only elaborate|nested|premise] COUNT SEED PROGRAM WORDS..
compare times PROGRAM WORDS..";

fn main() -> ExitCode {
    let words: Vec<String> = std::env::args().skip(1).collect();
    let worker = std::thread::Builder::new()
        .stack_size(STACK_BYTES)
        .spawn(move || compared(words));
    let outcome = match worker.map(|worker| worker.join()) {
        Ok(Ok(outcome)) => outcome,
        Ok(Err(_)) => Err("the driver panicked: this is a fault of the oracle".to_string()),
        Err(error) => Err(format!("no thread to work on: {error}")),
    };
    match outcome {
        Ok(tables) => {
            print!("{tables}");
            ExitCode::SUCCESS
        }
        Err(message) => {
            eprintln!("compare: {message}");
            ExitCode::FAILURE
        }
    }
}

fn compared(words: Vec<String>) -> Result<String, String> {
    let words: Vec<&str> = words.iter().map(String::as_str).collect();
    let (calls, rest) = match words.get(1..) {
        Some(["--only", word, rest @ ..]) => match Call::of_word(word) {
            Some(call) => (vec![call], rest),
            None => return Err(format!("`{word}` is no call\n{USAGE}")),
        },
        Some(rest) => (Call::ALL.to_vec(), rest),
        None => return Err(USAGE.to_string()),
    };
    match (words[0], rest) {
        ("answers", [count, seed, program, words @ ..]) => {
            let mut say = |line: &str| eprintln!("{line}");
            let (count, seed) = (number(count)?, number(seed)?);
            run(&mut harness(program, words)?, &calls, seed, count, &mut say)
        }
        ("stack", [count, seed, program, words @ ..]) => {
            let (count, seed) = (number(count)?, number(seed)?);
            stack(&mut harness(program, words)?, &calls, seed, count)
        }
        ("times", [program, words @ ..]) => times(&mut harness(program, words)?),
        _ => Err(USAGE.to_string()),
    }
}

fn number(word: &str) -> Result<u64, String> {
    word.parse()
        .map_err(|_| format!("`{word}` is no number\n{USAGE}"))
}

fn harness(program: &str, words: &[&str]) -> Result<Harness, String> {
    let words = std::iter::once(&program).chain(words);
    Harness::new(words.map(|word| word.to_string()).collect())
}
