//! The recorded list is what the command on its page makes, and its records
//! say what the oracle answers.

use driver::answer::{answer, premise, Answer, Premise};
use driver::expand::Mode;
use std::collections::BTreeMap;
use std::fs;
use std::path::PathBuf;
use std::process::Command;

const SEED: &str = "3";
const COUNT: &str = "5000";

fn repository() -> PathBuf {
    PathBuf::from(env!("CARGO_MANIFEST_DIR")).join("../..")
}

/// Names and bytes of all files of a directory.
fn files(directory: PathBuf) -> BTreeMap<String, Vec<u8>> {
    fs::read_dir(directory)
        .expect("a directory")
        .map(|entry| entry.expect("an entry").path())
        .map(|path| {
            let name = path
                .file_name()
                .expect("a name")
                .to_string_lossy()
                .into_owned();
            (name, fs::read(path).expect("a file"))
        })
        .collect()
}

#[test]
fn the_command_makes_the_list_again() {
    let made = PathBuf::from(env!("CARGO_TARGET_TMPDIR")).join("recorded");
    let _ = fs::remove_dir_all(&made);
    fs::create_dir_all(&made).expect("a directory");
    let status = Command::new(env!("CARGO_BIN_EXE_oracle"))
        .args(["record", SEED, COUNT])
        .arg(repository().join("examples"))
        .arg(&made)
        .status()
        .expect("the oracle runs");
    assert!(status.success());
    let recorded = files(repository().join("crates/replay/data"));
    let made = files(made);
    let names = |files: &BTreeMap<String, Vec<u8>>| files.keys().cloned().collect::<Vec<_>>();
    assert_eq!(names(&made), names(&recorded));
    for (name, bytes) in &made {
        assert!(recorded[name] == *bytes, "{name} differs");
    }
    let bytes: usize = recorded.values().map(Vec::len).sum();
    assert!(bytes < 1_500_000, "{bytes} bytes");
}

/// A reader of the format that shares no code with its writer.
struct Records<'b>(&'b [u8]);

impl<'b> Records<'b> {
    fn bytes(&mut self, count: usize) -> &'b [u8] {
        let (taken, rest) = self.0.split_at(count);
        self.0 = rest;
        taken
    }

    fn number(&mut self, bytes: usize) -> usize {
        let taken = self.bytes(bytes).iter().rev();
        taken.fold(0, |number, byte| number * 256 + *byte as usize)
    }

    fn book(&mut self, book: &'b [u8], result: &'b [u8]) -> &'b [u8] {
        let within = self.number(1);
        let length = self.number(4);
        let found = match within {
            0 => self.bytes(length),
            1 => book,
            2 => result,
            other => panic!("in {other}"),
        };
        assert_eq!(found.len(), length);
        found
    }
}

#[test]
fn records_say_what_the_oracle_answers() {
    let mut codes: BTreeMap<usize, usize> = BTreeMap::new();
    for (name, bytes) in files(repository().join("crates/replay/data")) {
        if !name.ends_with(".bin") {
            continue;
        }
        assert!(bytes.len() <= 400_000, "{name}");
        let mut records = Records(&bytes);
        for _ in 0..records.number(2) {
            let length = records.number(2);
            let book = records.bytes(length);
            let (code, definitions, lifted) =
                (records.number(1), records.number(2), records.number(2));
            let at = records.number(2);
            let result = records.book(book, &[]);
            let (premise_code, yes) = (records.number(1), records.number(1));
            let expanded = records.book(book, result);
            *codes.entry(code).or_default() += 1;
            match answer(book, Mode::Plain).expect("both readings agree") {
                Answer::Done(done) => {
                    assert_eq!((code, at), (0, 0));
                    assert_eq!((definitions, lifted), (done.definitions, done.lifted));
                    assert_eq!(result, done.book);
                }
                Answer::Refused(refusal) => {
                    assert_eq!((code, at), (refusal.code as usize, refusal.at));
                    assert_eq!((definitions, lifted, result.len()), (0, 0, 0));
                }
            }
            match premise(book, Mode::Plain).expect("both readings agree") {
                Premise::Holds {
                    yes: found,
                    expanded: list,
                } => {
                    assert_eq!((premise_code, yes), (0, usize::from(found)));
                    assert_eq!(at, 0);
                    assert_eq!(expanded, list);
                }
                Premise::Refused(refusal) => {
                    assert_eq!((premise_code, yes), (refusal.code as usize, 0));
                    assert_eq!(at, refusal.at);
                    assert_eq!(expanded.len(), 0);
                }
            }
        }
        assert!(records.0.is_empty(), "{name}: bytes behind the last record");
    }
    assert!(codes.values().sum::<usize>() >= 4000);
    let wanted = [0, 2, 3, 4, 5, 6, 7, 8, 9, 10];
    assert!(
        wanted.iter().all(|code| codes.contains_key(code)),
        "{codes:?}"
    );
}
