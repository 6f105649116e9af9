//! The subcommands. Each answers `Err` with one clear line.

use crate::{files, judges};
use driver::answer::{answer, premise, Answer, Internal};
use driver::cases::{self, short, sweep};
use driver::expand::Mode;
use driver::passes::{passes, End};
use driver::{bench, notation, read, stream, write};
use std::collections::BTreeMap;
use std::fmt::Debug;
use std::io::{self, BufReader, BufWriter, Read, Write};

type Outcome = Result<(), String>;

const USAGE: &str = "\
oracle answer [--nested]    case stream in, answers out
oracle premise [--nested]   case stream in, premise answers and expanded books out
oracle cases [--nested] SEED COUNT
                            case stream out; --nested: macros that call macros
oracle short                case stream out: everything short
oracle sweep                book in, case stream out: all its small damages
oracle tally [--nested] SEED COUNT
                            codes by kind of generated case
oracle book write           text in, book out
oracle book read            book in, text out
oracle elaborate [--nested] book in, result out
oracle listing [--nested]   book in, listing out
oracle bench N              case stream in, times out: best and mean of N repetitions
oracle record SEED COUNT BOOKS DIRECTORY
                            the recorded list: the books of one directory, the worked
                            ones and generated ones, COUNT in all, into another
oracle examples [--nested] DIRECTORY
                            NAME.book and NAME.listing beside each NAME.layout, and
                            NAME.nested, the listing in nested mode
oracle judges               whose word each code is
";

pub fn run(arguments: &[String]) -> Outcome {
    let words: Vec<&str> = arguments.iter().map(String::as_str).collect();
    match words.as_slice() {
        ["answer"] => answers(Mode::Plain),
        ["answer", "--nested"] => answers(Mode::Nested),
        ["premise"] => premises(Mode::Plain),
        ["premise", "--nested"] => premises(Mode::Nested),
        ["cases", seed, count] => generated(number(seed)?, number(count)?),
        ["cases", "--nested", seed, count] => nested(number(seed)?, number(count)?),
        ["short"] => everything_short(),
        ["sweep"] => sweep(),
        ["tally", seed, count] => tally(number(seed)?, number(count)?),
        ["tally", "--nested", seed, count] => tally_nested(number(seed)?, number(count)?),
        ["book", "write"] => book_write(),
        ["book", "read"] => book_read(),
        ["elaborate"] => elaborate(Mode::Plain),
        ["elaborate", "--nested"] => elaborate(Mode::Nested),
        ["listing"] => listing(Mode::Plain),
        ["listing", "--nested"] => listing(Mode::Nested),
        ["bench", repetitions] => bench(number(repetitions)?),
        ["record", seed, count, books, directory] => {
            files::record(number(seed)?, number(count)?, books, directory)
        }
        ["examples", directory] => files::examples(directory, &[(Mode::Plain, "listing")]),
        ["examples", "--nested", directory] => files::examples(
            directory,
            &[(Mode::Plain, "listing"), (Mode::Nested, "nested")],
        ),
        ["judges"] => print(judges::JUDGES),
        ["help" | "--help" | "-h"] => print(USAGE),
        [] => Err("no subcommand; `oracle help` names them".to_string()),
        [other, ..] => Err(format!(
            "`{other}` with {} more words is no subcommand; `oracle help` names them",
            words.len() - 1
        )),
    }
}

fn number(word: &str) -> Result<u64, String> {
    word.parse()
        .map_err(|_| format!("`{word}` is no number from 0 to 18446744073709551615"))
}

fn failed(error: io::Error) -> String {
    format!("writing failed: {error}")
}

fn print(text: &str) -> Outcome {
    put(text.as_bytes())
}

fn put(bytes: &[u8]) -> Outcome {
    let mut out = io::stdout().lock();
    out.write_all(bytes).map_err(failed)?;
    out.flush().map_err(failed)
}

fn stdin_whole() -> Result<Vec<u8>, String> {
    let mut bytes = Vec::new();
    io::stdin()
        .lock()
        .read_to_end(&mut bytes)
        .map_err(|error| format!("reading failed: {error}"))?;
    Ok(bytes)
}

/// Runs over a case stream; an error names its case.
fn over_cases(
    mut each: impl FnMut(&mut BufWriter<io::StdoutLock>, &[u8]) -> Result<io::Result<()>, Internal>,
) -> Outcome {
    let mut input = BufReader::new(io::stdin().lock());
    let mut out = BufWriter::new(io::stdout().lock());
    for case in 0u64.. {
        let book =
            stream::read_case(&mut input).map_err(|error| format!("case {case}: {error}"))?;
        let Some(book) = book else { break };
        each(&mut out, &book)
            .map_err(|error| disagreement(case, &book, &error))?
            .map_err(failed)?;
    }
    out.flush().map_err(failed)
}

/// The loudest line there is: the two readings do not agree.
fn disagreement(case: u64, book: &[u8], error: &str) -> String {
    let hex: String = book
        .iter()
        .take(400)
        .map(|byte| format!("{byte:02x}"))
        .collect();
    format!(
        "DISAGREEMENT in case {case}: {error}; the book has {} bytes: {hex}",
        book.len()
    )
}

fn answers(mode: Mode) -> Outcome {
    over_cases(|out, book| Ok(stream::write_answer(out, &answer(book, mode)?)))
}

fn premises(mode: Mode) -> Outcome {
    over_cases(|out, book| Ok(stream::write_premise(out, &premise(book, mode)?)))
}

fn generated(seed: u64, count: u64) -> Outcome {
    stream_out((0..count).map(|number| cases::case(seed, number).bytes))
}

fn nested(seed: u64, count: u64) -> Outcome {
    stream_out((0..count).map(|number| cases::nested_case(seed, number).bytes))
}

fn everything_short() -> Outcome {
    stream_out(short::strings().chain(short::books()))
}

fn sweep() -> Outcome {
    stream_out(sweep::sweep(&stdin_whole()?))
}

fn stream_out(books: impl Iterator<Item = Vec<u8>>) -> Outcome {
    let mut out = BufWriter::new(io::stdout().lock());
    for book in books {
        stream::write_case(&mut out, &book).map_err(failed)?;
    }
    out.flush().map_err(failed)
}

fn tally(seed: u64, count: u64) -> Outcome {
    let case = |number| cases::case(seed, number);
    let cases = (0..count).map(case).map(|case| (case.kind, case.bytes));
    print(&tallied(cases, Mode::Plain)?)
}

/// Of the cases for the nested mode: how many end with each pass, too.
fn tally_nested(seed: u64, count: u64) -> Outcome {
    let case = |number| cases::nested_case(seed, number);
    let cases = (0..count).map(case).map(|case| (case.kind, case.bytes));
    let mut ends: BTreeMap<(usize, End), u64> = BTreeMap::new();
    for number in 0..count {
        if let Some(end) = passes(&case(number).bytes)? {
            *ends.entry(end).or_default() += 1;
        }
    }
    let mut text = tallied(cases, Mode::Nested)?;
    for ((pass, end), count) in ends {
        text.push_str(&format!("pass {pass} {end:?}:{count}\n"));
    }
    print(&text)
}

/// Codes of all cases, then by kind.
fn tallied<K: Ord + Debug>(
    cases: impl Iterator<Item = (K, Vec<u8>)>,
    mode: Mode,
) -> Result<String, String> {
    let mut codes: BTreeMap<u8, u64> = BTreeMap::new();
    let mut kinds: BTreeMap<K, BTreeMap<u8, u64>> = BTreeMap::new();
    for (number, (kind, bytes)) in (0..).zip(cases) {
        let code = answer(&bytes, mode)
            .map_err(|error| disagreement(number, &bytes, &error))?
            .code();
        *codes.entry(code).or_default() += 1;
        *kinds.entry(kind).or_default().entry(code).or_default() += 1;
    }
    let mut text = format!("all {}\n", counts(&codes));
    for (kind, codes) in kinds {
        text.push_str(&format!("{kind:?} {}\n", counts(&codes)));
    }
    Ok(text)
}

fn counts(codes: &BTreeMap<u8, u64>) -> String {
    let parts: Vec<String> = codes
        .iter()
        .map(|(code, count)| format!("{code}:{count}"))
        .collect();
    parts.join(" ")
}

fn listing(mode: Mode) -> Outcome {
    print(&driver::listing::listing(&one_answer(mode)?)?)
}

fn elaborate(mode: Mode) -> Outcome {
    match one_answer(mode)? {
        Answer::Done(done) => put(&done.book),
        Answer::Refused(refusal) => Err(refusal.to_string()),
    }
}

/// The answer to the one book on standard input.
fn one_answer(mode: Mode) -> Result<Answer, String> {
    let book = stdin_whole()?;
    answer(&book, mode).map_err(|error| disagreement(0, &book, &error))
}

fn book_write() -> Outcome {
    let text =
        String::from_utf8(stdin_whole()?).map_err(|_| "the text is not UTF-8".to_string())?;
    put(&write::write(&notation::parse(&text)?)?)
}

fn book_read() -> Outcome {
    let book = read::read(&stdin_whole()?).map_err(|refusal| refusal.to_string())?;
    print(&notation::print(&book))
}

/// Refused books are left out: a panic is not what is to be timed.
fn bench(repetitions: u64) -> Outcome {
    let repetitions = match u32::try_from(repetitions) {
        Ok(repetitions) if repetitions > 0 => repetitions,
        _ => {
            return Err(format!(
                "{repetitions} repetitions: from 1 to 4294967295, please"
            ))
        }
    };
    let mut input = BufReader::new(io::stdin().lock());
    let (mut books, mut cases) = (Vec::new(), 0u64);
    while let Some(book) =
        stream::read_case(&mut input).map_err(|error| format!("case {cases}: {error}"))?
    {
        let answer = answer(&book, Mode::Plain).map_err(|e| disagreement(cases, &book, &e))?;
        cases += 1;
        if answer.code() == 0 {
            books.push(book);
        }
    }
    if books.is_empty() {
        return Err(format!("none of {cases} books is accepted"));
    }
    let bytes: usize = books.iter().map(Vec::len).sum();
    let whole = bench::whole(&books, repetitions);
    let alone = bench::elaborate_alone(&books, repetitions);
    print(&format!(
        "{} of {cases} books accepted, {} bytes each in the mean, {repetitions} repetitions\n\
         decode, elaborate, encode: best {} ns, mean {} ns a book\n\
         elaborate alone: best {} ns, mean {} ns a book\n",
        books.len(),
        bytes / books.len(),
        whole.best,
        whole.mean,
        alone.best,
        alone.mean,
    ))
}
