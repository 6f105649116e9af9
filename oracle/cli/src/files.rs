//! What is made into files: the recorded list with the page beside it, and the
//! books and listings of the examples.

use driver::answer::answer;
use driver::expand::Mode;
use driver::listing::listing;
use driver::notation;
use driver::record::{record as make, List};
use driver::write::write;
use std::fs;
use std::path::{Path, PathBuf};

pub fn record(seed: u64, count: u64, books: &str, directory: &str) -> Result<(), String> {
    let count = usize::try_from(count)
        .ok()
        .filter(|count| *count <= 100_000)
        .ok_or_else(|| format!("{count} cases: at most 100000, please"))?;
    let names = with_ending(Path::new(books), "book")?;
    let contents = names
        .iter()
        .map(|path| fs::read(path).map_err(|error| format!("{}: {error}", path.display())))
        .collect::<Result<_, _>>()?;
    let list = make(seed, count, contents)?;
    let directory = Path::new(directory);
    for (number, bytes) in list.files.iter().enumerate() {
        save(&directory.join(format!("cases-{number}.bin")), bytes)?;
    }
    save(
        &directory.join("README.md"),
        page(seed, count, &list).as_bytes(),
    )
}

/// Writes NAME.book beside each NAME.layout, and its listing in each mode under
/// an ending of its own.
pub fn examples(directory: &str, listings: &[(Mode, &str)]) -> Result<(), String> {
    for path in with_ending(Path::new(directory), "layout")? {
        let shown = path.display();
        let fault = |error: String| format!("{shown}: {error}");
        let text = fs::read_to_string(&path).map_err(|error| fault(error.to_string()))?;
        let book = notation::parse(&text)
            .and_then(|book| write(&book))
            .map_err(fault)?;
        save(&path.with_extension("book"), &book)?;
        for (mode, ending) in listings {
            let listed = answer(&book, *mode)
                .and_then(|answer| listing(&answer))
                .map_err(fault)?;
            save(&path.with_extension(ending), listed.as_bytes())?;
        }
    }
    Ok(())
}

/// The files of a directory that end so, by name.
fn with_ending(directory: &Path, wanted: &str) -> Result<Vec<PathBuf>, String> {
    let shown = directory.display();
    let entries = fs::read_dir(directory).map_err(|error| format!("{shown}: {error}"))?;
    let mut names = Vec::new();
    for entry in entries {
        let path = entry.map_err(|error| format!("{shown}: {error}"))?.path();
        if path.extension().is_some_and(|ending| ending == wanted) {
            names.push(path);
        }
    }
    names.sort();
    match names.is_empty() {
        true => Err(format!("{shown}: no file ends in .{wanted}")),
        false => Ok(names),
    }
}

fn save(path: &Path, bytes: &[u8]) -> Result<(), String> {
    fs::write(path, bytes).map_err(|error| format!("{}: {error}", path.display()))
}

fn page(seed: u64, count: usize, list: &List) -> String {
    let codes: Vec<String> = list
        .codes
        .iter()
        .map(|(code, cases)| format!("| {code} | {cases} |"))
        .collect();
    let files: Vec<String> = list
        .files
        .iter()
        .enumerate()
        .map(|(number, file)| format!("| cases-{number}.bin | {} |", file.len()))
        .collect();
    format!(
        include_str!("list.md"),
        cases = list.cases,
        seed = seed,
        count = count,
        codes = codes.join("\n"),
        files = files.join("\n"),
    )
}
