//! Takes the contracts off the Rattle sources, so that rustc can compile what is left. What is compiled so is not the proved program: it is
//! the same text, to compare and to measure natively where the proved archive, which is for x86-64, can't be linked.

use std::path::{Path, PathBuf};
use std::{env, fs};

fn main() {
    let root = Path::new(&env::var("CARGO_MANIFEST_DIR").unwrap()).join("../..");
    let list = read(&root.join("crates.txt"));
    // libraries with code; `elab` is the last one that has what is called from outside
    let mut names: Vec<&str> = Vec::new();
    for line in list.lines().filter(|line| !line.starts_with('#')) {
        let head = line.split(':').next().unwrap_or("");
        let name = head.split_whitespace().next().unwrap_or("");
        let source = source(&root, name);
        if fs::metadata(&source).is_ok_and(|file| file.len() > 0) {
            names.push(name);
        }
    }
    let mut text = String::new();
    for name in &names {
        let body = rust(&source(&root, name), name, &names);
        text += &format!("pub mod {name} {{\n{body}}}\n");
    }
    let out = Path::new(&env::var("OUT_DIR").unwrap()).join("port.rs");
    fs::write(out, text).unwrap();
}

fn source(root: &Path, name: &str) -> PathBuf {
    root.join("crates").join(name).join("src/lib.rt")
}

fn read(path: &Path) -> String {
    println!("cargo:rerun-if-changed={}", path.display());
    fs::read_to_string(path).unwrap_or_else(|e| panic!("{} can't be read: {e}", path.display()))
}

/// A file of crate `name` without ghost lines, contracts and words to the prover, its modules inside it, the crates as modules beside each other.
fn rust(path: &Path, name: &str, crates: &[&str]) -> String {
    let rattle = read(path);
    let modules: Vec<&str> = rattle.lines().filter_map(module).collect();
    let mut text = String::new();
    let mut depth = 0;
    for line in rattle.lines() {
        let word = line.trim_start();
        if depth > 0 || is_clause(word) || is_ghost(word) {
            depth += braces(line);
            continue;
        }
        let to_prover = [
            "ghost use ",
            "#![tactic(",
            "#[tactic(",
            "#[cycle(",
            "#[unsafe(no_mangle)]",
            "#[derive(Drop)]",
        ];
        if to_prover.iter().any(|it| word.starts_with(it)) {
            continue;
        }
        if let Some(inside) = module(line) {
            let file = folder(path).join(format!("{inside}.rt"));
            text += &format!("pub mod {inside} {{\n{}}}\n", rust(&file, name, crates));
            continue;
        }
        // Rattle drops a value, and Rust what a reference points to
        let line = line.replace("fn drop(self)", "fn drop(&mut self)");
        text += &paths(&line, name, crates, &modules);
        text += "\n";
    }
    text
}

/// Where the modules of a file are: beside lib.rt, and in a folder of its name for any other file.
fn folder(path: &Path) -> PathBuf {
    match path.file_name() {
        Some(name) if name == "lib.rt" => path.with_file_name(""),
        _ => path.with_extension(""),
    }
}

/// Whether a line begins a clause, with a name or without one.
fn is_clause(word: &str) -> bool {
    let kind = word
        .strip_prefix("requires ")
        .or(word.strip_prefix("ensures "));
    kind.is_some_and(|rest| {
        let name = rest.split('{').next().unwrap_or("").trim();
        rest.contains('{') && name.chars().all(|c| c.is_alphanumeric() || c == '_')
    })
}

/// Whether a line begins a ghost member of an impl or a ghost field: `ghost name = {` or `ghost name: {`.
fn is_ghost(word: &str) -> bool {
    word.starts_with("ghost ") && word.contains('{')
}

/// The name in a line `mod name;`.
fn module(line: &str) -> Option<&str> {
    without_pub(line.trim_start())
        .strip_prefix("mod ")?
        .strip_suffix(';')
}

fn without_pub(word: &str) -> &str {
    let public = word.strip_prefix("pub ");
    public.or(word.strip_prefix("pub(crate) ")).unwrap_or(word)
}

/// Paths from a Rattle crate as paths from this one. A module of the file itself hides a crate of its name.
fn paths(line: &str, name: &str, crates: &[&str], modules: &[&str]) -> String {
    if line.starts_with("use std::") {
        return line.to_string();
    }
    if let Some(used) = line.strip_prefix("use ") {
        let used = used
            .strip_prefix("crate::")
            .map_or(used.to_string(), |own| format!("{name}::{own}"));
        return format!("use crate::{used}");
    }
    let mut text = line.replace("crate::", &format!("crate::{name}::"));
    for other in crates.iter().filter(|other| !modules.contains(other)) {
        let call = format!("{other}::");
        let mut from = 0;
        while let Some(at) = text[from..].find(&call).map(|at| at + from) {
            let before = text[..at].chars().next_back();
            let alone = before.is_none_or(|c| !c.is_alphanumeric() && c != '_' && c != ':');
            from = at + call.len();
            if alone {
                text.insert_str(at, "crate::");
                from += "crate::".len();
            }
        }
    }
    text
}

/// How many braces a line leaves open.
fn braces(line: &str) -> i32 {
    line.chars().fold(0, |n, c| match c {
        '{' => n + 1,
        '}' => n - 1,
        _ => n,
    })
}
