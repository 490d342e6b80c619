//! What is written beside the code, held to what it speaks of: quotations of document 01, the tables of docs, the edits that must fail.

use std::collections::{BTreeMap, BTreeSet};
use std::fs;
use std::path::{Path, PathBuf};

pub fn repository() -> PathBuf {
    Path::new(env!("CARGO_MANIFEST_DIR")).join("../..")
}

pub fn read(path: &Path) -> String {
    fs::read_to_string(path).unwrap_or_else(|error| panic!("{}: {error}", path.display()))
}

/// The files below a folder, in order of their paths, without those that `rt` made.
pub fn files(folder: &Path) -> Vec<PathBuf> {
    let Ok(entries) = fs::read_dir(folder) else { return Vec::new() };
    let mut paths: Vec<PathBuf> = entries.map(|entry| entry.expect("an entry").path()).collect();
    paths.retain(|path| !path.ends_with("out"));
    paths.sort();
    paths.into_iter().flat_map(|path| if path.is_dir() { files(&path) } else { vec![path] }).collect()
}

/// The names in a folder that end so, without that end.
pub fn stems(folder: &str, end: &str) -> Vec<String> {
    let paths = files(&repository().join(folder));
    let names = paths.iter().filter_map(|path| path.file_name()?.to_str()?.strip_suffix(end).map(str::to_string));
    names.collect()
}

pub fn has_extension(path: &Path, extension: &str) -> bool {
    path.extension().is_some_and(|other| other == extension)
}

/// A text on one line, its words parted by single spaces.
pub fn one_line(text: &str) -> String {
    text.split_whitespace().collect::<Vec<_>>().join(" ")
}

/// The comments of a source file, each run of comment lines as one line.
pub fn comments(source: &str) -> Vec<String> {
    let mut runs = vec![String::new()];
    for line in source.lines() {
        let line = line.trim_start();
        let comment = line.strip_prefix("--").or_else(|| line.strip_prefix("//"));
        match comment {
            Some(text) => runs.last_mut().expect("a run").push_str(&format!("{} ", text.trim_start_matches('/'))),
            None => runs.push(String::new()),
        }
    }
    runs.iter().map(|run| one_line(run)).filter(|run| !run.is_empty()).collect()
}

/// What stands between double quotes; a quote inside backticks is none.
pub fn quotations(comment: &str) -> Vec<String> {
    let plain = comment.replace("`\"`", "`\u{1}`").replace("`\\\"`", "`\\\u{1}`");
    plain.split('"').skip(1).step_by(2).map(|text| text.replace('\u{1}', "\"")).collect()
}

/// The words of a text that could be names: runs of letters, digits, `_` and `'`, and antt's other letters. A field, behind its point, is none.
pub fn names(text: &str) -> Vec<&str> {
    let inside = |c: char| c.is_alphanumeric() || matches!(c, '_' | '\'' | '.');
    let words = text.split(|c: char| !inside(c)).filter_map(|word| word.split('.').next());
    words.filter(|word| word.chars().next().is_some_and(char::is_alphabetic)).collect()
}

/// One replacement of an edit that must fail.
pub struct Replacement {
    pub file: String,
    pub old: String,
    pub new: String,
}

pub fn replacements(edit: &str) -> Vec<Replacement> {
    let (mut file, mut old, mut all) = (String::new(), String::new(), Vec::new());
    for line in edit.lines() {
        if let Some(text) = line.strip_prefix("file: ") {
            file = text.to_string();
        } else if let Some(text) = line.strip_prefix("old: ") {
            old = text.to_string();
        } else if let Some(text) = line.strip_prefix("new:") {
            let new = text.strip_prefix(' ').unwrap_or(text).to_string();
            all.push(Replacement { file: file.clone(), old: old.clone(), new });
        }
    }
    all
}

/// What a piece of Rattle asks before it goes on: the pattern of an arm, or the condition of an `if` or `while`; nothing where it asks nothing.
pub fn condition(code: &str) -> &str {
    if let Some((pattern, _)) = code.split_once("=>") {
        return pattern;
    }
    let is_word = |at: &usize| !code[..*at].ends_with(|c: char| c.is_alphanumeric() || c == '_');
    let begin = ["if ", "while "].iter().flat_map(|word| code.match_indices(word)).map(|(at, _)| at).find(is_word);
    begin.and_then(|at| code[at..].split('{').next()).unwrap_or("")
}

/// How many operations a piece of Rattle has.
pub fn operations(code: &str) -> usize {
    let operators =
        ["<<", ">>", "<=", ">=", "==", "!=", "&&", "||", "+", "-", "*", "/", "%", "&", "|", "^", "<", ">", "!"];
    let (mut rest, mut count) = (code, 0);
    while let Some(next) = rest.chars().next() {
        let operator = operators.iter().find(|operator| rest.starts_with(**operator));
        count += usize::from(operator.is_some());
        rest = &rest[operator.map_or(next.len_utf8(), |operator| operator.len())..];
    }
    count + code.matches('(').count()
}

/// A file of the definition, or of demand 3's statement.
pub fn definition(file: &str) -> PathBuf {
    let crates = repository().join("crates");
    let tried = ["definition", "renaming"].map(|name| crates.join(name).join("specs").join(format!("{file}.antt")));
    tried.iter().find(|path| path.is_file()).unwrap_or(&tried[0]).clone()
}

/// The file that a citation of docs/SCOPE.md means: `File` is a definition's, `crate` its code, `edges` the recorded streams, anything else a path.
pub fn cited_file(path: &str) -> Option<PathBuf> {
    let top = repository();
    let short = !path.contains(['/', '.']);
    let tried = match path {
        "edges" => vec![top.join("tests/rufsm/src/edges.rs")],
        _ if short && path.starts_with(char::is_uppercase) => vec![definition(path)],
        _ if short => vec![top.join(format!("crates/{path}/src/lib.rt")), top.join(path)],
        _ => vec![top.join(path), top.join("crates").join(path), top.join(format!("{path}.events"))],
    };
    tried.into_iter().find(|file| file.is_file())
}

/// Whether a file has a definition, a function, a test, a stream or an entry of this name.
pub fn defines(file: &Path, name: &str) -> bool {
    let text = read(file);
    let begins = |line: &str, heads: &[&str]| {
        heads.iter().any(|head| {
            let rest = line.trim_start().strip_prefix(head).and_then(|rest| rest.strip_prefix(name));
            rest.is_some_and(|rest| !rest.starts_with(|c: char| c.is_alphanumeric() || matches!(c, '_' | '-' | '\'')))
        })
    };
    let antt = ["", "pub ", "unfoldable ", "unfoldable pub ", "abbrev ", "abbrev pub ", "pub record ", "pub data "];
    let rattle = ["fn ", "pub fn ", "pub extern \"C\" fn ", "const ", "pub const ", "pub struct ", "pub enum "];
    let rust = ["fn ", "pub fn ", "pub(crate) fn ", "static void ", "static int "];
    let (entry, text) = (file.file_name().and_then(|name| name.to_str()), text.as_str());
    text.lines().any(|line| match file.extension().and_then(|extension| extension.to_str()) {
        Some("antt") => begins(line, &antt),
        Some("rt") => begins(line, &rattle),
        Some("rs") if file.ends_with("rufsm/src/edges.rs") => line.contains(&format!("\"{name}\"")),
        Some("rs" | "c") => begins(line, &rust),
        _ if entry == Some("DECISIONS.md") => line.starts_with(&format!("{name}. **")),
        _ if entry == Some("DIFFERENCES.md") => {
            ["**", "| ", "- "].iter().any(|head| line.starts_with(&format!("{head}{name}")))
        }
        _ => line.starts_with(&format!("{name}()")),
    })
}

/// What a line of docs/SCOPE.md cites: of a table's row what follows the sentence. Words in capitals stand for something.
pub fn citations(line: &str) -> Vec<&str> {
    let cited = match line.strip_prefix("| ") {
        Some(row) => row.split_once(" | ").map_or("", |(_, cited)| cited),
        None => line,
    };
    let words = cited.split('`').skip(1).step_by(2);
    words.filter(|word| word.contains(": ") || word.contains('/')).filter(|word| !is_example(word)).collect()
}

fn is_example(word: &str) -> bool {
    let patterns = ["NAME", "CRATE", "File: name", "crate: name", "edges: name"];
    word.starts_with("..") || patterns.iter().any(|pattern| word.contains(pattern))
}

/// The lines of crates.txt: a crate and those that it depends on. Between its name and the colon may stand what kind it is.
pub fn listed_crates() -> BTreeMap<String, BTreeSet<String>> {
    let text = read(&repository().join("crates.txt"));
    let lines = text.lines().filter(|line| !line.starts_with('#')).filter_map(|line| line.split_once(':'));
    let words = |text: &str| text.split_whitespace().map(str::to_string).collect::<Vec<_>>();
    lines.map(|(head, others)| (words(head).swap_remove(0), words(others).into_iter().collect())).collect()
}

/// The crates among `known` that a crate's files name: `Rattle.NAME` in statements and proofs, `NAME::` in code.
pub fn named_crates(name: &str, known: &BTreeSet<String>) -> BTreeSet<String> {
    let folder = repository().join("crates").join(name);
    let sources = ["src", "specs", "proofs"].iter().flat_map(|part| files(&folder.join(part)));
    let text: String = sources.map(|path| read(&path)).collect();
    let is_named =
        |other: &str| ["Rattle.NAME.", " NAME::"].iter().any(|form| text.contains(&form.replace("NAME", other)));
    known.iter().filter(|other| *other != name && is_named(other)).cloned().collect()
}
