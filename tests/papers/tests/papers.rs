//! See the library: what is written beside the code is true of it.

use papers::*;
use std::collections::{BTreeMap, BTreeSet};
use std::path::{Path, PathBuf};

/// Document 01 on one line; where the papers are not at hand, a line that says so.
fn scope() -> Option<String> {
    let path = repository().join("../shared/01-scope.md");
    if path.exists() {
        return Some(one_line(&read(&path)).replace(" - ", " "));
    }
    println!("quotations: skipped: {} is not there", path.display());
    None
}

/// A quotation may begin with another letter case and end before the sentence does.
fn stands_in(scope: &str, quotation: &str) -> bool {
    let text = quotation.trim_end_matches(['.', ',', ';', ':', '?']).replace(" - ", " ");
    let Some(first) = text.chars().next() else { return false };
    let rest = &text[first.len_utf8()..];
    [first.to_ascii_lowercase(), first.to_ascii_uppercase()]
        .iter()
        .any(|begin| scope.contains(&format!("{begin}{rest}")))
}

#[test]
fn quotations_are_verbatim() {
    let Some(scope) = scope() else { return };
    let sources = files(&repository().join("crates"));
    let written = sources.iter().filter(|path| has_extension(path, "antt") || has_extension(path, "rt"));
    let (mut count, mut wrong) = (0, Vec::new());
    for path in written {
        for quotation in comments(&read(path)).iter().flat_map(|comment| quotations(comment)) {
            count += 1;
            if !stands_in(&scope, &quotation) {
                wrong.push(format!("{}: {quotation}", path.display()));
            }
        }
    }
    assert!(count > 50, "only {count} quotations were found");
    assert!(wrong.is_empty(), "not in document 01:\n{}", wrong.join("\n"));
}

/// `File: name`, `name` of the table 'Rule by rule'.
#[test]
fn every_rule_names_a_definition() {
    let page = read(&repository().join("docs/ARCHITECTURE.md"));
    let table = page.split("### Rule by rule").nth(1).expect("the table");
    let rows: Vec<&str> = table.lines().filter_map(|line| line.strip_prefix("| ")?.split(" | ").nth(1)).collect();
    let mut count = 0;
    for row in rows {
        let mut source = String::new();
        for word in row.split('`').skip(1).step_by(2) {
            let (file, name) = word.split_once(": ").map_or((None, word), |(file, name)| (Some(file), name));
            if let Some(file) = file {
                source = read(&definition(file));
            }
            if file.is_some() || !source.is_empty() {
                assert!(names(&source).contains(&name), "{row}: no {name}");
                count += 1;
            }
        }
    }
    assert!(count > 70, "only {count} names were found");
}

/// Each input has an entry that names it, and each entry that names one has it.
fn named_in(page: &str, folder: &str) {
    let text = read(&repository().join(page));
    let inputs = stems(folder, ".events");
    assert!(!inputs.is_empty(), "{folder} has no input");
    for input in inputs {
        assert!(text.contains(&format!("`{input}`")), "{page} does not name {folder}/{input}.events");
    }
}

#[test]
fn every_input_is_named() {
    named_in("docs/DIFFERENCES.md", "tests/differences");
    named_in("docs/DECISIONS.md", "tests/decisions");
}

#[test]
fn every_difference_has_its_input() {
    let text = read(&repository().join("docs/DIFFERENCES.md"));
    let entries: Vec<&str> = text.lines().filter(|line| line.starts_with("**A")).collect();
    let inputs = stems("tests/differences", ".events");
    assert!(entries.len() >= inputs.len());
    for entry in &entries {
        let named = entry.split('`').skip(1).step_by(2).any(|word| inputs.iter().any(|input| input == word));
        assert!(named, "{entry}: no such input");
    }
    assert_eq!(text.matches("*When the chart runs:*").count(), entries.len());
}

/// Each edit that must fail, or must not compile.
fn edit_files() -> Vec<PathBuf> {
    let all = files(&repository().join("crates"));
    let holds_edits = |folder: &Path| folder.ends_with("must-fail") || folder.ends_with("must-not-compile");
    all.into_iter().filter(|path| path.parent().is_some_and(holds_edits)).collect()
}

fn must_fail_files() -> impl Iterator<Item = PathBuf> {
    edit_files().into_iter().filter(|path| path.parent().is_some_and(|folder| folder.ends_with("must-fail")))
}

/// An edit whose text is no longer in its file, or stands there twice, tries nothing; `rt ci` would say so, but only at
/// the end. A replacement applies to what the earlier ones of its edit made.
#[test]
fn edits_find_what_they_replace() {
    let mut wrong = Vec::new();
    for path in edit_files() {
        let folder = path.ancestors().nth(2).expect("a crate");
        let (edit, mut texts) = (replacements(&read(&path)), BTreeMap::new());
        assert!(!edit.is_empty(), "{} replaces nothing", path.display());
        for part in edit {
            let text = texts.entry(part.file.clone()).or_insert_with(|| read(&folder.join(&part.file)));
            let count = text.matches(&part.old).count();
            if count != 1 {
                wrong.push(format!("{}: {count} times in {}: {}", path.display(), part.file, part.old));
            }
            *text = text.replace(&part.old, &part.new);
        }
    }
    assert!(wrong.is_empty(), "{}", wrong.join("\n"));
}

/// Without the names of goals and of what is known at them, which `rt` makes of the code: an edit of a condition changes them in the proof as well.
fn without_goals(answer: &str) -> String {
    let mut words = answer.trim_start_matches("pub ").split_whitespace();
    words.next();
    let is_made = |word: &&str| {
        ["c.", "goal.", "then-", "else-"].iter().any(|head| word.trim_start_matches('(').starts_with(head))
    };
    words.filter(|word| !is_made(word)).collect::<Vec<_>>().join(" ")
}

/// Words of proofs, the two of a Boolean, the empty option and methods of the library, which need no import.
const KNOWN_WORDS: [&str; 8] = ["None", "checked_sub", "default", "elim", "false", "omega", "search", "true"];

/// An edit that brings a name that its file does not know is refused for that, whatever the contract says. Codes, columns and the fields of a position and of a plan are known by their type;
/// an edit may bring a name's `use` line.
#[test]
fn edits_use_names_in_scope() {
    let shared = ["definition/src/lib", "definition/src/codes", "definition/src/cells", "plan/src/lib"]
        .map(|path| read(&repository().join(format!("crates/{path}.rt"))));
    for path in must_fail_files() {
        let (folder, edit) = (path.ancestors().nth(2).expect("a crate").to_path_buf(), replacements(&read(&path)));
        let brought: String = edit.iter().filter(|part| part.new.starts_with("use ")).map(|part| &*part.new).collect();
        for part in edit.iter().filter(|part| !part.new.starts_with("use ")) {
            let source = read(&folder.join(&part.file));
            let known: Vec<&str> = shared.iter().chain([&source, &brought]).flat_map(|text| names(text)).collect();
            let code: String = part.new.split('"').step_by(2).collect::<Vec<_>>().join("\"");
            let code = if part.file.ends_with("Answers.antt") { without_goals(&code) } else { code };
            for name in names(&code).into_iter().filter(|name| !KNOWN_WORDS.contains(name)) {
                assert!(known.contains(&name), "{}: {}: the file does not know {name}", path.display(), part.new);
            }
        }
    }
}

/// Whether a function has a proof of its own: without one no name of its goals is written anywhere.
fn is_proved_by_hand(folder: &Path, part: &Replacement) -> bool {
    let source = read(&folder.join(&part.file));
    let Some(at) = source.find(&part.old) else { return true };
    let Some((_, code)) = source[..at].rsplit_once("fn ") else { return true };
    let (name, proofs) = (names(code)[0], folder.join("proofs"));
    let is_its_own = |path: &PathBuf| {
        let mut steps = path.strip_prefix(&proofs).expect("below proofs").iter();
        steps.any(|step| step.to_string_lossy().trim_start_matches('+') == name)
    };
    files(&proofs).iter().any(is_its_own)
}

/// The edits that bring no proof, of which some part of code does this to a function that has one.
fn edits_that(does: impl Fn(&Replacement) -> bool) -> Vec<String> {
    let mut found = Vec::new();
    for path in must_fail_files() {
        let (folder, parts) = (path.ancestors().nth(2).expect("a crate"), replacements(&read(&path)));
        let in_code =
            |part: &Replacement| part.file.starts_with("src/") && does(part) && is_proved_by_hand(folder, part);
        if parts.iter().any(in_code) && !parts.iter().any(|part| part.file.starts_with("proofs/")) {
            found.push(path.strip_prefix(repository().join("crates")).expect("below crates").display().to_string());
        }
    }
    found.sort();
    found
}

/// Those that turn a condition whose goals are named after a call in it or the values that it compares, and so keep their names.
const NAMED_OTHERWISE: [&str; 3] = [
    "found/must-fail/code_any_unknown.edit",
    "names/must-fail/code_near_unseen.edit",
    "written/must-fail/exact_fit_refused.edit",
];

/// A goal is named after the condition before it. An edit that turns one and leaves the proof as it is would be refused for a goal that is not there.
#[test]
fn edits_of_conditions_bring_their_proofs() {
    assert_eq!(edits_that(|part| condition(&part.old) != condition(&part.new)), NAMED_OTHERWISE);
}

/// Those that add or lose an operation of which no answer names the place.
const MOVE_PLACES: [&str; 3] = [
    "names/must-fail/code_near_unseen.edit",
    "names/must-fail/code_new_names_repeated.edit",
    "see/must-fail/if_found_by_depth.edit",
];

/// An added or lost operation moves the places that a proof names: an edit that leaves the proof as it is would be refused for that. What an arm takes is none.
#[test]
fn edits_of_code_keep_its_operations() {
    let done = |code: &str| operations(code.split_once("=>").map_or(code, |(_, done)| done));
    assert_eq!(edits_that(|part| done(&part.old) != done(&part.new)), MOVE_PLACES);
}

/// docs/SCOPE.md: `path: name, name` or a path alone.
#[test]
fn every_sentence_cites_what_is_there() {
    let page = read(&repository().join("docs/SCOPE.md"));
    let (mut count, mut wrong) = (0, Vec::new());
    for word in page.lines().flat_map(citations) {
        let (path, cited) = word.split_once(": ").unwrap_or((word, ""));
        let Some(file) = cited_file(path) else {
            wrong.push(format!("no file {path}"));
            continue;
        };
        count += 1;
        let missing = cited.split(", ").filter(|name| !name.is_empty() && !defines(&file, name));
        wrong.extend(missing.map(|name| format!("{path} has no {name}")));
    }
    assert!(count > 500, "only {count} citations were found");
    assert!(wrong.is_empty(), "{}", wrong.join("\n"));
}

/// crates.txt: each crate with those that its files name, and no other: `rt` finds those that these depend on, and takes the longer the more are listed.
#[test]
fn crates_depend_on_what_they_name() {
    let crates = listed_crates();
    let known: BTreeSet<String> = crates.keys().chain(crates.values().flatten()).cloned().collect();
    for (name, listed) in &crates {
        assert_eq!(*listed, named_crates(name, &known), "crates.txt: {name}");
    }
}
