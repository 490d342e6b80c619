//! The scratch repository: the definition and the cases' crate copied, and crates that hold the cases as claims. The
//! checker evaluates each.

use crate::cases::Case;
use std::collections::BTreeMap;
use std::fs;
use std::path::{Path, PathBuf};
use std::process::{self, Command};
use std::{env, thread};

const COPIED: [&str; 2] = ["definition", "compare"];
/// A crate is checked by one thread; the cases are dealt out, so that each crate has its share of long ones.
const CRATES: usize = 6;
/// Cases in one module.
const BATCH: usize = 25;
const CLAIM: &str = "right";
/// What the checker says of a claim whose evaluation it broke off.
const STEP_LIMIT: &str = "stopped at the step limit";

/// Why a claim is refused.
#[derive(Debug, Clone, Copy, PartialEq, Eq)]
pub enum Refusal {
    Different,
    StepLimit,
}

pub fn repository() -> PathBuf {
    Path::new(env!("CARGO_MANIFEST_DIR")).join("../..")
}

fn copy(from: &Path, to: &Path) -> Result<(), String> {
    fs::create_dir_all(to).map_err(|e| format!("{}: {e}", to.display()))?;
    for entry in fs::read_dir(from).map_err(|e| format!("{}: {e}", from.display()))? {
        let path = entry.map_err(|e| e.to_string())?.path();
        let target = to.join(path.file_name().unwrap_or_default());
        match path.file_name().and_then(|name| name.to_str()) {
            Some("must-fail" | "out") => continue,
            _ if path.is_dir() => copy(&path, &target)?,
            // The crates' own theorems are checked elsewhere; here definitions are evaluated, and functions need their proofs.
            _ if from.ends_with("proofs") => continue,
            _ => fs::copy(&path, &target).map(|_| ()).map_err(|e| format!("{}: {e}", path.display()))?,
        }
    }
    Ok(())
}

fn write(path: &Path, text: &str) -> Result<(), String> {
    let folder = path.parent().ok_or("a path without a folder")?;
    fs::create_dir_all(folder).map_err(|e| format!("{}: {e}", folder.display()))?;
    fs::write(path, text).map_err(|e| format!("{}: {e}", path.display()))
}

const HEADER: &str = "\
use Rattle.std.specs.Prelude.{◌≡◌, refl, true, List, [], ◌∷◌}
use Rattle.definition.specs.Text.{str}
use Rattle.compare.specs.Compare.{Case, right, Parted, parted_right, Place, place_right}
";

/// A case and the claim that it is right. The checker's step limit is per claim, and its refusal names the claim.
fn claim(place: usize, case: &Case) -> String {
    let ([kind, right], literal) = (case.kind, &case.literal);
    format!(
        "
unfoldable pub case{place} : {kind}
unfolding str
case{place} = {literal}

pub {CLAIM}{place} : {right} case{place} ≡ true
unfolding {right} case{place}
{CLAIM}{place} = refl
"
    )
}

/// The crates, with the cases dealt out; their names.
fn crates(root: &Path, cases: &[&Case]) -> Result<Vec<String>, String> {
    let mut names = Vec::new();
    for number in 0..CRATES.min(cases.len()) {
        let claims: Vec<String> =
            (number..cases.len()).step_by(CRATES).map(|place| claim(place, cases[place])).collect();
        let (name, mut root_module) = (format!("batch{number}"), String::new());
        for (part, batch) in claims.chunks(BATCH).enumerate() {
            root_module.push_str(&format!("pub mod Part{part}\n"));
            let path = root.join(format!("crates/{name}/specs/Part{part}.antt"));
            write(&path, &format!("{HEADER}{}", batch.concat()))?;
        }
        write(&root.join(format!("crates/{name}/specs/Lib.antt")), &root_module)?;
        write(&root.join(format!("crates/{name}/src/lib.rt")), "// Some of the cases.\n\n#![tactic(auto)]\n")?;
        names.push(name);
    }
    Ok(names)
}

/// The claims that are refused, by their places, and why. A claim may be named more than once.
fn refusals(output: &str) -> BTreeMap<usize, Refusal> {
    let mut found = BTreeMap::new();
    let head = format!("error: `{CLAIM}");
    for rest in output.split(&head).skip(1) {
        let sentence = rest.lines().next().unwrap_or("");
        let Some(place) = sentence.split('`').next().and_then(|number| number.parse().ok()) else { continue };
        let refusal = if sentence.contains(STEP_LIMIT) { Refusal::StepLimit } else { Refusal::Different };
        let before = found.insert(place, refusal);
        if before == Some(Refusal::Different) {
            found.insert(place, Refusal::Different);
        }
    }
    found
}

/// The refused claims of a whole run. A crate that is not told to be proved, and has none, was not evaluated.
fn refusals_of(names: &[String], output: &str) -> Result<BTreeMap<usize, Refusal>, String> {
    let mut all = BTreeMap::new();
    for name in names {
        let section = output.split(&format!("== {name}\n")).nth(1).and_then(|rest| rest.split("\n== ").next());
        let found = refusals(section.unwrap_or(""));
        let proved = output.lines().any(|line| line == format!("{name}: ok"));
        if proved != found.is_empty() {
            return Err(format!("the checker stopped at {name} without naming a case:\n{output}"));
        }
        all.extend(found);
    }
    Ok(all)
}

fn check(root: &Path) -> Result<String, String> {
    let processors = thread::available_parallelism().map_or(1, |count| count.get()).to_string();
    let run = Command::new("rt").args(["all", "check", "--jobs", &processors]).current_dir(root).output();
    let output = run.map_err(|e| format!("rt: {e}"))?;
    Ok(String::from_utf8_lossy(&[output.stdout, output.stderr].concat()).into_owned())
}

/// The scratch repository with the cases, and the names of the crates that hold them.
fn repository_of(root: &Path, cases: &[&Case]) -> Result<Vec<String>, String> {
    for name in COPIED {
        copy(&repository().join("crates").join(name), &root.join("crates").join(name))?;
    }
    let names = crates(root, cases)?;
    let lines: String = names.iter().map(|name| format!("{name}: definition compare\n")).collect();
    write(&root.join("crates.txt"), &format!("definition:\ncompare: definition\n{lines}"))?;
    Ok(names)
}

/// The cases that the checker does not find right, by their places. Every other one it has evaluated to `true`.
pub fn evaluate(cases: &[&Case]) -> Result<BTreeMap<usize, Refusal>, String> {
    // Not below the repository, where `rt ci` refuses statements that no crate of crates.txt holds.
    let root = env::temp_dir().join(format!("definition-{}", process::id()));
    let found = repository_of(&root, cases).and_then(|names| refusals_of(&names, &check(&root)?));
    let _ = fs::remove_dir_all(&root);
    found
}

#[cfg(test)]
mod tests {
    use super::*;

    /// As the checker prints them: a claim broken off, two that are not so, and a crate that is right.
    const OUTPUT: &str = "\
== batch0
note: no function with a body is declared, so nothing was lowered
./specs/Part1.antt:25:5: error: `right70`: in its elaboration (it was elaborating the text at 27:12–27:16): stopped at the step limit (50000000 steps a task, the default)
  of its 6250475 steps, 99% went to comparisons (unification)
./specs/Part1.antt:25:5: note: the kernel's check of this declaration met the step limit (in `right70`)
./specs/Part2.antt:163:12: error: `right5`: expected type `right case5 ≡ true`, but this has type `right case5 ≡ right case5`
  what the two types compute to is not shown, because neither could be computed
./specs/Part2.antt:170:12: error: `right6`: computed as far as they go, the two types differ only where one has `true` (expected) and the other has `mathlib.Core.Bool.false` (found)
logic=not-proved
== batch1
logic=proved functions=0
== summary
batch0: failed (1)
batch1: ok
1 of 2 crates ok
";

    fn names() -> [String; 2] {
        ["batch0", "batch1"].map(str::to_string)
    }

    #[test]
    fn step_limit_is_no_difference() {
        let found: Vec<_> = refusals_of(&names(), OUTPUT).expect("both crates are told of").into_iter().collect();
        assert_eq!(found, [(5, Refusal::Different), (6, Refusal::Different), (70, Refusal::StepLimit)]);
    }

    #[test]
    fn a_crate_that_names_no_claim_is_proved_or_a_fault() {
        assert!(refusals_of(&names(), "== summary\nbatch0: ok\nbatch1: ok\n").expect("both are proved").is_empty());
        assert!(refusals_of(&names(), &OUTPUT.replace("batch1: ok", "batch1: failed (2)")).is_err());
        assert!(refusals_of(&names(), "rt: mend these first: no library was built\n").is_err());
    }
}
