//! Hands streams to the definition, which the checker evaluates in a scratch repository, and compares the number, the
//! place of a refusal and the whole chart with what the Rust judge made of them, recorded or at once. See README.md.

mod cases;
mod numbers;
mod scratch;
mod sources;
mod walk;

use cases::Case;
use rufsm::generate::Profile;
use rufsm::judge;
use rufsm::table::Table;
use scratch::Refusal;
use sources::{Group, Judged};
use std::collections::BTreeMap;
use std::process::ExitCode;
use std::time::Instant;

const USAGE: &str = "usage: definition [--answers DIR].. [--folder DIR].. [--nesting]
    [--seed S --count N [--middle | --cover]] [--table]";

struct Options(Vec<String>);

impl Options {
    fn has(&self, name: &str) -> bool {
        self.0.iter().any(|argument| argument == name)
    }

    /// The words that follow an option, wherever it stands.
    fn values(&self, name: &str) -> Result<Vec<&str>, String> {
        let places = self.0.iter().enumerate().filter(|(_, argument)| *argument == name);
        places.map(|(place, _)| self.0.get(place + 1).map(String::as_str).ok_or(USAGE.to_string())).collect()
    }

    fn number(&self, name: &str) -> Result<u64, String> {
        let value = *self.values(name)?.first().ok_or(USAGE)?;
        value.parse().map_err(|_| format!("{name}: not a number: {value}"))
    }
}

/// The groups that need no judge.
fn recorded(options: &Options) -> Result<Vec<Group>, String> {
    let mut groups = Vec::new();
    for folder in options.values("--answers")? {
        groups.push(sources::answers(folder)?);
    }
    for folder in options.values("--folder")? {
        groups.push(sources::folder(folder)?);
    }
    if options.has("--nesting") {
        groups.push(sources::nesting());
    }
    Ok(groups)
}

/// The random streams, and a name for them; none where no seed is given.
fn random(options: &Options) -> Result<Option<(String, Vec<Judged>)>, String> {
    if !options.has("--seed") {
        return Ok(None);
    }
    let (seed, count) = (options.number("--seed")?, options.number("--count")?);
    let profile = if options.has("--middle") { Profile::Middle } else { Profile::Small };
    Ok(Some(if options.has("--cover") {
        (format!("random, chosen from {count} of each profile, seed {seed}"), sources::cover(seed, count)?)
    } else {
        (format!("random, seed {seed}"), sources::random(seed, count, profile)?)
    }))
}

/// A line of the report, and the cases that make it red.
fn report(group: &Group, first: usize, refused: &BTreeMap<usize, Refusal>) -> Vec<usize> {
    let ours: Vec<(usize, Refusal)> =
        refused.range(first..first + group.cases.len()).map(|(place, refusal)| (place - first, *refusal)).collect();
    let different = ours.iter().filter(|(_, refusal)| *refusal == Refusal::Different).count();
    let (count, stopped) = (group.cases.len(), ours.len() - different);
    println!("{}: {count} cases, different: {different}, not evaluated: {stopped}", group.name);
    for (place, _) in ours.iter().filter(|(_, refusal)| *refusal == Refusal::StepLimit) {
        println!("  not evaluated, the checker's step limit: {}", group.cases[*place].name);
    }
    let red = |(place, refusal): &(usize, Refusal)| *refusal == Refusal::Different || group.cases[*place].is_small;
    ours.into_iter().filter(red).map(|(place, _)| place).collect()
}

/// What the random streams that were evaluated have of the generator's table.
fn table_of(streams: &[Judged], first: usize, refused: &BTreeMap<usize, Refusal>) -> Table {
    let mut table = Table::new();
    let evaluated = streams.iter().zip(first..).filter(|(_, place)| !refused.contains_key(place));
    evaluated.for_each(|(one, _)| table.add(&one.stream, &one.verdict));
    table
}

/// Says what they have of the table; with `--cover` what is missing is a fault.
fn coverage(options: &Options, table: &Table) -> Option<String> {
    print!("{}", if options.has("--table") { table.print() } else { String::new() });
    let missing = table.missing();
    println!("of the generator's table: {} of {}", table.counts.len() - missing.len(), table.counts.len());
    let is_fault = options.has("--cover") && !missing.is_empty();
    is_fault.then(|| format!("missing of the generator's table: {}", missing.join(", ")))
}

fn compare(options: &Options) -> Result<(), String> {
    let begin = Instant::now();
    let mut groups = recorded(options)?;
    let streams = random(options)?;
    if let Some((name, streams)) = &streams {
        groups.push(sources::group(name.clone(), streams)?);
    }
    let cases: Vec<&Case> = groups.iter().flat_map(|group| &group.cases).collect();
    if cases.is_empty() {
        return Err(USAGE.to_string());
    }
    let refused = scratch::evaluate(&cases)?;
    let (mut faults, mut first) = (Vec::new(), 0);
    for group in &groups {
        for place in report(group, first, &refused) {
            let why = refused[&(first + place)];
            faults.push(format!("{}: {why:?}\n{}", group.name, group.cases[place].shown));
        }
        first += group.cases.len();
    }
    if let Some((_, streams)) = &streams {
        faults.extend(coverage(options, &table_of(streams, first - streams.len(), &refused)));
    }
    println!("cases: {}, red: {}, seconds: {:.0}", cases.len(), faults.len(), begin.elapsed().as_secs_f64());
    if faults.is_empty() {
        Ok(())
    } else {
        Err(faults.join("\n"))
    }
}

fn main() -> ExitCode {
    let options = Options(std::env::args().skip(1).collect());
    if options.has("--seed") && !judge::available() {
        println!("{}", judge::Absent);
        return ExitCode::FAILURE;
    }
    match compare(&options) {
        Ok(()) => ExitCode::SUCCESS,
        Err(text) => {
            eprintln!("{text}");
            ExitCode::FAILURE
        }
    }
}
