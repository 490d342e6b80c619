//! The command `rufsm`. See README.md for its sub-commands.

use rufsm::generate::{stream, Profile};
use rufsm::{answer, bench, frames, judge, record, table};
use std::io::{Read, Write};
use std::path::Path;
use std::process::ExitCode;
use std::time::Instant;

const USAGE: &str = "usage:
  rufsm chartlist < events
  rufsm dump < events
  rufsm generate --seed S --count N [--small | --middle] [--dir DIR]
  rufsm table --seed S --count N [--small | --middle]
  rufsm fuzz --seed S --count N [--small | --middle]
  rufsm bench FILE N
  rufsm record DIR
";

type Outcome = Result<String, String>;

fn input() -> Result<Vec<u8>, String> {
    let mut bytes = Vec::new();
    std::io::stdin().read_to_end(&mut bytes).map_err(|e| e.to_string())?;
    Ok(bytes)
}

/// Without the reference the one line says so, and that is no failure.
fn judged(print: fn(&judge::Verdict) -> String) -> Outcome {
    match judge::judge(&input()?) {
        Ok(verdict) => Ok(print(&verdict)),
        Err(absent) => Ok(format!("{absent}\n")),
    }
}

/// The value behind an option.
fn option<'a>(arguments: &'a [String], name: &str) -> Option<&'a str> {
    let place = arguments.iter().position(|argument| argument == name)?;
    arguments.get(place + 1).map(String::as_str)
}

fn number(arguments: &[String], name: &str) -> Result<u64, String> {
    let value = option(arguments, name).ok_or(format!("{name} is needed\n{USAGE}"))?;
    value.parse().map_err(|_| format!("{name}: not a number: {value}"))
}

fn profile(arguments: &[String]) -> Profile {
    let has = |name: &str| arguments.iter().any(|argument| argument == name);
    match () {
        _ if has("--small") => Profile::Small,
        _ if has("--middle") => Profile::Middle,
        _ => Profile::Ordinary,
    }
}

fn write_file(folder: &Path, name: &str, bytes: &[u8]) -> Result<(), String> {
    std::fs::create_dir_all(folder).map_err(|e| e.to_string())?;
    std::fs::write(folder.join(name), bytes).map_err(|e| format!("{name}: {e}"))
}

/// Streams to standard output in frames, or as one file each into a folder.
fn generate(arguments: &[String]) -> Outcome {
    let (seed, count) = (number(arguments, "--seed")?, number(arguments, "--count")?);
    let folder = option(arguments, "--dir").map(Path::new);
    let mut out = std::io::stdout().lock();
    for index in 0..count {
        let bytes = stream(seed, index, profile(arguments));
        match folder {
            Some(folder) => write_file(folder, &format!("{seed}-{index}.events"), &bytes)?,
            None => out.write_all(&frames::print(&format!("{seed}-{index}"), &bytes)).map_err(|e| e.to_string())?,
        }
    }
    Ok(String::new())
}

/// The table, or only its summary with the time taken.
fn random_run(arguments: &[String], whole: bool) -> Outcome {
    let begin = Instant::now();
    let run = table::run(number(arguments, "--seed")?, number(arguments, "--count")?, profile(arguments));
    let table = match run {
        Ok(table) => table,
        Err(absent) => return Ok(format!("{absent}\n")),
    };
    if table.unexpected() > 0 {
        return Err(table.print());
    }
    let text = if whole { table.print() } else { table.summary() };
    Ok(format!("{text}seconds={:.1}\n", begin.elapsed().as_secs_f64()))
}

fn benchmark(arguments: &[String]) -> Outcome {
    let [file, rounds] = arguments else { return Err(USAGE.to_string()) };
    let bytes = std::fs::read(file).map_err(|e| format!("{file}: {e}"))?;
    bench::run(&bytes, rounds.parse().map_err(|_| USAGE.to_string())?)
}

fn record_answers(arguments: &[String]) -> Outcome {
    let [folder] = arguments else { return Err(USAGE.to_string()) };
    let files = record::files().map_err(|absent| absent.to_string())?;
    for file in &files {
        write_file(Path::new(folder), file.name, &file.bytes)?;
    }
    Ok(format!("{} streams recorded\n", record::streams().len()))
}

fn main() -> ExitCode {
    let arguments: Vec<String> = std::env::args().skip(1).collect();
    let rest = arguments.get(1..).unwrap_or(&[]);
    let outcome = match arguments.first().map(String::as_str) {
        Some("chartlist") => judged(answer::chartlist),
        Some("dump") => judged(answer::dump),
        Some("generate") => generate(rest),
        Some("table") => random_run(rest, true),
        Some("fuzz") => random_run(rest, false),
        Some("bench") => benchmark(rest),
        Some("record") => record_answers(rest),
        _ => Err(USAGE.to_string()),
    };
    match outcome {
        Ok(text) => std::io::stdout().write_all(text.as_bytes()).map_or(ExitCode::FAILURE, |()| ExitCode::SUCCESS),
        Err(text) => {
            eprint!("{text}");
            ExitCode::FAILURE
        }
    }
}
