//! The command `chart`. See `--help`.

use host::{listing, picture, stream, Chart, Refusal};
use std::ffi::{OsStr, OsString};
use std::io::{ErrorKind, IsTerminal, Read, Write};
use std::process::ExitCode;

const HELP: &str = "chart: reads charts from event lines

  chart list FILE        the chart listed: its states and transitions, one field a line;
                         of a refused one the number and the event's place
  chart check FILE...    one line a file: accepted, or the first event that is refused, its
                         element, the number and the question that was answered no
  chart picture FILE     the chart as a picture, in Graphviz's language DOT:
                         chart picture FILE | dot -Tsvg >chart.svg
  chart --help           this page

FILE holds event lines, an event for each start and end of an element; - is standard input.

Exit status: 0 a chart; 1 a refusal; 2 a file that cannot be read, or a command that is none.
";

const ACCEPTED: u8 = 0;
const REFUSED: u8 = 1;
const FAILED: u8 = 2;

/// From here on a line on standard error says how far `check` is.
const MANY_FILES: usize = 20;

/// To standard output. A reader that has seen enough and closed the pipe is no failure.
fn print(text: &str) -> Result<(), String> {
    let mut out = std::io::stdout().lock();
    match out.write_all(text.as_bytes()).and_then(|()| out.flush()) {
        Err(error) if error.kind() != ErrorKind::BrokenPipe => Err(format!("standard output: {error}")),
        _ => Ok(()),
    }
}

/// To standard error; where that is closed there is no one to tell.
fn tell(text: &str) {
    let _ = std::io::stderr().write_all(text.as_bytes());
}

/// What went wrong, and the exit status for it.
fn complain(error: &str) -> u8 {
    tell(&format!("chart: {error}\n"));
    FAILED
}

fn read(file: &OsStr) -> Result<Vec<u8>, String> {
    let mut bytes = Vec::new();
    let read = match file.to_str() {
        Some("-") => std::io::stdin().lock().read_to_end(&mut bytes).map(|_| ()),
        _ => std::fs::read(file).map(|all| bytes = all),
    };
    read.map(|()| bytes).map_err(|error| format!("{}: {error}", file.display()))
}

fn list(file: &OsStr) -> Result<u8, String> {
    match Chart::of_stream(&read(file)?) {
        Ok(chart) => print(&listing::chart(&chart)).map(|()| ACCEPTED),
        Err(refusal) => print(&listing::refusal(&refusal)).map(|()| REFUSED),
    }
}

/// A refusal for a person: the event's place, its element, the number and the question.
fn sentence(bytes: &[u8], refusal: &Refusal) -> String {
    let place = refusal.event().unwrap_or(1);
    let event = stream::events(bytes).nth(place - 1).unwrap_or_default();
    let element =
        stream::element(event).map_or("no element".to_string(), |name| format!("<{}>", stream::visible(name)));
    format!("event {place}, {element}: refused with {}: {} No.", refusal.number(), refusal.question())
}

fn draw(file: &OsStr) -> Result<u8, String> {
    let bytes = read(file)?;
    match Chart::of_stream(&bytes) {
        Ok(chart) => print(&picture::dot(&chart)).map(|()| ACCEPTED),
        Err(refusal) => {
            tell(&format!("{}: {}\n", file.display(), sentence(&bytes, &refusal)));
            Ok(REFUSED)
        }
    }
}

/// One file's line, and its exit status.
fn verdict(file: &OsStr) -> Result<(String, u8), String> {
    let bytes = read(file)?;
    let (words, status) = match Chart::of_stream(&bytes) {
        Ok(_) => ("accepted".to_string(), ACCEPTED),
        Err(refusal) => (sentence(&bytes, &refusal), REFUSED),
    };
    Ok((format!("{}: {words}\n", file.display()), status))
}

/// The verdict, while a line on a terminal says how far we are; it is gone before the verdict is written.
fn awaited(file: &OsStr, progress: Option<String>) -> Result<(String, u8), String> {
    let Some(progress) = progress else { return verdict(file) };
    tell(&progress);
    let verdict = verdict(file);
    tell("\r\x1b[K");
    verdict
}

/// All files, also behind one that cannot be read; the worst status counts.
fn check(files: &[OsString]) -> Result<u8, String> {
    let many = files.len() >= MANY_FILES && std::io::stderr().is_terminal();
    let mut worst = ACCEPTED;
    for (place, file) in files.iter().enumerate() {
        let progress = many.then(|| format!("{} of {}", place + 1, files.len()));
        let status = match awaited(file, progress) {
            Ok((line, status)) => print(&line).map(|()| status)?,
            Err(error) => complain(&error),
        };
        worst = worst.max(status);
    }
    Ok(worst)
}

fn run(words: &[OsString]) -> Result<u8, String> {
    if words.iter().any(|word| word == "--help" || word == "-h") {
        return print(HELP).map(|()| ACCEPTED);
    }
    let command = words.first().and_then(|word| word.to_str()).unwrap_or_default();
    match (command, words.get(1..).unwrap_or_default()) {
        ("list", [file]) => list(file),
        ("picture", [file]) => draw(file),
        ("check", files @ [_, ..]) => check(files),
        _ => Err("it is list FILE, check FILE... or picture FILE; --help says more".to_string()),
    }
}

fn main() -> ExitCode {
    let words: Vec<OsString> = std::env::args_os().skip(1).collect();
    ExitCode::from(run(&words).unwrap_or_else(|error| complain(&error)))
}
