//! The command `chart`: what it prints, and its exit status.

use std::io::Write;
use std::path::{Path, PathBuf};
use std::process::{Command, Output, Stdio};

const SCXML: &str = "event=open\nname=scxml\n";

fn repository() -> PathBuf {
    Path::new(env!("CARGO_MANIFEST_DIR")).join("..")
}

fn command(words: &[&str]) -> Command {
    let mut command = Command::new(env!("CARGO_BIN_EXE_chart"));
    command.args(words).current_dir(repository()).stdin(Stdio::null());
    command
}

fn chart(words: &[&str]) -> Output {
    command(words).output().expect("the command runs")
}

/// The command with bytes on its standard input.
fn fed(words: &[&str], input: &[u8]) -> Output {
    let piped = command(words).stdin(Stdio::piped()).stdout(Stdio::piped()).stderr(Stdio::piped()).spawn();
    let mut child = piped.expect("the command runs");
    child.stdin.take().expect("a pipe").write_all(input).expect("it reads all");
    child.wait_with_output().expect("it ends")
}

fn text(bytes: &[u8]) -> &str {
    std::str::from_utf8(bytes).expect("text")
}

/// Standard output, standard error and the exit status.
fn parts(output: &Output) -> (&str, &str, Option<i32>) {
    (text(&output.stdout), text(&output.stderr), output.status.code())
}

fn examples() -> Vec<PathBuf> {
    let files = std::fs::read_dir(repository().join("examples")).expect("the examples");
    let mut events: Vec<PathBuf> = files
        .map(|file| file.expect("a file").path())
        .filter(|path| path.extension() == Some("events".as_ref()))
        .collect();
    events.sort();
    events
}

#[test]
fn list_writes_the_recorded_listings() {
    assert!(examples().len() >= 5);
    for events in examples() {
        let wanted = std::fs::read_to_string(events.with_extension("chartlist")).expect("a listing");
        let listed = chart(&["list", events.to_str().expect("a name")]);
        assert_eq!(parts(&listed), (wanted.as_str(), "", Some(0)), "{}", events.display());
    }
}

/// Document 01's example, byte for byte.
#[test]
fn list_reads_standard_input() {
    let events = format!("{SCXML}event=empty\nname=state\nkey=id\nvalue=a\nevent=end\nname=scxml\n");
    let wanted = "answer=0\nroot=1\nstates=2\ntransitions=1\n\
        state=1\nname=__id1\nparent=0\ninitial=1\ndoc=1\nchildren=2\n\
        state=2\nname=a\nparent=1\ninitial=0\ndoc=2\nchildren=\n\
        transition=1\nsource=1\ntargets=2\ntype=external\ndoc=0\ncontent=0\n";
    assert_eq!(parts(&fed(&["list", "-"], events.as_bytes())), (wanted, "", Some(0)));
}

#[test]
fn list_escapes_names() {
    let events = format!("{SCXML}event=empty\nname=state\nkey=id\nvalue=a\\nb\\\\c\n");
    let listed = fed(&["list", "-"], events.as_bytes());
    assert!(text(&listed.stdout).contains("\nname=a\\nb\\\\c\nparent=1\n"));
}

#[test]
fn list_of_nothing() {
    let wanted = "answer=0\nroot=0\nstates=0\ntransitions=0\n";
    assert_eq!(parts(&fed(&["list", "-"], b"")), (wanted, "", Some(0)));
}

#[test]
fn list_of_a_refusal() {
    let events = format!("{SCXML}{SCXML}");
    assert_eq!(parts(&fed(&["list", "-"], events.as_bytes())), ("answer=9\nevent=2\n", "", Some(1)));
}

#[test]
fn check_says_one_line_a_file() {
    let checked =
        chart(&["check", "examples/lamp.events", "tests/differences/second-else-no-if.events", "examples/fan.events"]);
    let wanted = "examples/lamp.events: accepted\n\
        tests/differences/second-else-no-if.events: event 7, <else>: refused with 14: Does the else walk meet an if in every region? No.\n\
        examples/fan.events: accepted\n";
    assert_eq!(parts(&checked), (wanted, "", Some(1)));
}

#[test]
fn check_of_charts_only() {
    assert_eq!(parts(&chart(&["check", "examples/fan.events"])), ("examples/fan.events: accepted\n", "", Some(0)));
}

/// The files behind one that is not there are still checked.
#[test]
fn check_of_a_file_that_is_not_there() {
    let checked = chart(&["check", "examples/none.events", "examples/fan.events"]);
    let (out, err, status) = parts(&checked);
    assert_eq!((out, status), ("examples/fan.events: accepted\n", Some(2)));
    assert!(err.starts_with("chart: examples/none.events: ") && err.lines().count() == 1, "{err}");
}

/// An element's name may hold what a terminal acts on.
#[test]
fn check_shows_visible_bytes_only() {
    let checked = fed(&["check", "-"], b"event=open\nname=\x1b[2J\xff\n");
    let wanted = "-: event 1, <\\x1b[2J\\xff>: refused with 3: Is the event in form and within its own limits, bytes up to 127? No.\n";
    assert_eq!(parts(&checked), (wanted, "", Some(1)));
    let nameless = fed(&["check", "-"], b"no event\n");
    assert!(text(&nameless.stdout).starts_with("-: event 1, no element: refused with 3: "));
}

#[test]
fn many_files_are_silent_without_a_terminal() {
    let mut words = vec!["check"];
    words.resize(60, "examples/lamp.events");
    let checked = chart(&words);
    assert_eq!(
        (text(&checked.stdout).lines().count(), text(&checked.stderr), checked.status.code()),
        (59, "", Some(0))
    );
}

/// docs/lamp.dot is what the command writes: `chart picture examples/lamp.events >docs/lamp.dot`.
#[test]
fn picture_of_the_lamp() {
    let wanted = std::fs::read_to_string(repository().join("docs/lamp.dot")).expect("docs/lamp.dot");
    assert_eq!(parts(&chart(&["picture", "examples/lamp.events"])), (wanted.as_str(), "", Some(0)));
}

#[test]
fn picture_of_a_refusal() {
    let drawn = fed(&["picture", "-"], b"event=end\nname=scxml\n");
    let wanted = "-: event 1, <scxml>: refused with 5: Does the end close the innermost open element? No.\n";
    assert_eq!(parts(&drawn), ("", wanted, Some(1)));
}

#[test]
fn files_that_cannot_be_read() {
    for word in ["list", "picture"] {
        let read = chart(&[word, "examples/none.events"]);
        assert!(text(&read.stderr).starts_with("chart: examples/none.events: "));
        assert_eq!((read.stdout.len(), read.status.code()), (0, Some(2)));
        assert_eq!(chart(&[word, "examples"]).status.code(), Some(2));
    }
}

#[test]
fn bad_usage() {
    for words in [&[][..], &["list"], &["check"], &["list", "-", "-"], &["draw", "-"], &["picture"], &["lists", "-"]] {
        let refused = chart(words);
        let (out, err, status) = parts(&refused);
        assert_eq!((out, err.lines().count(), status), ("", 1, Some(2)), "{words:?}");
        assert!(err.contains("--help"), "{words:?}");
    }
}

#[test]
fn help() {
    for words in [&["--help"][..], &["-h"], &["list", "--help"]] {
        let helped = chart(words);
        let (out, err, status) = parts(&helped);
        assert!(["list", "check", "picture", "Exit status"].iter().all(|word| out.contains(word)));
        assert_eq!((err, status), ("", Some(0)));
    }
}

/// As with `| head`: the reader has closed the pipe before anything is written.
#[test]
fn closed_pipe() {
    for words in [&["list", "-"][..], &["picture", "-"], &["check", "-"], &["check", "-", "examples/fan.events"]] {
        let piped = command(words).stdin(Stdio::piped()).stdout(Stdio::piped()).stderr(Stdio::piped()).spawn();
        let mut child = piped.expect("the command runs");
        drop(child.stdout.take());
        child.stdin.take().expect("a pipe").write_all(SCXML.as_bytes()).expect("it reads");
        let ended = child.wait_with_output().expect("it ends");
        assert_eq!((text(&ended.stderr), ended.status.code()), ("", Some(0)), "{words:?}");
    }
}
