//! A stream with what the judge made of it, as a case of crates/compare/specs/Compare.antt.

use crate::{numbers, walk};
use rufsm::dump_parse::{self, Answer};
use rufsm::event::{self, print, print_all};
use rufsm::grid::Place;
use rufsm::refusal;

/// A stream of at most as many bytes is small: that the checker stops at its step limit there is red. A longer one is
/// handed over as its events, and where the limit stops it nonetheless, it is told as not evaluated.
const SMALL: usize = 3000;

/// One claim for the checker, and what is said of it when it is refused.
pub struct Case {
    pub name: String,
    /// The type of the claim's record, and the function that must be true of it.
    pub kind: [&'static str; 2],
    pub literal: String,
    pub is_small: bool,
    pub shown: String,
}

impl Case {
    /// A stream and the judge's dump of it.
    pub fn of_stream(name: &str, stream: &[u8], dump: &str) -> Result<Case, String> {
        let (number, event, chart) = expected(stream, dump).map_err(|error| format!("{name}: {error}"))?;
        let outcome = format!("record {{ number = {number}; event = {event}; chart = {} }}", text(chart.into_iter()));
        let is_small = stream.len() <= SMALL;
        let (kind, literal) = if is_small {
            (["Case", "right"], format!("record {{ stream = {}; outcome = {outcome} }}", bytes(stream)))
        } else {
            let events: String = event::split(stream).into_iter().map(|raw| bytes(raw) + " ∷ ").collect();
            (["Parted", "parted_right"], format!("record {{ events = {events}[]; outcome = {outcome} }}"))
        };
        let lines = String::from_utf8_lossy(stream);
        let shown = format!("--- stream {name}: {number} at {event}\n{lines}--- the Rust\n{dump}");
        Ok(Case { name: name.to_string(), kind, literal, is_small, shown })
    }

    /// A place and the events tried there.
    pub fn of_place(place: &Place) -> Case {
        let tried: String = place.tried.iter().map(|tried| print(&tried.event)).collect();
        let literal = format!(
            "record {{ way = {}; tried = {}; numbers = {} }}",
            bytes(print_all(&place.way).as_bytes()),
            bytes(tried.as_bytes()),
            text(place.tried.iter().map(|tried| tried.number))
        );
        let shown = place.tried.iter().zip(1..);
        let shown: String = shown
            .map(|(tried, i)| format!("{i}: {} {} {}\n", tried.event.kind.word(), tried.event.name, tried.number))
            .collect();
        Case {
            name: format!("in <{}>", place.parent),
            kind: ["Place", "place_right"],
            literal,
            is_small: true,
            shown: format!("--- in <{}>\n{shown}", place.parent),
        }
    }
}

/// The number, the event's place and, for a stream that is taken, the chart as numbers.
fn expected(stream: &[u8], dump: &str) -> Result<(u32, usize, Vec<u32>), String> {
    let deep = walk::too_deep(stream);
    let refused = match dump_parse::parse(dump)? {
        Answer::Accepted(chart) if deep.is_none() => return Ok((0, 0, numbers::of(&chart, &walk::over(stream)))),
        Answer::Accepted(_) => None,
        Answer::Stopped { word, event, reason } => Some((event, number(stream, &word, event, reason.as_deref())?)),
    };
    // The questions stand in the order of their numbers.
    let (event, number) = refused.into_iter().chain(deep).min().ok_or("neither taken nor refused")?;
    Ok((number, event, Vec::new()))
}

/// The number that a refusal of the judge stands for.
fn number(stream: &[u8], word: &str, place: usize, reason: Option<&str>) -> Result<u32, String> {
    match (word, reason) {
        ("form", _) => Ok(3),
        ("keys", _) => Ok(4),
        ("leftout", _) => Ok(6),
        ("refused", Some(reason)) => {
            let raw = event::split(stream).into_iter().nth(place - 1).ok_or("no such event")?;
            let event = event::parse(raw).map_err(|_| "a refused event that is not in form")?;
            refusal::number(&event, reason).ok_or(format!("no number is known for the sentence: {reason}"))
        }
        _ => Err(format!("unknown answer {word}")),
    }
}

fn bytes(bytes: &[u8]) -> String {
    text(bytes.iter().map(|&byte| u32::from(byte)))
}

/// Numbers stand as characters with that code: a text is read much faster than a list of numerals.
fn text(codes: impl Iterator<Item = u32>) -> String {
    let characters: String = codes.map(character).collect();
    format!("str \"{characters}\"")
}

fn character(code: u32) -> String {
    match char::from_u32(code) {
        Some('"') => "\\\"".to_string(),
        Some('\\') => "\\\\".to_string(),
        Some(c) if (' '..='~').contains(&c) => c.to_string(),
        _ => format!("\\u{{{code:x}}}"),
    }
}
