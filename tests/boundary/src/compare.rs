//! The reader held to what the judge says of a stream: the number, the refused event, and the whole chart through rows read.

use crate::charted::chart_of;
use crate::lent::Lent;
use rufsm::chart::Chart;
use rufsm::dump_parse::Answer;
use rufsm::event::Kind;
use rufsm::judge::Verdict;
use rufsm::{dump, event, refusal};

const OPENED: i32 = 32;

/// What the reader must answer. event: the refused event's place, 0 where all are accepted.
#[derive(Debug, Clone, PartialEq, Eq)]
pub struct Expected {
    pub number: u32,
    pub event: usize,
    pub chart: Option<Chart>,
}

fn refused(number: u32, event: usize) -> Expected {
    Expected { number, event, chart: None }
}

fn accepted(chart: &Chart) -> Expected {
    Expected { number: 0, event: 0, chart: Some(chart.clone()) }
}

/// A panic's sentence tells the number.
fn panicked(stream: &[u8], place: usize, reason: &str) -> Expected {
    let raw = event::split(stream)[place - 1];
    let event = event::parse(raw).expect("the handlers saw an event in form");
    let number = refusal::number(&event, reason).unwrap_or_else(|| panic!("no number for {reason}"));
    refused(number, place)
}

/// The first event that would open a 33rd element, from 1. The judge has no such limit.
fn too_deep(stream: &[u8]) -> Option<usize> {
    let mut depth = 0;
    for (place, raw) in event::split(stream).into_iter().enumerate() {
        let kind = event::parse(raw).ok()?.kind;
        match kind {
            Kind::End => depth -= 1,
            _ if depth == OPENED => return Some(place + 1),
            Kind::Open => depth += 1,
            _ => {}
        }
    }
    None
}

/// What the judge says, and 7 where it goes on beyond 32 open elements: questions 3 to 6 come before, all others after.
pub fn by_verdict(stream: &[u8], verdict: &Verdict) -> Expected {
    let said = match verdict {
        Verdict::Accepted(chart) => accepted(chart),
        Verdict::Form { event, .. } => refused(3, *event),
        Verdict::Keys { event } => refused(4, *event),
        Verdict::LeftOut { event, .. } => refused(6, *event),
        Verdict::Refused { event, reason } => panicked(stream, *event, reason),
    };
    let before = |place: usize| said.number == 0 || place < said.event || (place == said.event && said.number > 7);
    match too_deep(stream) {
        Some(place) if before(place) => refused(7, place),
        _ => said,
    }
}

/// Of a recorded dump.
pub fn by_dump(stream: &[u8], answer: &Answer) -> Expected {
    let Answer::Stopped { word, event, reason } = answer else {
        let Answer::Accepted(chart) = answer else { unreachable!() };
        return accepted(chart);
    };
    match word.as_str() {
        "form" => refused(3, *event),
        "keys" => refused(4, *event),
        "leftout" => refused(6, *event),
        _ => panicked(stream, *event, reason.as_deref().expect("a reason")),
    }
}

/// A stream's events one by one, up to the first refusal.
pub fn feed_events(lent: &mut Lent, stream: &[u8]) -> (u32, usize) {
    for (place, raw) in event::split(stream).into_iter().enumerate() {
        let number = lent.event(raw);
        if number != 0 {
            return (number, place + 1);
        }
    }
    (0, 0)
}

/// The chart as a dump, from rows read; data by their ids, as the dump has them.
pub fn dump_of(lent: &Lent) -> String {
    let mut chart = chart_of(lent);
    for state in &mut chart.states {
        state.data.sort_by(|a, b| a.id.as_bytes().cmp(b.id.as_bytes()));
    }
    dump::print(&chart)
}

/// The stream as one and event by event, with the same tables after both; then the chart. What differs is told.
pub fn check(stream: &[u8], expected: &Expected) -> Result<Lent, String> {
    let (mut lent, mut single) = (Lent::zeros(), Lent::zeros());
    let answer = lent.stream(stream);
    if answer != (expected.number, expected.event) {
        return Err(format!("answer {answer:?}, expected {:?}", (expected.number, expected.event)));
    }
    let by_events = feed_events(&mut single, stream);
    if by_events != answer || !single.same(&lent) {
        return Err(format!("event by event {by_events:?}, or other tables"));
    }
    match &expected.chart {
        Some(chart) if dump_of(&lent) != dump::print(chart) => {
            Err(format!("another chart:\n{}expected:\n{}", dump_of(&lent), dump::print(chart)))
        }
        _ => Ok(lent),
    }
}
