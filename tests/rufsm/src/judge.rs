//! The judge: a stream of events in, the reference's verdict out.
//! Events that are not in form, repeat a key or are left out never reach the handlers.

use crate::chart::Chart;
use crate::event::{Event, Fault, Kind};
use std::fmt;
use std::io::Write;

/// What becomes of a stream. `event` counts from 1.
#[derive(Debug, Clone, PartialEq, Eq)]
pub enum Verdict {
    Accepted(Box<Chart>),
    Refused { event: usize, reason: String },
    LeftOut { event: usize, class: &'static str },
    Form { event: usize, class: &'static str },
    Keys { event: usize },
}

/// The reference folder was not there when this was built.
#[derive(Debug, Clone, Copy, PartialEq, Eq)]
pub struct Absent;

impl fmt::Display for Absent {
    fn fmt(&self, f: &mut fmt::Formatter<'_>) -> fmt::Result {
        f.write_str("skipped: the reference folder was not there at build time, so there is no judge")
    }
}

/// All classes of `Verdict::LeftOut`.
pub const LEFT_OUT: [&str; 4] = ["include", "data src", "script src", "send delay"];

/// Whether a start is one of the features that are not read here.
pub fn left_out(event: &Event) -> Option<&'static str> {
    let has = |key: &str| event.value(key).is_some();
    match event.name.as_str() {
        _ if event.kind == Kind::End => None,
        "include" => Some(LEFT_OUT[0]),
        "data" if has("src") => Some(LEFT_OUT[1]),
        "script" if has("src") => Some(LEFT_OUT[2]),
        "send" if has("delay") => Some(LEFT_OUT[3]),
        _ => None,
    }
}

/// The event number `event` as the handlers may see it, or the verdict that ends the stream before them.
pub fn admit(raw: &[u8], event: usize) -> Result<Event, Verdict> {
    match crate::event::parse(raw) {
        Err(Fault::Form(class)) => Err(Verdict::Form { event, class }),
        Err(Fault::Keys) => Err(Verdict::Keys { event }),
        Ok(parsed) => match left_out(&parsed) {
            Some(class) => Err(Verdict::LeftOut { event, class }),
            None => Ok(parsed),
        },
    }
}

/// Names and hashes of the reference's files, as they were at build time; empty without them.
pub fn source_hashes() -> Vec<(&'static str, &'static str)> {
    env!("RUFSM_HASHES").split_whitespace().filter_map(|pair| pair.split_once(':')).collect()
}

#[cfg(not(reference))]
mod run {
    use super::{Absent, Verdict};
    use crate::event::Event;
    use crate::lack::Lack;

    /// No reference, no judge.
    pub fn judge(_stream: &[u8]) -> Result<Verdict, Absent> {
        Err(Absent)
    }

    pub fn without(_before: &[Event], _lack: Lack, _event: &Event) -> Result<Result<(), String>, Absent> {
        Err(Absent)
    }

    pub fn build_times(_events: &[Event], _rounds: usize) -> Result<Vec<[u128; 2]>, Absent> {
        Err(Absent)
    }

    pub fn available() -> bool {
        false
    }
}

#[cfg(reference)]
mod run {
    use super::{admit, Absent, Verdict};
    use crate::event::{split, Event};
    use crate::lack::Lack;
    use crate::scxml_reader::driver::Run;
    use std::any::Any;
    use std::cell::Cell;
    use std::panic::{catch_unwind, set_hook, take_hook, AssertUnwindSafe};
    use std::sync::{Mutex, MutexGuard, Once};
    use std::time::Instant;

    /// The reference's counters are process-wide: one run at a time.
    static ONE_RUN: Mutex<()> = Mutex::new(());
    static HOOK: Once = Once::new();

    thread_local! {
        static QUIET: Cell<bool> = const { Cell::new(false) };
    }

    /// Panics of the handlers are refusals and print nothing; all others print as before.
    fn quiet_hook() {
        HOOK.call_once(|| {
            let before = take_hook();
            set_hook(Box::new(move |info| {
                if !QUIET.with(Cell::get) {
                    before(info)
                }
            }));
        });
    }

    fn alone() -> MutexGuard<'static, ()> {
        quiet_hook();
        ONE_RUN.lock().unwrap_or_else(|poisoned| poisoned.into_inner())
    }

    fn reason(panic: Box<dyn Any + Send>) -> String {
        match panic.downcast::<String>() {
            Ok(text) => *text,
            Err(other) => other.downcast_ref::<&str>().map_or(String::new(), |text| text.to_string()),
        }
    }

    fn step(run: &mut Run, event: &Event) -> Result<(), String> {
        QUIET.with(|quiet| quiet.set(true));
        let result = catch_unwind(AssertUnwindSafe(|| run.step(event)));
        QUIET.with(|quiet| quiet.set(false));
        result.map_err(reason)
    }

    /// The reference's verdict on a stream.
    pub fn judge(stream: &[u8]) -> Result<Verdict, Absent> {
        let _alone = alone();
        let mut run = Run::new();
        for (index, raw) in split(stream).into_iter().enumerate() {
            let event = match admit(raw, index + 1) {
                Ok(event) => event,
                Err(verdict) => return Ok(verdict),
            };
            if let Err(reason) = step(&mut run, &event) {
                return Ok(Verdict::Refused { event: index + 1, reason });
            }
        }
        Ok(Verdict::Accepted(Box::new(run.chart())))
    }

    /// One event after others that are taken and something then taken away: the reason where the handlers panic.
    pub fn without(before: &[Event], lack: Lack, event: &Event) -> Result<Result<(), String>, Absent> {
        let _alone = alone();
        let mut run = Run::new();
        for event in before {
            step(&mut run, event).expect("an event that is taken");
        }
        run.lack(lack);
        Ok(step(&mut run, event))
    }

    /// Nanoseconds to build the chart, without and with freeing it, for each round.
    pub fn build_times(events: &[Event], rounds: usize) -> Result<Vec<[u128; 2]>, Absent> {
        let _alone = alone();
        let round = || {
            let begin = Instant::now();
            let mut run = Run::new();
            events.iter().for_each(|event| run.step(event));
            let built = begin.elapsed().as_nanos();
            drop(run);
            [built, begin.elapsed().as_nanos()]
        };
        Ok((0..rounds).map(|_| round()).collect())
    }

    pub fn available() -> bool {
        true
    }
}

pub use run::{available, build_times, judge, without};

/// For tests: false when there is no reference to ask, with a line that the test harness does not swallow.
pub fn is_there(test: &str) -> bool {
    if !available() {
        let _ = std::io::stderr().write_all(format!("{test}: {Absent}\n").as_bytes());
    }
    available()
}

/// For tests: the verdict, where the judge is known to be there.
pub fn verdict(stream: &[u8]) -> Verdict {
    judge(stream).expect("the judge is there")
}
