//! Charts from event lines: a safe crate over the proved reader's C functions.
//!
//! A [`Chart`] owns its tables. It is fed a chart's elements as *event lines*, one event or a whole stream at a time; each
//! event is accepted, or refused with the number of the first question that it fails, and then nothing has changed.
//!
//! ```
//! use host::Chart;
//!
//! let mut chart = Chart::new();
//! chart.feed(b"event=open\nname=scxml\nkey=name\nvalue=lamp\n")?;
//! chart.feed_stream(b"event=open\nname=state\nkey=id\nvalue=off\n\
//!     event=empty\nname=transition\nkey=event\nvalue=lamp.strike\nkey=target\nvalue=lit\n\
//!     event=end\nname=state\n")?;
//! chart.feed(b"event=empty\nname=state\nkey=id\nvalue=lit\n")?;
//! chart.feed(b"event=end\nname=scxml\n")?;
//!
//! let off = chart.state_named("off").expect("a state");
//! for transition in off.transitions() {
//!     let words: Vec<&str> = transition.events().collect();
//!     let targets: Vec<&str> = transition.targets().map(|state| state.name()).collect();
//!     assert_eq!((words, targets), (vec!["lamp.strike"], vec!["lit"]));
//! }
//!
//! let refusal = chart.feed(b"event=empty\nname=state\n").unwrap_err();
//! assert_eq!(refusal.to_string(), "8: Is the parent allowed? No.");
//! # Ok::<(), host::Refusal>(())
//! ```
//!
//! # How rows are read
//!
//! The reader gives a row by kind and number ([`Chart::read_row`]), and asks first whether all that is lent keeps the chart
//! rules: up to a quarter of a millisecond on full tables, for every row. A C program that lends memory which others write
//! wants that. A `Chart` does not: its tables are private, only the reader writes them, and it is proved that from the empty
//! chart every event keeps the rules. So [`State`], [`Transition`], [`Region`] and the other views look into the tables
//! at once. A test holds each row that they see to the row that the reader gives.
//!
//! # Numbers
//!
//! States, transitions and regions have numbers of three types, [`StateId`], [`TransitionId`] and [`RegionId`], and one
//! given for another does not compile:
//!
//! ```compile_fail
//! let chart = host::Chart::new();
//! let region: host::RegionId = chart.regions().next().unwrap().id();
//! chart.state(region);
//! ```
//!
//! Entries, invokes, data and parameters are numbered by creation, from 1.

#![deny(unsafe_code)]
#![warn(missing_docs)]

mod action;
#[cfg(test)]
mod agreement;
mod chart;
#[allow(missing_docs)]
pub mod columns;
mod ffi;
mod id;
pub mod listing;
mod payload;
pub mod picture;
mod refusal;
mod row;
pub mod stream;
mod tables;
mod view;

pub use action::{Action, Entry, SendParameters};
pub use chart::{Binding, Chart, Kind, ReadRow};
pub use ffi::Position;
pub use id::{RegionId, StateId, TransitionId};
pub use payload::{Content, Owner, Parameter, Payload};
pub use refusal::Refusal;
pub use view::{Datum, HistoryType, Invoke, Region, State, Transition, TransitionType};

/// How many numbers a row has as it is read, and how many bytes.
pub const ROW_COLUMNS: usize = 50;
const ROW_BYTES: usize = 4 * ROW_COLUMNS;
