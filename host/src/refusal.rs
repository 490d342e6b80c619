//! A refusal: which question was answered no.

use std::error::Error;
use std::fmt;

/// The question behind each number, from 1.
const QUESTIONS: [&str; 16] = [
    "Are the lent slices long enough for every limit?",
    "Do the lent rows and the reading position keep the chart rules and the limits?",
    "Is the event in form and within its own limits, bytes up to 127?",
    "Are its keys different?",
    "Does the end close the innermost open element?",
    "Is it neither include, nor data or script with src, nor send with delay?",
    "Are fewer than 32 elements open?",
    "Is the parent allowed?",
    "Is this scxml the first?",
    "Are the required attributes there?",
    "Are attributes and texts that exclude each other apart?",
    "Are binding, history type and transition type words that are known?",
    "Is the state without an initial transition so far?",
    "Does the else walk meet an if in every region?",
    "Would the chart stay within the limits?",
    "Does the row exist?",
];

/// Why an event was not taken, or a row not given: the number of the first question that was answered no.
///
/// ```
/// let mut chart = host::Chart::new();
/// let refusal = chart.feed_stream(b"event=open\nname=scxml\nevent=end\nname=state\n").unwrap_err();
/// assert_eq!(refusal.number(), 5);
/// assert_eq!(refusal.event(), Some(2));
/// assert_eq!(refusal.question(), "Does the end close the innermost open element?");
/// assert_eq!(refusal.to_string(), "event 2: 5: Does the end close the innermost open element? No.");
/// ```
#[derive(Debug, Clone, Copy, PartialEq, Eq, Hash)]
pub struct Refusal {
    number: u32,
    event: Option<usize>,
}

impl Refusal {
    /// Nothing for 0, which is no refusal.
    pub(crate) fn of(number: u32, event: Option<usize>) -> Result<(), Refusal> {
        match number {
            0 => Ok(()),
            _ => Err(Refusal { number, event }),
        }
    }

    /// The number of the question, 1 to 16.
    pub fn number(&self) -> u32 {
        self.number
    }

    /// The refused event's place in its stream, from 1; nothing where a single event was fed or a row was read.
    pub fn event(&self) -> Option<usize> {
        self.event
    }

    /// The question, in words.
    pub fn question(&self) -> &'static str {
        let place = self.number as usize;
        QUESTIONS.get(place.wrapping_sub(1)).copied().unwrap_or("Is the number known?")
    }
}

impl fmt::Display for Refusal {
    fn fmt(&self, f: &mut fmt::Formatter<'_>) -> fmt::Result {
        if let Some(event) = self.event {
            write!(f, "event {event}: ")?;
        }
        write!(f, "{}: {} No.", self.number, self.question())
    }
}

impl Error for Refusal {}
