//! Views of a region's entries: the actions.

use crate::columns::{entry, entry_kind, list, owner_kind};
use crate::payload::Payload;
use crate::row::{listed_words, shown, texts, Row};
use crate::view::{Region, State};

/// An entry of a region: one action.
#[derive(Clone, Copy)]
pub struct Entry<'a> {
    pub(crate) number: u32,
    pub(crate) row: Row<'a>,
}

impl<'a> Entry<'a> {
    /// Its number, by creation from 1.
    pub fn number(&self) -> u32 {
        self.number
    }

    /// The region that holds it.
    pub fn region(&self) -> Option<Region<'a>> {
        self.row.region(entry::REGION)
    }

    /// What is done.
    pub fn action(&self) -> Action<'a> {
        let (row, text, given) = (self.row, |c| self.row.text(c), |c| self.row.given(c));
        match row.number(entry::KIND) {
            entry_kind::IF => Action::If {
                cond: given(entry::COND),
                content: row.region(entry::CONTENT),
                otherwise: row.region(entry::ELSE),
            },
            entry_kind::SCRIPT => Action::Script { text: given(entry::TEXT) },
            entry_kind::LOG => Action::Log { label: text(entry::LABEL), expr: given(entry::EXPR) },
            entry_kind::FOREACH => Action::Foreach {
                array: given(entry::ARRAY),
                item: given(entry::ITEM),
                index: text(entry::INDEX),
                content: row.region(entry::CONTENT),
            },
            entry_kind::SEND => Action::Send(SendParameters { number: self.number, row }),
            entry_kind::RAISE => Action::Raise { event: given(entry::EVENT) },
            entry_kind::CANCEL => Action::Cancel { sendid: text(entry::SENDID), sendidexpr: text(entry::SENDIDEXPR) },
            _ => Action::Assign { location: given(entry::LOCATION), value: text(entry::EXPR).or(text(entry::TEXT)) },
        }
    }
}

/// What an entry does.
#[derive(Debug, Clone, Copy)]
pub enum Action<'a> {
    /// An if, or the elseif that its else region holds as an if.
    If {
        /// The condition.
        cond: &'a str,
        /// What is done where it holds.
        content: Option<Region<'a>>,
        /// What is done where it does not.
        otherwise: Option<Region<'a>>,
    },
    /// A script.
    Script {
        /// Its trimmed text.
        text: &'a str,
    },
    /// A line for the log.
    Log {
        /// What stands before it.
        label: Option<&'a str>,
        /// What is written.
        expr: &'a str,
    },
    /// Something done for each item of an array.
    Foreach {
        /// The array.
        array: &'a str,
        /// Where each item is put.
        item: &'a str,
        /// Where its place is put.
        index: Option<&'a str>,
        /// What is done.
        content: Option<Region<'a>>,
    },
    /// An event sent out.
    Send(SendParameters<'a>),
    /// An event for the chart itself.
    Raise {
        /// Its name.
        event: &'a str,
    },
    /// A send taken back.
    Cancel {
        /// Its id.
        sendid: Option<&'a str>,
        /// An expression for its id.
        sendidexpr: Option<&'a str>,
    },
    /// A value put at a location.
    Assign {
        /// The location.
        location: &'a str,
        /// The expression, or the element's text in quotes.
        value: Option<&'a str>,
    },
}

/// An event sent out.
#[derive(Clone, Copy)]
pub struct SendParameters<'a> {
    number: u32,
    row: Row<'a>,
}

impl<'a> SendParameters<'a> {
    texts! {
        /// The attribute `event`.
        event: entry::EVENT;
        /// The attribute `eventexpr`.
        eventexpr: entry::EVENTEXPR;
        /// The attribute `target`.
        target: entry::TARGET;
        /// The attribute `targetexpr`.
        targetexpr: entry::TARGETEXPR;
        /// The attribute `type`.
        type_value: entry::TYPE;
        /// The attribute `typeexpr`.
        typeexpr: entry::TYPEEXPR;
        /// The attribute `id`; absent and empty are one.
        id: entry::ID;
        /// The attribute `idlocation`; absent and empty are one.
        idlocation: entry::IDLOCATION;
        /// The attribute `delayexpr`.
        delayexpr: entry::DELAYEXPR;
    }

    /// The state around it, for the id of a send that has none.
    pub fn state(&self) -> Option<State<'a>> {
        self.row.state(entry::STATE)
    }

    /// The words of its `namelist`.
    pub fn namelist(&self) -> impl Iterator<Item = &'a str> {
        listed_words(self.row.chart, list::SEND_NAMES, self.number)
    }

    /// What it carries.
    pub fn payload(&self) -> Payload<'a> {
        let columns = [entry::HAS_CONTENT, entry::TEXT, entry::EXPR];
        Payload { row: self.row, columns, kind: owner_kind::SEND, owner: self.number }
    }
}

shown! {
    Entry: number, action;
    SendParameters: event, target;
}
