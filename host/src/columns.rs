//! Columns of each kind of row, and the codes in them, as [`Chart::read_row`](crate::Chart::read_row) gives them.
//!
//! A text is two columns: where it begins in the chart's text, plus one, and its length; 0 and 0 where it is absent. Of
//! each text the first column is named.

/// The chart's one row.
pub mod chart {
    pub const ROOT: usize = 0;
    pub const SCRIPT: usize = 1;
    pub const BINDING: usize = 2;
    pub const NAME: usize = 3;
    pub const DATAMODEL: usize = 5;
    pub const VERSION: usize = 7;
}

/// `DONEDATA` is 0 without one; else the parameters from this number on are its own.
pub mod state {
    pub const NAME: usize = 0;
    pub const DOC: usize = 2;
    pub const INITIAL: usize = 3;
    pub const PARENT: usize = 4;
    pub const PARALLEL: usize = 5;
    pub const FINAL: usize = 6;
    pub const HISTORY: usize = 7;
    pub const DONEDATA: usize = 8;
    pub const HAS_CONTENT: usize = 9;
    pub const TEXT: usize = 10;
    pub const EXPR: usize = 12;
}

pub mod transition {
    pub const NUMBER: usize = 0;
    pub const DOC: usize = 1;
    pub const SOURCE: usize = 2;
    pub const TYPE: usize = 3;
    pub const WILDCARD: usize = 4;
    pub const CONTENT: usize = 5;
    pub const COND: usize = 6;
}

pub mod region {
    pub const NUMBER: usize = 0;
}

pub mod entry {
    pub const REGION: usize = 0;
    pub const KIND: usize = 1;
    pub const STATE: usize = 2;
    pub const CONTENT: usize = 3;
    pub const ELSE: usize = 4;
    pub const HAS_CONTENT: usize = 5;
    pub const COND: usize = 6;
    pub const ARRAY: usize = 8;
    pub const EXPR: usize = 10;
    pub const EVENT: usize = 12;
    pub const EVENTEXPR: usize = 14;
    pub const TARGET: usize = 16;
    pub const TARGETEXPR: usize = 18;
    pub const TYPE: usize = 20;
    pub const TYPEEXPR: usize = 22;
    pub const ID: usize = 24;
    pub const IDLOCATION: usize = 26;
    pub const DELAYEXPR: usize = 28;
    pub const SENDID: usize = 30;
    pub const SENDIDEXPR: usize = 32;
    pub const LOCATION: usize = 34;
    pub const LABEL: usize = 36;
    pub const ITEM: usize = 38;
    pub const INDEX: usize = 40;
    pub const TEXT: usize = 42;
}

pub mod invoke {
    pub const STATE: usize = 0;
    pub const AUTOFORWARD: usize = 1;
    pub const FINALIZE: usize = 2;
    pub const HAS_CONTENT: usize = 3;
    pub const TYPE: usize = 4;
    pub const TYPEEXPR: usize = 6;
    pub const SRC: usize = 8;
    pub const SRCEXPR: usize = 10;
    pub const ID: usize = 12;
    pub const IDLOCATION: usize = 14;
    pub const TEXT: usize = 16;
    pub const EXPR: usize = 18;
}

/// The value is in one of the two columns `EXPR` and `TEXT`.
pub mod datum {
    pub const STATE: usize = 0;
    pub const ID: usize = 1;
    pub const EXPR: usize = 3;
    pub const TEXT: usize = 5;
}

pub mod parameter {
    pub const KIND: usize = 0;
    pub const OWNER: usize = 1;
    pub const NAME: usize = 2;
    pub const EXPR: usize = 4;
    pub const LOCATION: usize = 6;
}

pub mod member {
    pub const LIST: usize = 0;
    pub const OWNER: usize = 1;
    pub const VALUE: usize = 2;
    pub const WORD: usize = 3;
}

/// Of an entry and of an invoke as they are read: the name of the state that they keep.
pub mod shown {
    pub const STATE_NAME: usize = 48;
}

/// What an entry is.
pub mod entry_kind {
    pub const IF: u32 = 1;
    pub const SCRIPT: u32 = 2;
    pub const LOG: u32 = 3;
    pub const FOREACH: u32 = 4;
    pub const SEND: u32 = 5;
    pub const RAISE: u32 = 6;
    pub const CANCEL: u32 = 7;
    pub const ASSIGN: u32 = 8;
}

/// Whose parameter it is: its owner is an entry, an invoke or a state.
pub mod owner_kind {
    pub const SEND: u32 = 1;
    pub const INVOKE: u32 = 2;
    pub const DONEDATA: u32 = 3;
}

/// Which list a member is of.
pub mod list {
    pub const CHILDREN: u32 = 1;
    pub const HISTORY: u32 = 2;
    pub const ONENTRY: u32 = 3;
    pub const ONEXIT: u32 = 4;
    pub const TRANSITIONS: u32 = 5;
    pub const TARGETS: u32 = 6;
    pub const EVENTS: u32 = 7;
    pub const SEND_NAMES: u32 = 8;
    pub const INVOKE_NAMES: u32 = 9;
}
