//! The library's C functions, and the one place with unsafe code.
//!
//! What makes it sound: every slice is the pointer and the length of an array that [`Tables`] owns, the arrays do not
//! overlap, and the functions keep no pointer after the call. Their contracts ask nothing of the bytes that are lent: they
//! stay in bounds and return on all of them.

#![allow(unsafe_code)]

use crate::tables::Tables;
use crate::ROW_BYTES;

/// The reading position: it goes to the reader by value and comes back.
#[repr(C)]
#[derive(Debug, Clone, Copy, Default, PartialEq, Eq)]
pub struct Position {
    /// Open elements.
    pub opened: u32,
    /// States in use.
    pub states: u32,
    /// Transitions in use.
    pub transitions: u32,
    /// Regions in use.
    pub regions: u32,
    /// Entries in use.
    pub entries: u32,
    /// Invokes in use.
    pub invokes: u32,
    /// Data in use.
    pub data: u32,
    /// Parameters in use, with those that have left the chart.
    pub parameters: u32,
    /// Members of lists in use.
    pub members: u32,
    /// Regions that go on when the current one is closed.
    pub open_regions: u32,
    /// The region that takes the next entry, or 0.
    pub current: u32,
    /// Numbers drawn for transitions and regions.
    pub ids: u32,
    /// Doc ids drawn.
    pub docs: u32,
    /// Names generated.
    pub names: u32,
    /// Bytes of text in use.
    pub used: u32,
    /// The text charge.
    pub charge: u32,
}

/// What one event got.
#[repr(C)]
pub(crate) struct Answer {
    pub number: u32,
    pub position: Position,
}

/// What a stream got: `event` is the refused event's place from 1, or 0.
#[repr(C)]
pub(crate) struct Streamed {
    pub number: u32,
    pub event: usize,
    pub position: Position,
}

/// Declares a function that takes all slices first, each as a pointer and a number of rows, and then the position.
macro_rules! declared {
    ($name:ident, $access:tt, ($($more:ident: $type:ty),*) -> $answer:ty) => {
        extern "C" {
            fn $name(
                chart: *$access [u32; 24],
                chart_rows: usize,
                states: *$access [u32; 24],
                state_rows: usize,
                transitions: *$access [u32; 8],
                transition_rows: usize,
                regions: *$access [u32; 8],
                region_rows: usize,
                entries: *$access [u32; 48],
                entry_rows: usize,
                invokes: *$access [u32; 24],
                invoke_rows: usize,
                data: *$access [u32; 8],
                data_rows: usize,
                parameters: *$access [u32; 8],
                parameter_rows: usize,
                members: *$access [u32; 8],
                member_rows: usize,
                opened: *$access [u32; 8],
                opened_rows: usize,
                open_names: *$access [u8; 64],
                open_name_rows: usize,
                open_regions: *$access [u32; 8],
                open_region_rows: usize,
                text: *$access u8,
                text_bytes: usize,
                position: Position,
                $($more: $type),*
            ) -> $answer;
        }
    };
}

declared!(chart_event, mut, (event: *const u8, event_bytes: usize) -> Answer);
declared!(chart_stream, mut, (events: *const u8, events_bytes: usize) -> Streamed);
declared!(chart_read_row, const, (kind: u32, number: u32, row: *mut u8, row_bytes: usize) -> u32);

/// Calls such a function with the tables lent by `as_ptr` or `as_mut_ptr`.
macro_rules! called {
    ($name:ident, $tables:ident, $lend:ident, $($more:expr),*) => {
        $name(
            $tables.chart.$lend(),
            $tables.chart.len(),
            $tables.states.$lend(),
            $tables.states.len(),
            $tables.transitions.$lend(),
            $tables.transitions.len(),
            $tables.regions.$lend(),
            $tables.regions.len(),
            $tables.entries.$lend(),
            $tables.entries.len(),
            $tables.invokes.$lend(),
            $tables.invokes.len(),
            $tables.data.$lend(),
            $tables.data.len(),
            $tables.parameters.$lend(),
            $tables.parameters.len(),
            $tables.members.$lend(),
            $tables.members.len(),
            $tables.opened.$lend(),
            $tables.opened.len(),
            $tables.open_names.$lend(),
            $tables.open_names.len(),
            $tables.open_regions.$lend(),
            $tables.open_regions.len(),
            $tables.text.$lend(),
            $tables.text.len(),
            $($more),*
        )
    };
}

pub(crate) fn event(tables: &mut Tables, position: Position, event: &[u8]) -> Answer {
    unsafe { called!(chart_event, tables, as_mut_ptr, position, event.as_ptr(), event.len()) }
}

pub(crate) fn stream(tables: &mut Tables, position: Position, events: &[u8]) -> Streamed {
    unsafe { called!(chart_stream, tables, as_mut_ptr, position, events.as_ptr(), events.len()) }
}

/// The number, and the row's bytes, lowest first.
pub(crate) fn read_row(tables: &Tables, position: Position, kind: u32, number: u32) -> (u32, [u8; ROW_BYTES]) {
    let mut row = [0; ROW_BYTES];
    let answer =
        unsafe { called!(chart_read_row, tables, as_ptr, position, kind, number, row.as_mut_ptr(), row.len()) };
    (answer, row)
}
