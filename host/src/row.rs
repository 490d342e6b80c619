//! One row of a chart's tables, and what its columns say.

use crate::columns::member;
use crate::view::{Region, State, Transition};
use crate::{Chart, RegionId, StateId, TransitionId};

/// The numbers of a row, and the chart that they speak of.
#[derive(Clone, Copy)]
pub(crate) struct Row<'a> {
    pub chart: &'a Chart,
    pub cells: &'a [u32],
}

impl<'a> Row<'a> {
    pub fn number(&self, column: usize) -> u32 {
        self.cells[column]
    }

    pub fn flag(&self, column: usize) -> bool {
        self.cells[column] == 1
    }

    /// The text of a column; nothing where it is absent, which is not the text of no bytes.
    pub fn text(&self, column: usize) -> Option<&'a str> {
        let (at, length) = (self.cells[column] as usize, self.cells[column + 1] as usize);
        let bytes = &self.chart.text()[at.checked_sub(1)?..][..length];
        Some(std::str::from_utf8(bytes).expect("the reader takes only bytes up to 127"))
    }

    /// A text that every row of the kind has.
    pub fn given(&self, column: usize) -> &'a str {
        self.text(column).unwrap_or_default()
    }

    pub fn state(&self, column: usize) -> Option<State<'a>> {
        self.chart.state(StateId::new(self.cells[column])?)
    }

    pub fn transition(&self, column: usize) -> Option<Transition<'a>> {
        self.chart.transition(TransitionId::new(self.cells[column])?)
    }

    pub fn region(&self, column: usize) -> Option<Region<'a>> {
        self.chart.region(RegionId::new(self.cells[column])?)
    }
}

/// The members of one list of one owner, in order of creation.
pub(crate) fn listed(chart: &Chart, list: u32, owner: u32) -> impl Iterator<Item = Row<'_>> {
    let mine = move |row: &Row| row.number(member::LIST) == list && row.number(member::OWNER) == owner;
    chart.members().filter(mine)
}

pub(crate) fn listed_states(chart: &Chart, list: u32, owner: u32) -> impl Iterator<Item = State<'_>> {
    listed(chart, list, owner).filter_map(|row| row.state(member::VALUE))
}

pub(crate) fn listed_transitions(chart: &Chart, list: u32, owner: u32) -> impl Iterator<Item = Transition<'_>> {
    listed(chart, list, owner).filter_map(|row| row.transition(member::VALUE))
}

pub(crate) fn listed_regions(chart: &Chart, list: u32, owner: u32) -> impl Iterator<Item = Region<'_>> {
    listed(chart, list, owner).filter_map(|row| row.region(member::VALUE))
}

pub(crate) fn listed_words(chart: &Chart, list: u32, owner: u32) -> impl Iterator<Item = &str> {
    listed(chart, list, owner).map(|row| row.given(member::WORD))
}

/// Texts of a row, each under its attribute's name.
macro_rules! texts {
    ($($(#[$doc:meta])* $name:ident: $column:expr;)*) => {
        $(
            $(#[$doc])*
            pub fn $name(&self) -> Option<&'a str> {
                self.row.text($column)
            }
        )*
    };
}

/// A view shows itself by its number, and by its name where it has one.
macro_rules! shown {
    ($($name:ident: $($field:ident),+;)*) => {
        $(
            impl std::fmt::Debug for $name<'_> {
                fn fmt(&self, f: &mut std::fmt::Formatter<'_>) -> std::fmt::Result {
                    f.debug_struct(stringify!($name))$(.field(stringify!($field), &self.$field()))+.finish_non_exhaustive()
                }
            }
        )*
    };
}

pub(crate) use {shown, texts};
