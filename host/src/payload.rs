//! Views of what a send, an invoke or a donedata carries.

use crate::action::Entry;
use crate::columns::{owner_kind, parameter, state};
use crate::row::{shown, texts, Row};
use crate::view::{Invoke, State};

/// What a send, an invoke or a donedata carries: a content, parameters, or both.
#[derive(Clone, Copy)]
pub struct Payload<'a> {
    pub(crate) row: Row<'a>,
    /// Whether there is a content, its text and its expression.
    pub(crate) columns: [usize; 3],
    pub(crate) kind: u32,
    pub(crate) owner: u32,
}

impl<'a> Payload<'a> {
    /// The content, if there is one.
    pub fn content(&self) -> Option<Content<'a>> {
        let [there, text, expr] = self.columns;
        self.row.flag(there).then(|| Content { text: self.row.text(text), expr: self.row.text(expr) })
    }

    /// The parameters, in order.
    pub fn params(&self) -> impl Iterator<Item = Parameter<'a>> {
        let Payload { kind, owner, .. } = *self;
        let mine = move |row: &Row| row.number(parameter::KIND) == kind && row.number(parameter::OWNER) == owner;
        self.row.chart.parameters().filter(move |found| mine(&found.row))
    }
}

/// The content of a payload: a text, an expression, or neither.
#[derive(Debug, Clone, Copy, PartialEq, Eq)]
pub struct Content<'a> {
    /// The element's trimmed text.
    pub text: Option<&'a str>,
    /// The attribute `expr`.
    pub expr: Option<&'a str>,
}

/// A parameter of a payload.
#[derive(Clone, Copy)]
pub struct Parameter<'a> {
    pub(crate) number: u32,
    pub(crate) row: Row<'a>,
}

/// Whose parameter it is.
#[derive(Debug, Clone, Copy)]
pub enum Owner<'a> {
    /// The entry of a send.
    Send(Entry<'a>),
    /// An invoke.
    Invoke(Invoke<'a>),
    /// A final state with donedata.
    Donedata(State<'a>),
}

impl<'a> Parameter<'a> {
    texts! {
        /// The attribute `expr`; absent and empty are one.
        expr: parameter::EXPR;
        /// The attribute `location`; absent and empty are one.
        location: parameter::LOCATION;
    }

    /// Its number, by creation from 1.
    pub fn number(&self) -> u32 {
        self.number
    }

    /// Its name.
    pub fn name(&self) -> &'a str {
        self.row.given(parameter::NAME)
    }

    /// Whose it is.
    pub fn owner(&self) -> Option<Owner<'a>> {
        let place = (self.row.number(parameter::OWNER) as usize).checked_sub(1)?;
        match self.row.number(parameter::KIND) {
            owner_kind::SEND => self.row.chart.entries().nth(place).map(Owner::Send),
            owner_kind::INVOKE => self.row.chart.invokes().nth(place).map(Owner::Invoke),
            _ => self.row.state(parameter::OWNER).map(Owner::Donedata),
        }
    }

    /// Whether another donedata has replaced its own.
    pub(crate) fn has_left(&self) -> bool {
        let of_donedata = self.row.number(parameter::KIND) == owner_kind::DONEDATA;
        let owner = self.row.state(parameter::OWNER).filter(|_| of_donedata);
        owner.is_some_and(|owner| self.number < owner.row.number(state::DONEDATA))
    }
}

shown! {
    Payload: content;
    Parameter: number, name;
}
