//! Views of rows: what states, transitions, regions, invokes and data say, read from the chart's own tables.

use crate::action::Entry;
use crate::columns::{datum, entry, invoke, list, owner_kind, state, transition};
use crate::payload::Payload;
use crate::row::{listed_regions, listed_states, listed_transitions, listed_words, shown, texts, Row};
use crate::{RegionId, StateId, TransitionId};

/// What a history state keeps; `None` for a state that is no history.
#[derive(Debug, Clone, Copy, PartialEq, Eq, Hash)]
#[allow(missing_docs)]
pub enum HistoryType {
    None,
    Shallow,
    Deep,
}

/// Whether a transition leaves its source.
#[derive(Debug, Clone, Copy, PartialEq, Eq, Hash)]
#[allow(missing_docs)]
pub enum TransitionType {
    External,
    Internal,
}

/// A state.
#[derive(Clone, Copy)]
pub struct State<'a> {
    pub(crate) id: StateId,
    pub(crate) row: Row<'a>,
}

impl<'a> State<'a> {
    /// Its number.
    pub fn id(&self) -> StateId {
        self.id
    }

    /// Its name: the `id` of the element, or a generated one.
    pub fn name(&self) -> &'a str {
        self.row.given(state::NAME)
    }

    /// Its place in the document; 0 where a transition names it and no element has declared it.
    pub fn doc_id(&self) -> u32 {
        self.row.number(state::DOC)
    }

    /// The transition that is taken on entering it.
    pub fn initial(&self) -> Option<Transition<'a>> {
        self.row.transition(state::INITIAL)
    }

    /// The state around it.
    pub fn parent(&self) -> Option<State<'a>> {
        self.row.state(state::PARENT)
    }

    /// Whether an element parallel has declared it.
    pub fn is_parallel(&self) -> bool {
        self.row.flag(state::PARALLEL)
    }

    /// Whether an element final has declared it.
    pub fn is_final(&self) -> bool {
        self.row.flag(state::FINAL)
    }

    /// What it keeps, if it is a history.
    pub fn history_type(&self) -> HistoryType {
        match self.row.number(state::HISTORY) {
            0 => HistoryType::None,
            1 => HistoryType::Shallow,
            _ => HistoryType::Deep,
        }
    }

    /// The states directly in it, without its histories.
    pub fn children(&self) -> impl Iterator<Item = State<'a>> {
        listed_states(self.row.chart, list::CHILDREN, self.id.number())
    }

    /// The histories directly in it.
    pub fn history(&self) -> impl Iterator<Item = State<'a>> {
        listed_states(self.row.chart, list::HISTORY, self.id.number())
    }

    /// What is done on entering it, a region for each onentry.
    pub fn onentry(&self) -> impl Iterator<Item = Region<'a>> {
        listed_regions(self.row.chart, list::ONENTRY, self.id.number())
    }

    /// What is done on leaving it, a region for each onexit.
    pub fn onexit(&self) -> impl Iterator<Item = Region<'a>> {
        listed_regions(self.row.chart, list::ONEXIT, self.id.number())
    }

    /// Its transitions, without the initial one.
    pub fn transitions(&self) -> impl Iterator<Item = Transition<'a>> {
        listed_transitions(self.row.chart, list::TRANSITIONS, self.id.number())
    }

    /// What it invokes.
    pub fn invokes(&self) -> impl Iterator<Item = Invoke<'a>> {
        let number = self.id.number();
        self.row.chart.invokes().filter(move |found| found.row.number(invoke::STATE) == number)
    }

    /// Its data.
    pub fn data(&self) -> impl Iterator<Item = Datum<'a>> {
        let number = self.id.number();
        self.row.chart.data().filter(move |found| found.row.number(datum::STATE) == number)
    }

    /// What a final state gives back.
    pub fn donedata(&self) -> Option<Payload<'a>> {
        let columns = [state::HAS_CONTENT, state::TEXT, state::EXPR];
        let there = self.row.number(state::DONEDATA) > 0;
        there.then_some(Payload { row: self.row, columns, kind: owner_kind::DONEDATA, owner: self.id.number() })
    }
}

/// A transition.
#[derive(Clone, Copy)]
pub struct Transition<'a> {
    pub(crate) id: TransitionId,
    pub(crate) row: Row<'a>,
}

impl<'a> Transition<'a> {
    texts! {
        /// The condition.
        cond: transition::COND;
    }

    /// Its number.
    pub fn id(&self) -> TransitionId {
        self.id
    }

    /// Its place in the document; 0 where it was made for a state without an initial one.
    pub fn doc_id(&self) -> u32 {
        self.row.number(transition::DOC)
    }

    /// The state that it leads from.
    pub fn source(&self) -> State<'a> {
        self.row.state(transition::SOURCE).expect("every transition's source is an existing state")
    }

    /// The states that it leads to.
    pub fn targets(&self) -> impl Iterator<Item = State<'a>> {
        listed_states(self.row.chart, list::TARGETS, self.id.number())
    }

    /// The event words that it is taken on, without a trailing `.*` or `.`.
    pub fn events(&self) -> impl Iterator<Item = &'a str> {
        listed_words(self.row.chart, list::EVENTS, self.id.number())
    }

    /// Whether one of its event words is `*`.
    pub fn wildcard(&self) -> bool {
        self.row.flag(transition::WILDCARD)
    }

    /// Whether it leaves its source.
    pub fn transition_type(&self) -> TransitionType {
        if self.row.flag(transition::TYPE) {
            TransitionType::Internal
        } else {
            TransitionType::External
        }
    }

    /// What is done when it is taken; nothing while its element is open.
    pub fn content(&self) -> Option<Region<'a>> {
        self.row.region(transition::CONTENT)
    }
}

/// A region: a block of actions.
#[derive(Clone, Copy)]
pub struct Region<'a> {
    pub(crate) id: RegionId,
    pub(crate) row: Row<'a>,
}

impl<'a> Region<'a> {
    /// Its number.
    pub fn id(&self) -> RegionId {
        self.id
    }

    /// Its entries, in order.
    pub fn entries(&self) -> impl Iterator<Item = Entry<'a>> {
        let number = self.id.number();
        self.row.chart.entries().filter(move |found| found.row.number(entry::REGION) == number)
    }
}

/// A service that a state invokes.
#[derive(Clone, Copy)]
pub struct Invoke<'a> {
    pub(crate) number: u32,
    pub(crate) row: Row<'a>,
}

impl<'a> Invoke<'a> {
    texts! {
        /// The attribute `type`.
        type_name: invoke::TYPE;
        /// The attribute `typeexpr`.
        typeexpr: invoke::TYPEEXPR;
        /// The attribute `src`.
        src: invoke::SRC;
        /// The attribute `srcexpr`.
        srcexpr: invoke::SRCEXPR;
        /// The attribute `id`; absent and empty are one.
        id: invoke::ID;
        /// The attribute `idlocation`; absent and empty are one.
        idlocation: invoke::IDLOCATION;
    }

    /// Its number, by creation from 1.
    pub fn number(&self) -> u32 {
        self.number
    }

    /// The state that invokes it.
    pub fn state(&self) -> Option<State<'a>> {
        self.row.state(invoke::STATE)
    }

    /// Whether events are forwarded to it.
    pub fn autoforward(&self) -> bool {
        self.row.flag(invoke::AUTOFORWARD)
    }

    /// What is done with what it gives back.
    pub fn finalize(&self) -> Option<Region<'a>> {
        self.row.region(invoke::FINALIZE)
    }

    /// The words of its `namelist`.
    pub fn namelist(&self) -> impl Iterator<Item = &'a str> {
        listed_words(self.row.chart, list::INVOKE_NAMES, self.number)
    }

    /// What it is given.
    pub fn payload(&self) -> Payload<'a> {
        let columns = [invoke::HAS_CONTENT, invoke::TEXT, invoke::EXPR];
        Payload { row: self.row, columns, kind: owner_kind::INVOKE, owner: self.number }
    }
}

/// A value of the data model.
#[derive(Clone, Copy)]
pub struct Datum<'a> {
    pub(crate) number: u32,
    pub(crate) row: Row<'a>,
}

impl<'a> Datum<'a> {
    texts! {
        /// The attribute `expr`.
        expr: datum::EXPR;
        /// The element's trimmed text; of no bytes where it has neither text nor `expr`.
        text: datum::TEXT;
    }

    /// Its number, by creation from 1.
    pub fn number(&self) -> u32 {
        self.number
    }

    /// The state that holds it.
    pub fn state(&self) -> Option<State<'a>> {
        self.row.state(datum::STATE)
    }

    /// Its id.
    pub fn id(&self) -> &'a str {
        self.row.given(datum::ID)
    }

    /// Its value: `expr`, or the text.
    pub fn value(&self) -> Option<&'a str> {
        self.expr().or(self.text())
    }
}

shown! {
    State: id, name;
    Transition: id, source;
    Region: id;
    Invoke: number, id;
    Datum: number, id;
}
