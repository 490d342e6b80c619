//! Drives the reference's handlers as `process` would, and takes down what they set.
//! A child of the reader's module, because its handlers and fields are private to that module.
#![warn(unused, dead_code, non_snake_case)]

use super::quick_xml::events::BytesStart;
use super::quick_xml::Reader;
use super::{ReaderState, DOC_ID_COUNTER};
use crate::chart::*;
use crate::datamodel::{Data, ToAny};
use crate::event::{Event, Kind};
use crate::executable_content::{
    Assign, Cancel, ExecutableContent, Expression, ForEach, If, Log, Raise, SendParameters,
};
use crate::fsm::{
    BindingType, CommonContent, DoneData, HistoryType, Invoke, Parameter, State, Transition, TransitionType, ID_COUNTER,
};
use crate::lack::Lack;
use std::sync::atomic::Ordering;

/// No stream of bytes up to 127 holds this; it tells absent from present in the texts that have defaults.
const UNSET: &str = "\u{FFFF}";

/// One run over a stream, with the values of the process-wide counters at its begin.
pub struct Run {
    reader: ReaderState,
    first_id: u32,
    first_doc: u32,
}

impl Run {
    pub fn new() -> Run {
        let mut reader = ReaderState::new();
        reader.fsm.name = UNSET.to_string();
        reader.fsm.version = UNSET.to_string();
        reader.fsm.datamodel = UNSET.to_string();
        Run { reader, first_id: ID_COUNTER.load(Ordering::Relaxed), first_doc: DOC_ID_COUNTER.load(Ordering::Relaxed) }
    }

    /// One event, as `process` gives it to the handlers. A refusal is a panic.
    pub fn step(&mut self, event: &Event) {
        let start = BytesStart::with_pairs(&event.name, &event.pairs);
        let mut place = Reader::before_text(event.text.as_ref().map_or(0, String::len));
        match event.kind {
            Kind::Open => self.reader.start_element(&mut place, &start, true),
            Kind::Empty => {
                self.reader.start_element(&mut place, &start, false);
                self.reader.end_element(&event.name);
            }
            Kind::Whole => {
                self.reader.content = event.text.clone().unwrap_or_default();
                self.reader.start_element(&mut place, &start, true);
            }
            Kind::End => self.reader.end_element(&event.name),
        }
    }

    /// The handlers' state made such as no event leaves it.
    pub fn lack(&mut self, lack: Lack) {
        let reader = &mut self.reader;
        match lack {
            Lack::Nothing => {}
            Lack::State => reader.current.current_state = 0,
            Lack::Transition => reader.current.current_transition = 0,
            Lack::Region => {
                reader.current_executable_content = 0;
                reader.executable_content_stack.clear();
            }
            Lack::OuterRegion => reader.executable_content_stack = vec![(0, "foreach")],
            Lack::Root => reader.fsm.pseudo_root = 0,
            Lack::Entry => {
                let region = reader.fsm.executableContent.get_mut(&reader.current_executable_content);
                region.expect("a current region").pop().expect("an entry");
            }
            Lack::Invokes => reader.get_current_state().invoke = State::new("").invoke,
            Lack::Donedata => reader.get_current_state().donedata = None,
            Lack::Leftover => reader.executable_content_stack.push((reader.current_executable_content, "if")),
        }
    }

    /// All that the reader set.
    pub fn chart(&self) -> Chart {
        let fsm = &self.reader.fsm;
        let mut transitions: Vec<&Transition> = fsm.transitions.values().collect();
        transitions.sort_by_key(|t| t.id);
        let mut regions: Vec<u32> = fsm.executableContent.keys().copied().collect();
        regions.sort();
        Chart {
            root: fsm.pseudo_root,
            script: self.id(fsm.script),
            binding: match fsm.binding {
                BindingType::Early => 0,
                BindingType::Late => 1,
            },
            name: unless_unset(&fsm.name),
            datamodel: unless_unset(&fsm.datamodel),
            version: unless_unset(&fsm.version),
            states: fsm.states.iter().map(|s| self.state(s)).collect(),
            transitions: transitions.into_iter().map(|t| self.transition(t)).collect(),
            regions: regions.into_iter().map(|r| self.region(r)).collect(),
            position: self.position(),
        }
    }

    fn id(&self, number: u32) -> u32 {
        if number == 0 {
            0
        } else {
            number - self.first_id + 1
        }
    }

    fn ids<'a>(&self, numbers: impl IntoIterator<Item = &'a u32>) -> Vec<u32> {
        numbers.into_iter().map(|n| self.id(*n)).collect()
    }

    fn doc(&self, number: u32) -> u32 {
        if number == 0 {
            0
        } else {
            number - self.first_doc + 1
        }
    }

    fn state(&self, state: &State) -> StateRow {
        let mut data: Vec<DataRow> = state
            .data
            .iter()
            .map(|(id, value)| DataRow { id: id.clone(), value: value.lock().unwrap().text() })
            .collect();
        data.sort_by(|a, b| a.id.as_bytes().cmp(b.id.as_bytes()));
        StateRow {
            number: state.id,
            name: Some(state.name.clone()),
            doc: self.doc(state.doc_id),
            initial: self.id(state.initial),
            parent: state.parent,
            parallel: u32::from(state.is_parallel),
            is_final: u32::from(state.is_final),
            history: match state.history_type {
                HistoryType::None => 0,
                HistoryType::Shallow => 1,
                HistoryType::Deep => 2,
            },
            children: state.states.clone(),
            histories: state.history.iterator().copied().collect(),
            onentry: self.ids(&state.onentry),
            onexit: self.ids(&state.onexit),
            transitions: self.ids(state.transitions.iterator()),
            donedata: state.donedata.as_ref().map(|d: &DoneData| payload(&d.content, &d.params)),
            invokes: state.invoke.iterator().map(|i| self.invoke(i)).collect(),
            data,
        }
    }

    /// An invoke's own doc id is never set by the reader and is no field of the dump.
    fn invoke(&self, invoke: &Invoke) -> InvokeRow {
        InvokeRow {
            texts: vec![
                invoke.type_name.text(),
                invoke.type_expr.text(),
                invoke.src.text(),
                invoke.src_expr.text(),
                unless_empty(&invoke.invoke_id),
                unless_empty(&invoke.external_id_location),
                Some(invoke.parent_state_name.clone()),
            ],
            autoforward: u32::from(invoke.autoforward),
            finalize: self.id(invoke.finalize),
            namelist: invoke.name_list.clone(),
            payload: payload(&invoke.content, &invoke.params),
        }
    }

    fn transition(&self, t: &Transition) -> TransitionRow {
        TransitionRow {
            number: self.id(t.id),
            doc: self.doc(t.doc_id),
            source: t.source,
            kind: match t.transition_type {
                TransitionType::External => 0,
                TransitionType::Internal => 1,
            },
            wildcard: u32::from(t.wildcard),
            cond: t.cond.text(),
            content: self.id(t.content),
            targets: t.target.clone(),
            events: t.events.clone(),
        }
    }

    fn region(&self, number: u32) -> RegionRow {
        let entries = &self.reader.fsm.executableContent[&number];
        RegionRow { number: self.id(number), entries: entries.iter().map(|e| self.entry(e.as_ref())).collect() }
    }

    fn entry(&self, entry: &dyn ExecutableContent) -> Entry {
        let any = ToAny::as_any(entry);
        if let Some(e) = any.downcast_ref::<If>() {
            Entry::If { cond: e.condition.text(), content: self.id(e.content), otherwise: self.id(e.else_content) }
        } else if let Some(e) = any.downcast_ref::<ForEach>() {
            Entry::Foreach {
                array: e.array.text(),
                item: Some(e.item.clone()),
                index: unless_empty(&e.index),
                content: self.id(e.content),
            }
        } else if let Some(e) = any.downcast_ref::<SendParameters>() {
            send(e)
        } else if let Some(e) = any.downcast_ref::<Expression>() {
            Entry::Script { text: e.content.text() }
        } else if let Some(e) = any.downcast_ref::<Log>() {
            Entry::Log { label: unless_empty(&e.label), expr: e.expression.text() }
        } else if let Some(e) = any.downcast_ref::<Raise>() {
            Entry::Raise { event: Some(e.event.clone()) }
        } else if let Some(e) = any.downcast_ref::<Cancel>() {
            Entry::Cancel { sendid: unless_empty(&e.send_id), sendidexpr: e.send_id_expr.text() }
        } else if let Some(e) = any.downcast_ref::<Assign>() {
            Entry::Assign { location: e.location.text(), value: e.expr.text() }
        } else {
            panic!("driver: an entry of unknown kind")
        }
    }

    /// The first stack item stands for the place before any element; the innermost element is `current`.
    fn position(&self) -> Position {
        let reader = &self.reader;
        let items = reader.stack.iter().skip(1).chain(reader.stack.first().map(|_| &reader.current));
        Position {
            open: items
                .map(|item| OpenRow {
                    tag: item.current_tag.clone(),
                    state: item.current_state,
                    transition: self.id(item.current_transition),
                })
                .collect(),
            current: self.id(reader.current_executable_content),
            open_regions: reader.executable_content_stack.iter().map(|(n, _)| self.id(*n)).collect(),
            open_tags: reader.executable_content_stack.iter().map(|(_, tag)| tag.to_string()).collect(),
            ids: ID_COUNTER.load(Ordering::Relaxed) - self.first_id,
            docs: DOC_ID_COUNTER.load(Ordering::Relaxed) - self.first_doc,
            names: reader.id_count as u32,
        }
    }
}

fn send(e: &SendParameters) -> Entry {
    Entry::Send {
        texts: vec![
            Data::text(&e.event),
            e.event_expr.text(),
            e.target.text(),
            e.target_expr.text(),
            e.type_value.text(),
            e.type_expr.text(),
            unless_empty(&e.name),
            unless_empty(&e.name_location),
            e.delay_expr.text(),
            Some(e.parent_state_name.clone()),
        ],
        namelist: e.name_list.clone(),
        payload: payload(&e.content, &e.params),
    }
}

fn payload(content: &Option<CommonContent>, params: &Option<Vec<Parameter>>) -> Payload {
    let rows = params.iter().flatten().map(|p| ParamRow {
        name: p.name.clone(),
        expr: unless_empty(&p.expr),
        location: unless_empty(&p.location),
    });
    Payload {
        record: u32::from(content.is_some()),
        text: content.as_ref().and_then(|c| c.content.clone()),
        expr: content.as_ref().and_then(|c| c.content_expr.clone()),
        params: rows.collect(),
    }
}

/// Where the reference does not tell absent from empty, both are absent.
fn unless_empty(text: &str) -> Text {
    if text.is_empty() {
        None
    } else {
        Some(text.to_string())
    }
}

fn unless_unset(text: &str) -> Text {
    if text == UNSET {
        None
    } else {
        Some(text.to_string())
    }
}
