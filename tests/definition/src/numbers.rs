//! A chart as the list of numbers that crates/compare/specs/Dump.antt makes of the definition's.

use crate::walk::{Column, Walk};
use rufsm::chart::*;

const STATE: u32 = 9001;
const INVOKE: u32 = 9002;
const ITEM: u32 = 9003;
const PARAM: u32 = 9004;
const TRANSITION: u32 = 9005;
const REGION: u32 = 9006;
const ENTRY: u32 = 9007;
const POSITION: u32 = 9008;
const OPEN: u32 = 9009;
const ASSIGNS: u32 = 9010;

#[derive(Default)]
struct Numbers(Vec<u32>);

impl Numbers {
    fn put(&mut self, values: &[u32]) {
        self.0.extend_from_slice(values);
    }

    fn list(&mut self, values: &[u32]) {
        self.put(&[values.len() as u32]);
        self.put(values);
    }

    fn bytes(&mut self, text: &str) {
        self.put(&[text.len() as u32]);
        self.0.extend(text.bytes().map(u32::from));
    }

    fn words(&mut self, words: &[String]) {
        self.put(&[words.len() as u32]);
        words.iter().for_each(|word| self.bytes(word));
    }

    fn present(&mut self, text: &str) {
        self.put(&[1]);
        self.bytes(text);
    }

    fn text(&mut self, text: &Text) {
        match text {
            None => self.put(&[0]),
            Some(text) => self.present(text),
        }
    }

    fn texts(&mut self, texts: &[Text]) {
        texts.iter().for_each(|text| self.text(text));
    }

    fn payload(&mut self, payload: &Payload) {
        self.put(&[payload.record]);
        self.text(&payload.text);
        self.text(&payload.expr);
        for param in &payload.params {
            self.put(&[PARAM]);
            self.present(&param.name);
            self.text(&param.expr);
            self.text(&param.location);
        }
    }

    fn invoke(&mut self, place: u32, row: &InvokeRow) {
        self.put(&[INVOKE, place]);
        self.texts(&row.texts);
        self.put(&[row.autoforward, row.finalize]);
        self.words(&row.namelist);
        self.payload(&row.payload);
    }

    /// The column of `expr`, then the column of the text.
    fn two_columns(&mut self, value: &Text, column: Column) {
        let in_column = |wanted: Column| if column == wanted { value.clone() } else { None };
        self.texts(&[in_column(Column::Expr), in_column(Column::Text)]);
    }

    fn state(&mut self, row: &StateRow, walk: &Walk) {
        self.put(&[STATE, row.number]);
        self.text(&row.name);
        self.put(&[row.doc, row.initial, row.parent, row.parallel, row.is_final, row.history]);
        for list in [&row.children, &row.histories, &row.onentry, &row.onexit, &row.transitions] {
            self.list(list);
        }
        self.put(&[u32::from(row.donedata.is_some())]);
        self.payload(&row.donedata.clone().unwrap_or_default());
        row.invokes.iter().zip(1..).for_each(|(invoke, place)| self.invoke(place, invoke));
        for data in &row.data {
            self.put(&[ITEM]);
            self.present(&data.id);
            let place = (row.name.clone().unwrap_or_default(), data.id.clone());
            self.two_columns(&data.value, walk.data.get(&place).copied().unwrap_or(Column::Neither));
        }
    }

    fn transition(&mut self, row: &TransitionRow) {
        self.put(&[TRANSITION, row.number, row.doc, row.source, row.kind, row.wildcard]);
        self.text(&row.cond);
        self.put(&[row.content]);
        self.list(&row.targets);
        self.words(&row.events);
    }

    fn entry(&mut self, entry: &Entry) {
        match entry {
            Entry::If { cond, content, otherwise } => {
                self.put(&[ENTRY, 1]);
                self.text(cond);
                self.put(&[*content, *otherwise]);
            }
            Entry::Script { text } => self.entry_texts(2, &[text]),
            Entry::Log { label, expr } => self.entry_texts(3, &[label, expr]),
            Entry::Foreach { array, item, index, content } => {
                self.entry_texts(4, &[array, item, index]);
                self.put(&[*content]);
            }
            Entry::Send { texts, namelist, payload } => {
                self.put(&[ENTRY, 5]);
                self.texts(texts);
                self.words(namelist);
                self.payload(payload);
            }
            Entry::Raise { event } => self.entry_texts(6, &[event]),
            Entry::Cancel { sendid, sendidexpr } => self.entry_texts(7, &[sendid, sendidexpr]),
            Entry::Assign { location, value } => self.entry_texts(8, &[location, value]),
        }
    }

    fn entry_texts(&mut self, kind: u32, texts: &[&Text]) {
        self.put(&[ENTRY, kind]);
        texts.iter().for_each(|text| self.text(text));
    }

    fn region(&mut self, row: &RegionRow) {
        self.put(&[REGION, row.number]);
        row.entries.iter().for_each(|entry| self.entry(entry));
    }

    /// How many rows of each table are in use, the current region, the counters and the text charge.
    fn counted(&mut self, chart: &Chart, walk: &Walk) {
        let (position, all) = (&chart.position, Counts::of(chart));
        let sizes = [position.open.len(), chart.states.len(), chart.transitions.len(), chart.regions.len()];
        sizes.iter().for_each(|&size| self.put(&[size as u32]));
        for size in [all.entries, all.invokes, all.data, walk.parameters, all.members, position.open_regions.len()] {
            self.put(&[size as u32]);
        }
        self.put(&[position.current, position.ids, position.docs, position.names, walk.charge as u32]);
    }

    fn position(&mut self, row: &Position) {
        for open in &row.open {
            self.put(&[OPEN]);
            self.bytes(&open.tag);
            self.put(&[open.state, open.transition]);
        }
        self.list(&row.open_regions);
        self.words(&row.open_tags);
    }

    /// For each assign whether the column of `expr` and that of the text are present.
    fn assigns(&mut self, walk: &Walk) {
        self.put(&[ASSIGNS]);
        for &column in &walk.assigns {
            self.put(&[u32::from(column == Column::Expr), u32::from(column == Column::Text)]);
        }
    }
}

/// Rows that the dump shows under others, counted over all.
#[derive(Default)]
struct Counts {
    entries: usize,
    invokes: usize,
    data: usize,
    members: usize,
}

impl Counts {
    fn of(chart: &Chart) -> Counts {
        let mut all = Counts::default();
        for row in &chart.states {
            all.invokes += row.invokes.len();
            all.data += row.data.len();
            let lists = [&row.children, &row.histories, &row.onentry, &row.onexit, &row.transitions];
            all.members += lists.iter().map(|list| list.len()).sum::<usize>();
            all.members += row.invokes.iter().map(|invoke| invoke.namelist.len()).sum::<usize>();
        }
        all.members += chart.transitions.iter().map(|row| row.targets.len() + row.events.len()).sum::<usize>();
        for entry in chart.regions.iter().flat_map(|row| &row.entries) {
            all.entries += 1;
            if let Entry::Send { namelist, .. } = entry {
                all.members += namelist.len();
            }
        }
        all
    }
}

pub fn of(chart: &Chart, walk: &Walk) -> Vec<u32> {
    let mut out = Numbers::default();
    out.put(&[chart.root, chart.script, chart.binding]);
    out.text(&chart.name);
    out.text(&chart.datamodel);
    out.text(&chart.version);
    chart.states.iter().for_each(|row| out.state(row, walk));
    chart.transitions.iter().for_each(|row| out.transition(row));
    chart.regions.iter().for_each(|row| out.region(row));
    out.put(&[POSITION]);
    out.counted(chart, walk);
    out.position(&chart.position);
    out.assigns(walk);
    out.0
}
