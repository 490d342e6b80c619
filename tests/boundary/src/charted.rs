//! A judge's chart as lent tables, row by row, and back from rows that were read.

use crate::lent::{Lent, Position};
use crate::numbers::ELEMENTS;
use crate::rules::element;
use rufsm::chart::*;
use rufsm::dump_parse::{self, Answer};
use rufsm::frames;
use std::path::Path;

/// Whose parameter or namelist: document 01's lists and owners by number, in the order of `crates/definition/specs/Rows.antt`.
const SENDS: u32 = 1;
const INVOKES: u32 = 2;
const DONEDATA: u32 = 3;

/// The recorded charts, by the name of their stream.
pub fn recorded() -> Vec<(String, Chart)> {
    let path = Path::new(env!("CARGO_MANIFEST_DIR")).join("../answers/dump.txt");
    let file = std::fs::read(path).expect("the recorded dumps");
    let charts =
        frames::parse(&file).expect("frames").into_iter().filter_map(|(name, body)| {
            match dump_parse::parse(std::str::from_utf8(&body).expect("text")).expect("a dump") {
                Answer::Accepted(chart) => Some((name, *chart)),
                Answer::Stopped { .. } => None,
            }
        });
    charts.collect()
}

/// Tables that grow.
struct Writer {
    lent: Lent,
}

impl Writer {
    /// A text's cell: its place plus one and its length, 0 0 where it is absent.
    fn text(&mut self, row: &mut [u32], column: usize, text: Option<&str>) {
        let Some(text) = text else { return };
        let p = &mut self.lent.position;
        let at = p.used as usize;
        self.lent.text[at..at + text.len()].copy_from_slice(text.as_bytes());
        row[column] = at as u32 + 1;
        row[column + 1] = text.len() as u32;
        p.used += text.len() as u32;
        p.charge = p.used;
    }

    fn member(&mut self, list: u32, owner: u32, value: u32, word: Option<&str>) {
        let mut row = [list, owner, value, 0, 0, 0, 0, 0];
        self.text(&mut row, 3, word);
        let p = &mut self.lent.position;
        self.lent.members[p.members as usize] = row;
        p.members += 1;
    }

    fn payload(&mut self, owner: (u32, u32), payload: &Payload, row: &mut [u32], columns: [usize; 3]) {
        row[columns[0]] = payload.record;
        self.text(row, columns[1], payload.text.as_deref());
        self.text(row, columns[2], payload.expr.as_deref());
        for param in &payload.params {
            let mut row = [owner.0, owner.1, 0, 0, 0, 0, 0, 0];
            self.text(&mut row, 2, Some(&param.name));
            self.text(&mut row, 4, param.expr.as_deref());
            self.text(&mut row, 6, param.location.as_deref());
            let p = &mut self.lent.position;
            self.lent.parameters[p.parameters as usize] = row;
            p.parameters += 1;
        }
    }

    fn state(&mut self, s: &StateRow) {
        let mut row = [0; 24];
        self.text(&mut row, 0, s.name.as_deref());
        row[2..8].copy_from_slice(&[s.doc, s.initial, s.parent, s.parallel, s.is_final, s.history]);
        if let Some(payload) = &s.donedata {
            row[8] = self.lent.position.parameters + 1;
            self.payload((DONEDATA, s.number), payload, &mut row, [9, 10, 12]);
        }
        let lists = [&s.children, &s.histories, &s.onentry, &s.onexit, &s.transitions];
        for (list, values) in lists.into_iter().enumerate() {
            values.iter().for_each(|v| self.member(list as u32 + 1, s.number, *v, None));
        }
        s.invokes.iter().for_each(|invoke| self.invoke(s.number, invoke));
        s.data.iter().for_each(|data| self.datum(s.number, data));
        self.lent.states[s.number as usize - 1] = row;
    }

    fn invoke(&mut self, state: u32, invoke: &InvokeRow) {
        let mut row = [0; 24];
        row[..3].copy_from_slice(&[state, invoke.autoforward, invoke.finalize]);
        let number = self.lent.position.invokes + 1;
        // The last text is the name of the state, which the row keeps by number.
        for (place, text) in invoke.texts[..6].iter().enumerate() {
            self.text(&mut row, 4 + 2 * place, text.as_deref());
        }
        invoke.namelist.iter().for_each(|word| self.member(9, number, 0, Some(word)));
        self.payload((INVOKES, number), &invoke.payload, &mut row, [3, 16, 18]);
        self.lent.invokes[number as usize - 1] = row;
        self.lent.position.invokes = number;
    }

    /// The dump does not tell a value from `expr` from one from the text: each is taken in turn.
    fn datum(&mut self, state: u32, data: &DataRow) {
        let mut row = [state, 0, 0, 0, 0, 0, 0, 0];
        let number = self.lent.position.datums;
        self.text(&mut row, 1, Some(&data.id));
        self.text(&mut row, if number % 2 == 0 { 3 } else { 5 }, data.value.as_deref());
        self.lent.datums[number as usize] = row;
        self.lent.position.datums = number + 1;
    }

    fn transition(&mut self, t: &TransitionRow) {
        let mut row = [t.number, t.doc, t.source, t.kind, t.wildcard, t.content, 0, 0];
        self.text(&mut row, 6, t.cond.as_deref());
        t.targets.iter().for_each(|v| self.member(6, t.number, *v, None));
        t.events.iter().for_each(|word| self.member(7, t.number, 0, Some(word)));
        let p = &mut self.lent.position;
        self.lent.transitions[p.transitions as usize] = row;
        p.transitions += 1;
    }

    fn entry(&mut self, chart: &Chart, region: u32, entry: &Entry) {
        let mut row = [0; 48];
        row[0] = region;
        let number = self.lent.position.entries + 1;
        match entry {
            Entry::If { cond, content, otherwise } => {
                (row[1], row[3], row[4]) = (1, *content, *otherwise);
                self.text(&mut row, 6, cond.as_deref());
            }
            Entry::Script { text } => {
                row[1] = 2;
                self.text(&mut row, 42, text.as_deref());
            }
            Entry::Log { label, expr } => {
                row[1] = 3;
                self.text(&mut row, 36, label.as_deref());
                self.text(&mut row, 10, expr.as_deref());
            }
            Entry::Foreach { array, item, index, content } => {
                (row[1], row[3]) = (4, *content);
                self.text(&mut row, 8, array.as_deref());
                self.text(&mut row, 38, item.as_deref());
                self.text(&mut row, 40, index.as_deref());
            }
            Entry::Send { texts, namelist, payload } => {
                row[1] = 5;
                row[2] = chart.states.iter().find(|s| s.name == texts[9]).map_or(0, |s| s.number);
                for (place, text) in texts[..9].iter().enumerate() {
                    self.text(&mut row, 12 + 2 * place, text.as_deref());
                }
                namelist.iter().for_each(|word| self.member(8, number, 0, Some(word)));
                self.payload((SENDS, number), payload, &mut row, [5, 42, 10]);
            }
            Entry::Raise { event } => {
                row[1] = 6;
                self.text(&mut row, 12, event.as_deref());
            }
            Entry::Cancel { sendid, sendidexpr } => {
                row[1] = 7;
                self.text(&mut row, 30, sendid.as_deref());
                self.text(&mut row, 32, sendidexpr.as_deref());
            }
            Entry::Assign { location, value } => {
                row[1] = 8;
                self.text(&mut row, 34, location.as_deref());
                self.text(&mut row, if number % 2 == 0 { 10 } else { 42 }, value.as_deref());
            }
        }
        self.lent.entries[number as usize - 1] = row;
        self.lent.position.entries = number;
    }

    fn opened(&mut self, position: &rufsm::chart::Position) {
        for (place, open) in position.open.iter().enumerate() {
            let tag = element(&open.tag);
            self.lent.opened[place][..3].copy_from_slice(&[tag, open.state, open.transition]);
            if tag == 0 {
                self.lent.opened[place][3] = open.tag.len() as u32;
                self.lent.open_names[place][..open.tag.len()].copy_from_slice(open.tag.as_bytes());
            }
        }
        for (place, (region, tag)) in position.open_regions.iter().zip(&position.open_tags).enumerate() {
            self.lent.open_regions[place][..2].copy_from_slice(&[*region, element(tag)]);
        }
    }
}

/// The chart in lent tables. Rows without a number of their own stand in the order of the dump.
pub fn lend(chart: &Chart) -> Lent {
    let mut writer = Writer { lent: Lent::zeros() };
    let mut row = [0; 24];
    row[..3].copy_from_slice(&[chart.root, chart.script, chart.binding]);
    for (column, text) in [(3, &chart.name), (5, &chart.datamodel), (7, &chart.version)] {
        writer.text(&mut row, column, text.as_deref());
    }
    writer.lent.chart[0] = row;
    chart.states.iter().for_each(|s| writer.state(s));
    chart.transitions.iter().for_each(|t| writer.transition(t));
    for (place, region) in chart.regions.iter().enumerate() {
        writer.lent.regions[place][0] = region.number;
        region.entries.iter().for_each(|entry| writer.entry(chart, region.number, entry));
    }
    let open = &chart.position;
    writer.opened(open);
    let p = &mut writer.lent.position;
    *p = Position {
        opened: open.open.len() as u32,
        states: chart.states.len() as u32,
        regions: chart.regions.len() as u32,
        open_regions: open.open_regions.len() as u32,
        current: open.current,
        ids: open.ids,
        docs: open.docs,
        names: open.names,
        ..*p
    };
    writer.lent
}

/// Rows that were read, all of each kind, and the text.
struct Rows<'a> {
    rows: [Vec<[u32; 50]>; 9],
    text: &'a [u8],
}

impl Rows<'_> {
    fn text(&self, row: &[u32; 50], column: usize) -> Text {
        let (at, len) = (row[column] as usize, row[column + 1] as usize);
        (at > 0).then(|| String::from_utf8(self.text[at - 1..at - 1 + len].to_vec()).expect("text"))
    }

    fn listed(&self, list: u32, owner: u32) -> impl Iterator<Item = &[u32; 50]> {
        self.rows[8].iter().filter(move |row| row[0] == list && row[1] == owner)
    }

    fn values(&self, list: u32, owner: u32) -> Vec<u32> {
        self.listed(list, owner).map(|row| row[2]).collect()
    }

    fn words(&self, list: u32, owner: u32) -> Vec<String> {
        self.listed(list, owner).map(|row| self.text(row, 3).expect("a word")).collect()
    }

    fn payload(&self, kind: u32, owner: u32, row: &[u32; 50], columns: [usize; 3]) -> Payload {
        let params = self.rows[7].iter().filter(|param| param[0] == kind && param[1] == owner).map(|param| ParamRow {
            name: self.text(param, 2).expect("a name"),
            expr: self.text(param, 4),
            location: self.text(param, 6),
        });
        Payload {
            record: row[columns[0]],
            text: self.text(row, columns[1]),
            expr: self.text(row, columns[2]),
            params: params.collect(),
        }
    }

    fn invoke(&self, number: u32, row: &[u32; 50]) -> InvokeRow {
        InvokeRow {
            texts: [4, 6, 8, 10, 12, 14, 48].iter().map(|column| self.text(row, *column)).collect(),
            autoforward: row[1],
            finalize: row[2],
            namelist: self.words(9, number),
            payload: self.payload(INVOKES, number, row, [3, 16, 18]),
        }
    }

    fn state(&self, number: u32, row: &[u32; 50]) -> StateRow {
        let numbered = |kind: usize| (1..).zip(&self.rows[kind]).filter(move |(_, row)| row[0] == number);
        StateRow {
            number,
            name: self.text(row, 0),
            doc: row[2],
            initial: row[3],
            parent: row[4],
            parallel: row[5],
            is_final: row[6],
            history: row[7],
            children: self.values(1, number),
            histories: self.values(2, number),
            onentry: self.values(3, number),
            onexit: self.values(4, number),
            transitions: self.values(5, number),
            donedata: (row[8] > 0).then(|| self.payload(DONEDATA, number, row, [9, 10, 12])),
            invokes: numbered(5).map(|(n, row)| self.invoke(n, row)).collect(),
            data: numbered(6)
                .map(|(_, row)| DataRow {
                    id: self.text(row, 1).expect("an id"),
                    value: self.text(row, 3).or(self.text(row, 5)),
                })
                .collect(),
        }
    }

    fn transition(&self, row: &[u32; 50]) -> TransitionRow {
        TransitionRow {
            number: row[0],
            doc: row[1],
            source: row[2],
            kind: row[3],
            wildcard: row[4],
            cond: self.text(row, 6),
            content: row[5],
            targets: self.values(6, row[0]),
            events: self.words(7, row[0]),
        }
    }

    fn entry(&self, number: u32, row: &[u32; 50]) -> Entry {
        let text = |column: usize| self.text(row, column);
        match row[1] {
            1 => Entry::If { cond: text(6), content: row[3], otherwise: row[4] },
            2 => Entry::Script { text: text(42) },
            3 => Entry::Log { label: text(36), expr: text(10) },
            4 => Entry::Foreach { array: text(8), item: text(38), index: text(40), content: row[3] },
            5 => Entry::Send {
                texts: (12..30).step_by(2).chain([48]).map(text).collect(),
                namelist: self.words(8, number),
                payload: self.payload(SENDS, number, row, [5, 42, 10]),
            },
            6 => Entry::Raise { event: text(12) },
            7 => Entry::Cancel { sendid: text(30), sendidexpr: text(32) },
            8 => Entry::Assign { location: text(34), value: text(10).or(text(42)) },
            kind => panic!("an entry of kind {kind}"),
        }
    }
}

/// What is open: of these tables no row is readable.
pub fn open_in(lent: &Lent) -> rufsm::chart::Position {
    let p = &lent.position;
    let tag = |number: u32| number.checked_sub(1).map(|place| ELEMENTS[place as usize].to_string());
    let open = lent.opened[..p.opened as usize].iter().zip(&lent.open_names).map(|(row, name)| OpenRow {
        tag: tag(row[0]).unwrap_or_else(|| String::from_utf8(name[..row[3] as usize].to_vec()).expect("a name")),
        state: row[1],
        transition: row[2],
    });
    let regions = &lent.open_regions[..p.open_regions as usize];
    rufsm::chart::Position {
        open: open.collect(),
        current: p.current,
        open_regions: regions.iter().map(|row| row[0]).collect(),
        open_tags: regions.iter().map(|row| tag(row[1]).expect("an element")).collect(),
        ids: p.ids,
        docs: p.docs,
        names: p.names,
    }
}

/// The chart that the rows say, each read by kind and number through the boundary, with what is open.
pub fn chart_of(lent: &Lent) -> Chart {
    let numbers = |kind: u32| -> Vec<u32> {
        match kind {
            2 => lent.transitions[..lent.count(2)].iter().map(|row| row[0]).collect(),
            3 => lent.regions[..lent.count(3)].iter().map(|row| row[0]).collect(),
            _ => (1..=lent.count(kind) as u32).collect(),
        }
    };
    let all = |kind: u32| -> Vec<[u32; 50]> {
        let read = numbers(kind).into_iter().map(|number| lent.read(kind, number));
        read.filter_map(|(answer, row)| (answer == 0).then_some(row)).collect()
    };
    let rows =
        Rows { rows: std::array::from_fn(|kind| all(kind as u32)), text: &lent.text[..lent.position.used as usize] };
    let none = [0; 50];
    let chart = rows.rows[0].first().unwrap_or(&none);
    let region = |row: &[u32; 50]| RegionRow {
        number: row[0],
        entries: (1..)
            .zip(&rows.rows[4])
            .filter(|(_, entry)| entry[0] == row[0])
            .map(|(number, entry)| rows.entry(number, entry))
            .collect(),
    };
    Chart {
        root: chart[0],
        script: chart[1],
        binding: chart[2],
        name: rows.text(chart, 3),
        datamodel: rows.text(chart, 5),
        version: rows.text(chart, 7),
        states: (1..).zip(&rows.rows[1]).map(|(number, row)| rows.state(number, row)).collect(),
        transitions: rows.rows[2].iter().map(|row| rows.transition(row)).collect(),
        regions: rows.rows[3].iter().map(region).collect(),
        position: open_in(lent),
    }
}
