//! Tests: each row that a view sees is the row that the reader gives by kind and number.

use crate::columns::shown;
use crate::row::Row;
use crate::{Chart, Kind, ReadRow};
use rufsm::frames;
use std::path::Path;

/// The charts that the recorded streams give, up to the first refusal of each.
fn charts() -> Vec<(String, Chart)> {
    let path = Path::new(env!("CARGO_MANIFEST_DIR")).join("../tests/answers/streams.txt");
    let streams = frames::parse(&std::fs::read(path).expect("the recorded streams")).expect("frames");
    let chart_of = |(name, bytes): (String, Vec<u8>)| {
        let mut chart = Chart::new();
        let _ = chart.feed_stream(&bytes);
        (name, chart)
    };
    streams.into_iter().map(chart_of).collect()
}

/// A table's row as a reading must give it: zeros behind it, and the name of the state that it keeps.
fn shown(row: Row, state: Option<&str>, read: &ReadRow) -> bool {
    let (numbers, behind) = read.split_at(row.cells.len());
    let (zeros, name) = behind.split_at(shown::STATE_NAME - row.cells.len());
    let read_name = Row { chart: row.chart, cells: name }.text(0);
    numbers == row.cells && zeros.iter().all(|zero| *zero == 0) && read_name == state
}

fn agree(name: &str, chart: &Chart, kind: Kind, number: u32, row: Row, state: Option<&str>) {
    let read = chart.read_row(kind, number).unwrap_or_else(|refusal| panic!("{name}: {kind:?} {number}: {refusal}"));
    assert!(shown(row, state, &read), "{name}: {kind:?} {number}");
}

/// How many rows of a kind a reading gives.
fn count(chart: &Chart, kind: Kind) -> usize {
    let p = chart.position();
    let last = [1, p.states, p.ids, p.ids, p.entries, p.invokes, p.data, p.parameters, p.members][kind as usize];
    (1..=last).filter(|number| chart.read_row(kind, *number).is_ok()).count()
}

#[test]
fn views_see_the_rows_that_are_read() {
    let charts = charts();
    assert!(charts.len() > 200);
    for (name, chart) in &charts {
        let each = |kind, number, row, state: Option<&str>| agree(name, chart, kind, number, row, state);
        chart.states().for_each(|s| each(Kind::State, s.id().number(), s.row, None));
        chart.transitions().for_each(|t| each(Kind::Transition, t.id().number(), t.row, None));
        chart.regions().for_each(|r| each(Kind::Region, r.id().number(), r.row, None));
        chart.entries().for_each(|e| {
            let state = e.row.state(crate::columns::entry::STATE);
            each(Kind::Entry, e.number(), e.row, state.map(|state| state.name()));
        });
        chart.invokes().for_each(|i| each(Kind::Invoke, i.number(), i.row, i.state().map(|state| state.name())));
        chart.data().for_each(|d| each(Kind::Datum, d.number(), d.row, None));
        chart.parameters().for_each(|p| each(Kind::Parameter, p.number(), p.row, None));
        (1..).zip(chart.members()).for_each(|(number, row)| each(Kind::Member, number, row, None));
    }
}

/// No row is read that a view does not see.
#[test]
fn readings_have_no_more_rows() {
    for (name, chart) in charts() {
        let seen = [
            usize::from(chart.root().is_some()),
            chart.states().count(),
            chart.transitions().count(),
            chart.regions().count(),
            chart.entries().count(),
            chart.invokes().count(),
            chart.data().count(),
            chart.parameters().count(),
            chart.members().count(),
        ];
        assert_eq!(Kind::ALL.map(|kind| count(&chart, kind)), seen, "{name}");
    }
}
