//! Questions 1 and 2 and the reading of rows, through the C boundary: held to a plain Rust model and to the judge's charts.

use boundary::charted::{chart_of, lend, recorded};
use boundary::lent::{Lent, BYTES, CHARGE, LIMITS};
use boundary::rules;
use rufsm::rng::Rng;

/// The recorded charts in lent tables.
fn stores() -> Vec<(String, Lent)> {
    let charts = recorded();
    assert!(charts.len() >= 200, "{} charts", charts.len());
    charts.into_iter().map(|(name, chart)| (name, lend(&chart))).collect()
}

#[test]
fn charts_of_the_judge_are_in_order() {
    for (name, lent) in stores() {
        assert_eq!(rules::first_no(&lent), 0, "{name}: the model");
        assert_eq!(lent.first_no(), 0, "{name}");
    }
    assert_eq!(Lent::zeros().first_no(), 0);
}

/// Each chart, read row by row, is the judge's.
#[test]
fn rows_are_the_judges() {
    for (name, chart) in recorded() {
        let lent = lend(&chart);
        assert_eq!(chart_of(&lent), chart, "{name}");
    }
}

/// What a reading must give: the table's row, zeros, and behind them the name of the state that a send or an invoke keeps.
fn expected(lent: &Lent, kind: u32, number: u32) -> Option<[u32; 50]> {
    if kind > 8 || number == 0 {
        return None;
    }
    let place = match kind {
        2 | 3 => (0..lent.count(kind)).find(|place| lent.row(kind, *place)[0] == number)?,
        _ => number as usize - 1,
    };
    if place >= lent.count(kind) || (kind == 0 && lent.chart[0][0] == 0) {
        return None;
    }
    let row = lent.row(kind, place);
    let has_left = |owner: u32| owner > 0 && number < lent.states[owner as usize - 1][8];
    if kind == 7 && row[0] == 3 && has_left(row[1]) {
        return None;
    }
    let mut shown = [0; 50];
    shown[..row.len()].copy_from_slice(&row);
    let state = match kind {
        4 => row[2],
        5 => row[0],
        _ => 0,
    };
    if state > 0 {
        shown[48..].copy_from_slice(&lent.states[state as usize - 1][..2]);
    }
    Some(shown)
}

fn every_row(name: &str, lent: &Lent) -> usize {
    let mut there = 0;
    for kind in 0..=9 {
        let most = if kind == 9 { 0 } else { lent.count(kind) as u32 };
        for number in (0..=most + 2).chain(most + 3..=lent.position.ids + 1).chain([65_535, 65_536, u32::MAX]) {
            let wanted = expected(lent, kind, number);
            there += usize::from(wanted.is_some());
            assert_eq!(
                lent.read(kind, number),
                wanted.map_or((16, [0; 50]), |row| (0, row)),
                "{name}: kind {kind}, number {number}"
            );
        }
    }
    there
}

#[test]
fn every_kind_and_number() {
    let rows: usize = stores().iter().map(|(name, lent)| every_row(name, lent)).sum();
    assert!(rows > 3_000, "{rows} rows");
}

/// A second donedata: the parameters of the first leave the chart and keep their numbers.
#[test]
fn parameters_that_left() {
    let (name, mut lent) = stores()
        .into_iter()
        .find(|(_, lent)| lent.position.states > 1 && lent.position.parameters >= 2)
        .expect("a chart with parameters");
    for (number, row) in lent.parameters[..2].iter_mut().enumerate() {
        *row = [3, 2, 1, number as u32, 0, 0, 0, 0];
    }
    for mark in 0..=3 {
        lent.states[1][8] = mark;
        every_row(&name, &lent);
    }
}

#[test]
fn short_slices_and_buffers() {
    let full = stores().pop().expect("a chart").1;
    type Shorten = fn(&mut Lent);
    let shorten: [Shorten; 13] = [
        |l| l.chart.truncate(0),
        |l| l.states.truncate(255),
        |l| l.transitions.truncate(511),
        |l| l.regions.truncate(511),
        |l| l.entries.truncate(2_047),
        |l| l.invokes.truncate(63),
        |l| l.datums.truncate(255),
        |l| l.parameters.truncate(511),
        |l| l.members.truncate(4_095),
        |l| l.opened.truncate(31),
        |l| l.open_names.truncate(31),
        |l| l.open_regions.truncate(63),
        |l| l.text.truncate(65_534),
    ];
    for (which, cut) in shorten.iter().enumerate() {
        let mut lent = full.clone();
        cut(&mut lent);
        // Question 2 is no as well: the first no gives the number.
        lent.position.ids = 70_000;
        assert_eq!(lent.read(1, 1), (1, [0; 50]), "slice {which}");
        assert_eq!(rules::first_no(&lent), 1, "slice {which}: the model");
    }
    for length in [0, 1, BYTES - 1, BYTES, BYTES + 1, 1_000] {
        for (kind, number) in [(1, 1), (1, 0), (9, 1)] {
            let mut out = vec![0xee; length];
            let answer = full.read_into(kind, number, &mut out);
            if length < BYTES {
                assert_eq!(answer, 1, "{length} bytes");
                assert!(out.iter().all(|b| *b == 0xee), "{length} bytes: written");
            } else {
                let (wanted, row) = full.read(kind, number);
                assert_eq!(answer, wanted, "{length} bytes");
                let bytes: Vec<u8> = row.iter().flat_map(|v| v.to_le_bytes()).collect();
                assert_eq!(out[..BYTES], bytes, "{length} bytes");
                assert!(out[BYTES..].iter().all(|b| *b == 0xee), "{length} bytes: past the row");
            }
        }
    }
}

/// A place whose number can be changed: a cell of one of the twelve tables in the order of the position's counts, a byte of the text (12), a field of the
/// position (13).
#[derive(Debug, Clone, Copy)]
struct Spot {
    table: usize,
    row: usize,
    column: usize,
}

fn numbers(lent: &mut Lent, spot: Spot) -> &mut u32 {
    let Spot { table, row, column } = spot;
    let p = &mut lent.position;
    match table {
        0 => &mut lent.chart[row][column],
        1 => &mut lent.states[row][column],
        2 => &mut lent.transitions[row][column],
        3 => &mut lent.regions[row][column],
        4 => &mut lent.entries[row][column],
        5 => &mut lent.invokes[row][column],
        6 => &mut lent.datums[row][column],
        7 => &mut lent.parameters[row][column],
        8 => &mut lent.members[row][column],
        9 => &mut lent.opened[row][column],
        11 => &mut lent.open_regions[row][column],
        13 => {
            let fields = [
                &mut p.opened,
                &mut p.states,
                &mut p.transitions,
                &mut p.regions,
                &mut p.entries,
                &mut p.invokes,
                &mut p.datums,
                &mut p.parameters,
                &mut p.members,
                &mut p.open_regions,
                &mut p.current,
                &mut p.ids,
                &mut p.docs,
                &mut p.names,
                &mut p.used,
                &mut p.charge,
            ];
            fields.into_iter().nth(column).expect("a field")
        }
        _ => panic!("table {table}"),
    }
}

/// Puts a number there and gives back the old one.
fn put(lent: &mut Lent, spot: Spot, new: u32) -> u32 {
    match spot.table {
        10 => u32::from(std::mem::replace(&mut lent.open_names[spot.row][spot.column], new as u8)),
        12 => u32::from(std::mem::replace(&mut lent.text[spot.row], new as u8)),
        _ => std::mem::replace(numbers(lent, spot), new),
    }
}

/// A random place, in the rows in use or the one behind them. Tables without rows are tried less often.
fn spot(rng: &mut Rng, lent: &Lent) -> Spot {
    const WIDTHS: [usize; 14] = [24, 24, 8, 8, 48, 24, 8, 8, 8, 8, 64, 8, 1, 16];
    let p = &lent.position;
    let used = [&[0], &p.rows()[..], &[p.used, 0]].concat();
    let lengths = [&LIMITS[..], &[CHARGE, 1]].concat();
    let mut table = rng.below(14);
    if used[table] == 0 {
        table = rng.below(14);
    }
    Spot { table, row: rng.below((used[table] as usize + 1).min(lengths[table])), column: rng.below(WIDTHS[table]) }
}

/// A number that is worth a try in place of another.
fn other(rng: &mut Rng, lent: &Lent, old: u32) -> u32 {
    let p = &lent.position;
    let edges = [
        0,
        1,
        2,
        3,
        4,
        5,
        6,
        7,
        8,
        9,
        10,
        13,
        24,
        25,
        27,
        28,
        64,
        65,
        256,
        257,
        512,
        513,
        65_535,
        65_536,
        u32::MAX - 1,
        u32::MAX,
    ];
    let counts = [p.states, p.entries, p.invokes, p.parameters, p.ids, p.docs, p.used, p.charge];
    match rng.below(5) {
        0 => old.wrapping_add(1),
        1 => old.wrapping_sub(1),
        2 => rng.below(p.ids as usize % 70_000 + 3) as u32,
        3 => counts[rng.below(counts.len())].wrapping_add(rng.below(3) as u32),
        _ => edges[rng.below(edges.len())],
    }
}

/// How often each answer came.
#[derive(Debug, Default)]
struct Tally {
    yes: usize,
    no: usize,
}

/// Changes some numbers, compares, and puts the old ones back.
fn changed(rng: &mut Rng, name: &str, lent: &mut Lent, count: usize, tally: &mut Tally) {
    let mut old = Vec::new();
    for _ in 0..count {
        let place = spot(rng, lent);
        let now = if place.table == 12 { u32::from(lent.text[rng.below(lent.text.len())]) } else { 0 };
        let was = put(lent, place, now);
        let new = if place.table == 12 { now } else { other(rng, lent, was) };
        put(lent, place, new);
        old.push((place, was, new));
    }
    let wanted = rules::first_no(lent);
    assert_eq!(lent.first_no(), wanted, "{name}: {old:?}");
    match wanted {
        0 => tally.yes += 1,
        _ => tally.no += 1,
    }
    for (place, was, _) in old.into_iter().rev() {
        put(lent, place, was);
    }
}

/// 100,000 stores with one number changed, and 20,000 with two or three.
#[test]
fn changed_numbers() {
    let mut stores = stores();
    let whole = stores.clone();
    let mut tally = Tally::default();
    for index in 0..120_000 {
        let mut rng = Rng::of(11, index);
        let place = rng.below(stores.len());
        let (name, lent) = &mut stores[place];
        let count = if index < 100_000 { 1 } else { 2 + rng.below(2) };
        changed(&mut rng, &format!("change {index} of {name}"), lent, count, &mut tally);
    }
    assert_eq!(stores, whole, "the stores are as they were");
    assert!(tally.yes > 20_000 && tally.no > 20_000, "{tally:?}");
}

/// Small stores of random rows: each table has none to two rows of small numbers, some of them made to fit.
#[test]
fn random_rows() {
    let mut tally = Tally::default();
    let mut lent = Lent::zeros();
    for index in 0..100_000 {
        let mut rng = Rng::of(12, index);
        random_store(&mut rng, &mut lent);
        let wanted = rules::first_no(&lent);
        assert_eq!(lent.first_no(), wanted, "random store {index}");
        match wanted {
            0 => tally.yes += 1,
            _ => tally.no += 1,
        }
    }
    assert!(tally.yes > 1_000 && tally.no > 20_000, "{tally:?}");
}

fn random_store(rng: &mut Rng, lent: &mut Lent) {
    let mut fill = |rows: &mut [u32], columns: usize| {
        rows.fill(0);
        for cell in &mut rows[..columns] {
            *cell = if rng.one_in(8) { rng.below(4) as u32 } else { 0 };
        }
    };
    fill(&mut lent.chart[0], 2);
    (0..2).for_each(|row| fill(&mut lent.states[row], 8));
    (0..2).for_each(|row| fill(&mut lent.transitions[row], 6));
    (0..2).for_each(|row| fill(&mut lent.regions[row], 1));
    (0..2).for_each(|row| fill(&mut lent.entries[row], 6));
    (0..2).for_each(|row| fill(&mut lent.invokes[row], 4));
    (0..2).for_each(|row| fill(&mut lent.datums[row], 3));
    (0..2).for_each(|row| fill(&mut lent.parameters[row], 4));
    (0..2).for_each(|row| fill(&mut lent.members[row], 3));
    (0..2).for_each(|row| fill(&mut lent.opened[row], 4));
    (0..2).for_each(|row| fill(&mut lent.open_regions[row], 1));
    // The numbers that rise, and tags, seldom come by chance.
    for (row, number) in [1, 3].into_iter().enumerate() {
        lent.transitions[row][0] = number;
        lent.transitions[row][2] = 1;
        lent.regions[row][0] = number + u32::from(!rng.one_in(8));
        lent.states[row][..2].copy_from_slice(&[1, row as u32 + u32::from(rng.one_in(4))]);
        lent.entries[row][1] = rng.below(10) as u32;
        lent.parameters[row][0] = rng.below(5) as u32;
        lent.members[row][0] = rng.below(11) as u32;
        lent.open_regions[row][1] = [24, 25, 13, 12][rng.below(4)];
        lent.opened[row][0] = [0, 24, 25, 2][rng.below(4)];
    }
    let p = &mut lent.position;
    let mut some = || rng.below(3) as u32;
    (p.states, p.transitions, p.regions, p.entries, p.invokes) = (some(), some(), some(), some() / 2, some() / 2);
    (p.datums, p.parameters, p.members, p.opened, p.open_regions) =
        (some() / 2, some() / 2, some() / 2, some(), some() / 2);
    (p.current, p.ids, p.docs, p.names, p.used, p.charge) = (some(), 4, 3, 0, 4, 4 + some());
}
