//! Questions 1 and 2 in plain Rust, written from document 01 ('Chart rules and limits', 'The reader's questions') and docs/DECISIONS.md, 46 to 50 and
//! 66 to 73, and not from the proved code: the other side of a comparison.

use crate::lent::{Lent, CHARGE, LIMITS};
use crate::numbers::{number_in, ELEMENTS};
use std::collections::HashSet;

/// An element's number; 0 where the name is unknown.
pub fn element(name: &str) -> u32 {
    number_in(&ELEMENTS, name)
}

/// The first no of questions 1 and 2, or 0.
pub fn first_no(lent: &Lent) -> u32 {
    if !long_enough(lent) {
        1
    } else if !in_order(lent) {
        2
    } else {
        0
    }
}

fn long_enough(l: &Lent) -> bool {
    let rows = [
        l.chart.len(),
        l.states.len(),
        l.transitions.len(),
        l.regions.len(),
        l.entries.len(),
        l.invokes.len(),
        l.datums.len(),
        l.parameters.len(),
        l.members.len(),
        l.opened.len(),
        l.open_names.len(),
        l.open_regions.len(),
    ];
    rows.iter().zip(LIMITS).all(|(have, need)| *have >= need) && l.text.len() >= CHARGE
}

/// What the rows in use say of numbers that exist.
struct Known<'a> {
    lent: &'a Lent,
    transitions: HashSet<u32>,
    regions: HashSet<u32>,
}

impl Known<'_> {
    fn count(&self, kind: u32) -> u32 {
        self.lent.count(kind) as u32
    }

    fn is_state(&self, v: u32) -> bool {
        (1..=self.count(1)).contains(&v)
    }

    fn by_creation(&self, kind: u32, v: u32) -> bool {
        v <= self.count(kind)
    }

    fn state_or_zero(&self, v: u32) -> bool {
        v == 0 || self.is_state(v)
    }

    fn region_or_zero(&self, v: u32) -> bool {
        v == 0 || self.regions.contains(&v)
    }

    fn transition_or_zero(&self, v: u32) -> bool {
        v == 0 || self.transitions.contains(&v)
    }

    /// Texts from a column on: each absent, or inside the text stored.
    fn texts(&self, row: &[u32], from: usize, count: usize) -> bool {
        let used = u64::from(self.lent.position.used);
        row[from..from + 2 * count].chunks_exact(2).all(|cell| match cell[0] {
            0 => cell[1] == 0,
            at => u64::from(at) - 1 + u64::from(cell[1]) <= used,
        })
    }

    fn spare(row: &[u32], from: usize) -> bool {
        row[from..].iter().all(|v| *v == 0)
    }

    fn own(&self, v: u32) -> bool {
        v >= 1 && v <= self.lent.position.ids
    }

    fn chart(&self, r: &[u32]) -> bool {
        self.state_or_zero(r[0]) && self.region_or_zero(r[1]) && r[2] <= 1 && self.texts(r, 3, 3) && Self::spare(r, 9)
    }

    fn state(&self, r: &[u32]) -> bool {
        self.texts(r, 0, 1)
            && r[2] <= self.lent.position.docs
            && self.transition_or_zero(r[3])
            && self.state_or_zero(r[4])
            && r[5] <= 1
            && r[6] <= 1
            && r[7] <= 2
            && u64::from(r[8]) <= u64::from(self.count(7)) + 1
            && r[9] <= 1
            && self.texts(r, 10, 2)
            && Self::spare(r, 14)
    }

    fn transition(&self, r: &[u32]) -> bool {
        self.own(r[0])
            && r[1] <= self.lent.position.docs
            && self.is_state(r[2])
            && r[3] <= 1
            && r[4] <= 1
            && self.region_or_zero(r[5])
            && self.texts(r, 6, 1)
    }

    fn entry(&self, r: &[u32]) -> bool {
        let above = |v: u32| v == 0 || (self.regions.contains(&v) && v > r[0]);
        let (is_if, is_foreach) = (r[1] == 1, r[1] == 4);
        self.region_or_zero(r[0])
            && (1..=8).contains(&r[1])
            && self.state_or_zero(r[2])
            && if is_if || is_foreach { above(r[3]) } else { self.region_or_zero(r[3]) }
            && if is_if { above(r[4]) } else { self.region_or_zero(r[4]) }
            && r[5] <= 1
            && self.texts(r, 6, 19)
            && Self::spare(r, 44)
    }

    fn invoke(&self, r: &[u32]) -> bool {
        self.state_or_zero(r[0])
            && r[1] <= 1
            && self.region_or_zero(r[2])
            && r[3] <= 1
            && self.texts(r, 4, 8)
            && Self::spare(r, 20)
    }

    fn datum(&self, r: &[u32]) -> bool {
        self.state_or_zero(r[0]) && self.texts(r, 1, 3) && r[7] == 0
    }

    fn parameter(&self, r: &[u32]) -> bool {
        let owner = match r[0] {
            1 => self.by_creation(4, r[1]),
            2 => self.by_creation(5, r[1]),
            3 => self.state_or_zero(r[1]),
            _ => false,
        };
        owner && self.texts(r, 2, 3)
    }

    /// Lists: children, history, onentry, onexit, transitions; targets, event words; namelists of send and invoke. A member is never 0, a word has no number.
    fn member(&self, r: &[u32]) -> bool {
        let owner = match r[0] {
            1..=5 => self.state_or_zero(r[1]),
            6 | 7 => self.transition_or_zero(r[1]),
            8 => self.by_creation(4, r[1]),
            9 => self.by_creation(5, r[1]),
            _ => false,
        };
        let value = match r[0] {
            1 | 2 | 6 => self.is_state(r[2]),
            3 | 4 => self.regions.contains(&r[2]),
            5 => self.transitions.contains(&r[2]),
            _ => r[2] == 0,
        };
        owner && value && self.texts(r, 3, 1) && Self::spare(r, 5)
    }

    fn opened(&self, r: &[u32], name: &[u8; 64]) -> bool {
        let known = (1..=27).contains(&r[0]);
        let unknown =
            r[0] == 0 && (1..=64).contains(&r[3]) && !ELEMENTS.iter().any(|e| e.as_bytes() == &name[..r[3] as usize]);
        (known || unknown) && self.state_or_zero(r[1]) && self.transition_or_zero(r[2]) && Self::spare(r, 4)
    }
}

fn rises(rows: &[[u32; 8]]) -> bool {
    rows.iter().try_fold(0, |low, row| (row[0] > low).then_some(row[0])).is_some()
}

fn name<'a>(text: &'a [u8], row: &[u32; 24]) -> &'a [u8] {
    match row[0] {
        0 => &[],
        at => &text[at as usize - 1..][..row[1] as usize],
    }
}

fn in_order(l: &Lent) -> bool {
    let p = &l.position;
    let drawn = [p.ids, p.docs, p.names, p.charge];
    if !p.rows().iter().zip(&LIMITS[1..]).all(|(n, most)| *n as usize <= *most)
        || drawn.iter().any(|n| *n > 65_535)
        || p.used > p.charge
    {
        return false;
    }
    let in_use = |rows: &[[u32; 8]], n: u32| rows[..n as usize].to_vec();
    let (transitions, regions) = (in_use(&l.transitions, p.transitions), in_use(&l.regions, p.regions));
    let (opened, open_regions) = (in_use(&l.opened, p.opened), in_use(&l.open_regions, p.open_regions));
    let numbers = |rows: &[[u32; 8]]| rows.iter().map(|row| row[0]).collect::<HashSet<u32>>();
    let known = Known { lent: l, transitions: numbers(&transitions), regions: numbers(&regions) };
    let states = &l.states[..p.states as usize];
    let text = &l.text[..p.used as usize];
    let rows_fit = known.chart(&l.chart[0])
        && states.iter().all(|r| known.state(r))
        && transitions.iter().all(|r| known.transition(r))
        && regions.iter().all(|r| known.own(r[0]) && Known::spare(r, 1))
        && l.entries[..p.entries as usize].iter().all(|r| known.entry(r))
        && l.invokes[..p.invokes as usize].iter().all(|r| known.invoke(r))
        && l.datums[..p.datums as usize].iter().all(|r| known.datum(r))
        && l.parameters[..p.parameters as usize].iter().all(|r| known.parameter(r))
        && l.members[..p.members as usize].iter().all(|r| known.member(r))
        && opened.iter().zip(&l.open_names).all(|(r, name)| known.opened(r, name))
        && open_regions.iter().all(|r| known.region_or_zero(r[0]) && Known::spare(r, 2));
    let numbers_fit = rises(&transitions) && rises(&regions) && known.transitions.is_disjoint(&known.regions);
    let is_block = |tag: u32| tag == element("if") || tag == element("foreach");
    let tags_fit = open_regions.iter().enumerate().all(|(i, r)| {
        is_block(r[1]) || (r[1] == element("elseif") && i > 0 && open_regions[i - 1][1] == element("if"))
    });
    let blocks = |rows: &[[u32; 8]], column: usize| rows.iter().filter(|r| is_block(r[column])).count();
    rows_fit
        && numbers_fit
        && tags_fit
        && blocks(&open_regions, 1) <= blocks(&opened, 0)
        && known.region_or_zero(p.current)
        && states.iter().map(|row| name(text, row)).collect::<HashSet<_>>().len() == states.len()
}
