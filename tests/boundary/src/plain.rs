//! Question 2 as one would write it by hand in Rust, for speed only: numbers searched by halves, names by a hash first. It is held to `rules` in the tests.

use crate::lent::{Lent, CHARGE, LIMITS};
use crate::numbers::ELEMENTS;
use crate::rules::element;

struct Held<'a> {
    transitions: &'a [[u32; 8]],
    regions: &'a [[u32; 8]],
    lent: &'a Lent,
}

fn has(rows: &[[u32; 8]], number: u32) -> bool {
    number != 0 && rows.binary_search_by_key(&number, |row| row[0]).is_ok()
}

fn text_from(text: &[u8], at: u32, len: u32) -> &[u8] {
    match at {
        0 => &[],
        _ => &text[at as usize - 1..][..len as usize],
    }
}

impl Held<'_> {
    fn region(&self, v: u32) -> bool {
        v == 0 || has(self.regions, v)
    }

    fn transition(&self, v: u32) -> bool {
        v == 0 || has(self.transitions, v)
    }

    fn state(&self, v: u32) -> bool {
        v <= self.lent.position.states
    }

    fn is_state(&self, v: u32) -> bool {
        v != 0 && self.state(v)
    }

    fn texts(&self, cells: &[u32]) -> bool {
        let used = u64::from(self.lent.position.used);
        cells.chunks_exact(2).all(|c| if c[0] == 0 { c[1] == 0 } else { u64::from(c[0]) - 1 + u64::from(c[1]) <= used })
    }

    fn entry(&self, r: &[u32; 48]) -> bool {
        let above = |v: u32| v == 0 || (v > r[0] && has(self.regions, v));
        self.region(r[0])
            && (1..=8).contains(&r[1])
            && self.state(r[2])
            && if r[1] == 1 || r[1] == 4 { above(r[3]) } else { self.region(r[3]) }
            && if r[1] == 1 { above(r[4]) } else { self.region(r[4]) }
            && r[5] <= 1
            && self.texts(&r[6..44])
            && zeros(&r[44..])
    }

    fn member(&self, r: &[u32; 8]) -> bool {
        let p = &self.lent.position;
        let fits = match r[0] {
            1 | 2 => self.state(r[1]) && self.is_state(r[2]),
            3 | 4 => self.state(r[1]) && has(self.regions, r[2]),
            5 => self.state(r[1]) && has(self.transitions, r[2]),
            6 => self.transition(r[1]) && self.is_state(r[2]),
            7 => self.transition(r[1]) && r[2] == 0,
            8 => r[1] <= p.entries && r[2] == 0,
            9 => r[1] <= p.invokes && r[2] == 0,
            _ => false,
        };
        fits && self.texts(&r[3..5]) && zeros(&r[5..])
    }

    fn parameter(&self, r: &[u32; 8]) -> bool {
        let p = &self.lent.position;
        (match r[0] {
            1 => r[1] <= p.entries,
            2 => r[1] <= p.invokes,
            3 => self.state(r[1]),
            _ => false,
        }) && self.texts(&r[2..])
    }

    fn state_row(&self, r: &[u32; 24]) -> bool {
        let p = &self.lent.position;
        self.texts(&r[..2])
            && r[2] <= p.docs
            && self.transition(r[3])
            && self.state(r[4])
            && r[5] <= 1
            && r[6] <= 1
            && r[7] <= 2
            && r[8] <= p.parameters + 1
            && r[9] <= 1
            && self.texts(&r[10..14])
            && zeros(&r[14..])
    }
}

fn zeros(cells: &[u32]) -> bool {
    cells.iter().all(|v| *v == 0)
}

fn rises(rows: &[[u32; 8]]) -> bool {
    let mut low = 0;
    rows.iter().all(|row| std::mem::replace(&mut low, row[0]) < row[0])
}

/// Two rising tables without a number in common.
fn apart(a: &[[u32; 8]], b: &[[u32; 8]]) -> bool {
    let (mut i, mut j) = (0, 0);
    while i < a.len() && j < b.len() {
        match a[i][0].cmp(&b[j][0]) {
            std::cmp::Ordering::Equal => return false,
            std::cmp::Ordering::Less => i += 1,
            std::cmp::Ordering::Greater => j += 1,
        }
    }
    true
}

fn names_distinct(text: &[u8], states: &[[u32; 24]]) -> bool {
    let mut hashes = [0u32; 256];
    for (i, row) in states.iter().enumerate() {
        let name = text_from(text, row[0], row[1]);
        let hash = name.iter().fold(0u32, |h, b| h.wrapping_mul(31).wrapping_add(u32::from(*b)));
        let met = |j: usize| hashes[j] == hash && text_from(text, states[j][0], states[j][1]) == name;
        if (0..i).any(met) {
            return false;
        }
        hashes[i] = hash;
    }
    true
}

fn opened_fit(l: &Lent, held: &Held) -> bool {
    let p = &l.position;
    let (opened, open_regions) = (&l.opened[..p.opened as usize], &l.open_regions[..p.open_regions as usize]);
    let (r#if, foreach, elseif) = (element("if"), element("foreach"), element("elseif"));
    let is_block = |tag: u32| tag == r#if || tag == foreach;
    let unknown = |r: &[u32; 8], name: &[u8; 64]| {
        (1..=64).contains(&r[3]) && !ELEMENTS.iter().any(|e| e.as_bytes() == &name[..r[3] as usize])
    };
    let mut below = 0;
    let mut tags = open_regions.iter().map(|r| (std::mem::replace(&mut below, r[1]), r[1]));
    opened.iter().zip(&l.open_names).all(|(r, name)| {
        r[0] <= 27 && (r[0] != 0 || unknown(r, name)) && held.state(r[1]) && held.transition(r[2]) && zeros(&r[4..])
    }) && open_regions.iter().all(|r| held.region(r[0]) && zeros(&r[2..]))
        && tags.all(|(below, tag)| is_block(tag) || (tag == elseif && below == r#if))
        && open_regions.iter().filter(|r| is_block(r[1])).count() <= opened.iter().filter(|r| is_block(r[0])).count()
}

/// Question 2, of slices that are long enough.
pub fn in_order(l: &Lent) -> bool {
    let p = &l.position;
    if !p.rows().iter().zip(&LIMITS[1..]).all(|(n, most)| *n as usize <= *most)
        || [p.ids, p.docs, p.names, p.charge].iter().any(|n| *n as usize > CHARGE)
        || p.used > p.charge
    {
        return false;
    }
    let held = Held {
        transitions: &l.transitions[..p.transitions as usize],
        regions: &l.regions[..p.regions as usize],
        lent: l,
    };
    let states = &l.states[..p.states as usize];
    let text = &l.text[..p.used as usize];
    let c = &l.chart[0];
    let own = |v: u32| v >= 1 && v <= p.ids;
    rises(held.transitions)
        && rises(held.regions)
        && apart(held.transitions, held.regions)
        && held.state(c[0])
        && held.region(c[1])
        && c[2] <= 1
        && held.texts(&c[3..9])
        && zeros(&c[9..])
        && states.iter().all(|r| held.state_row(r))
        && held.transitions.iter().all(|r| {
            own(r[0])
                && r[1] <= p.docs
                && held.is_state(r[2])
                && r[3] <= 1
                && r[4] <= 1
                && held.region(r[5])
                && held.texts(&r[6..])
        })
        && held.regions.iter().all(|r| own(r[0]) && zeros(&r[1..]))
        && l.entries[..p.entries as usize].iter().all(|r| held.entry(r))
        && l.invokes[..p.invokes as usize].iter().all(|r| {
            held.state(r[0]) && r[1] <= 1 && held.region(r[2]) && r[3] <= 1 && held.texts(&r[4..20]) && zeros(&r[20..])
        })
        && l.datums[..p.datums as usize].iter().all(|r| held.state(r[0]) && held.texts(&r[1..7]) && r[7] == 0)
        && l.parameters[..p.parameters as usize].iter().all(|r| held.parameter(r))
        && l.members[..p.members as usize].iter().all(|r| held.member(r))
        && opened_fit(l, &held)
        && held.region(p.current)
        && names_distinct(text, states)
}

/// Tables that are in use up to a share of their limits: full at 1, an eighth at 8. Names have ten bytes.
pub fn tables(share: u32) -> Lent {
    let mut l = Lent::zeros();
    let limit = |kind: usize| LIMITS[kind] as u32 / share;
    let (states, transitions, regions, entries, invokes) = (limit(1), limit(2), limit(3), limit(4), limit(5));
    let (datums, parameters, members, opened) = (limit(6), limit(7), limit(8), limit(9));
    let (transition, region) = (|i: u32| 1 + 2 * (i % transitions), |i: u32| 2 + 2 * (i % regions));
    for i in 0..states {
        let at = 10 * i as usize;
        l.text[at..at + 10].copy_from_slice(format!("state_{i:04}").as_bytes());
        l.states[i as usize][..5].copy_from_slice(&[at as u32 + 1, 10, i + 1, transition(i), i / 2]);
    }
    l.text[10 * states as usize..].fill(b'x');
    l.chart[0][0] = 1;
    for i in 0..transitions {
        l.transitions[i as usize] = [transition(i), i, 1 + i % states, 0, 0, region(i), 100, 10];
    }
    (0..regions).for_each(|i| l.regions[i as usize][0] = region(i));
    for i in 0..entries {
        let row = &mut l.entries[i as usize];
        let (kind, place) = (1 + i % 8, (i * 7) % (regions - 12));
        row[..6].copy_from_slice(&[region(place), kind, 1 + i % states, 0, 0, 0]);
        row[3] = if kind == 1 || kind == 4 { region(place + 2 + i % 9) } else { 0 };
        row[4] = if kind == 1 { region(place + 1) } else { 0 };
        for column in (6..44).step_by(2).filter(|column| (column + i).is_multiple_of(3)) {
            row[column as usize..column as usize + 2].copy_from_slice(&[1 + i * 20, 12]);
        }
    }
    for i in 0..invokes {
        l.invokes[i as usize][..6].copy_from_slice(&[1 + i % states, 0, region(i), 0, 100, 5]);
    }
    (0..datums).for_each(|i| l.datums[i as usize] = [1 + i % states, 1 + i, 4, 100, 10, 0, 0, 0]);
    (0..parameters)
        .for_each(|i| l.parameters[i as usize] = [1 + i % 3, 1 + i % invokes.min(states), 1 + i, 4, 0, 0, 0, 0]);
    for i in 0..members {
        let list = 1 + (i * 5) % 9;
        let owner = match list {
            1..=5 => 1 + (i * 13) % states,
            6 | 7 => transition(i * 13),
            8 => 1 + (i * 13) % entries,
            _ => 1 + i % invokes,
        };
        let value = match list {
            1 | 2 | 6 => 1 + (i * 11) % states,
            3 | 4 => region(i * 11),
            5 => transition(i * 11),
            _ => 0,
        };
        let word = if list > 6 { [1 + i, 6] } else { [0, 0] };
        l.members[i as usize] = [list, owner, value, word[0], word[1], 0, 0, 0];
    }
    (0..opened).for_each(|i| l.opened[i as usize][..3].copy_from_slice(&[if i % 2 == 0 { 24 } else { 2 }, 1, 1]));
    (0..opened / 2).for_each(|i| l.open_regions[i as usize][..2].copy_from_slice(&[region(i), 24]));
    let p = &mut l.position;
    (p.states, p.transitions, p.regions, p.entries, p.invokes) = (states, transitions, regions, entries, invokes);
    (p.datums, p.parameters, p.members, p.opened, p.open_regions) = (datums, parameters, members, opened, opened / 2);
    (p.current, p.ids, p.docs, p.names, p.used, p.charge) = (2, 65_535, 65_535, 3, 65_535, 65_535);
    l
}
