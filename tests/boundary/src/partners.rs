//! Demand 3 on the running code: a stream's partner has its state names renamed and its texts of cond, expr and array replaced by others as long.

use crate::lent::Lent;
use rufsm::event::Event;
use rufsm::rng::Rng;

const STATES: [&str; 5] = ["scxml", "state", "parallel", "final", "history"];

/// Letters swapped in pairs. `_`, `i` and `d` stay, so that no other name comes to begin `__id`.
const PAIRS: [(char, char); 10] = [
    ('a', 'b'),
    ('c', 'e'),
    ('f', 'g'),
    ('h', 'j'),
    ('k', 'l'),
    ('m', 'n'),
    ('o', 'p'),
    ('q', 'r'),
    ('s', 't'),
    ('1', '2'),
];

fn swapped(letter: char) -> char {
    let other = PAIRS.iter().find_map(|(a, b)| match letter {
        _ if letter == *a => Some(*b),
        _ if letter == *b => Some(*a),
        _ => None,
    });
    other.unwrap_or(letter)
}

fn parts(letter: char) -> bool {
    matches!(letter, '\t' | '\n' | '\x0c' | '\r' | ' ')
}

/// One-to-one, as long, and the same for generated names and for what is not one word.
pub fn renamed(name: &str) -> String {
    if name.starts_with("__id") || name.chars().any(parts) {
        return name.to_string();
    }
    name.chars().map(swapped).collect()
}

/// Each word by itself.
fn renamed_words(value: &str) -> String {
    value.split_inclusive(parts).map(|word| renamed_before(word)).collect()
}

fn renamed_before(word: &str) -> String {
    match word.strip_suffix(parts) {
        Some(name) => renamed(name) + &word[name.len()..],
        None => renamed(word),
    }
}

/// As long, of any bytes up to 127.
fn replaced(rng: &mut Rng, value: &str) -> String {
    value.chars().map(|_| char::from(rng.below(128) as u8)).collect()
}

fn partner_value(rng: &mut Rng, element: &str, key: &str, value: &str) -> String {
    match key {
        "cond" | "expr" | "array" => replaced(rng, value),
        "id" if STATES.contains(&element) => renamed(value),
        "initial" if STATES.contains(&element) => renamed_words(value),
        "target" if element == "transition" => renamed_words(value),
        _ => value.to_string(),
    }
}

pub fn partner(rng: &mut Rng, event: &Event) -> Event {
    let pairs = event.pairs.iter();
    let pairs = pairs.map(|(key, value)| (key.clone(), partner_value(rng, &event.name, key, value))).collect();
    Event { pairs, ..event.clone() }
}

/// The columns of cond, expr and array, by the kind of row.
const MASKED: [(u32, &[usize]); 6] = [(1, &[12]), (2, &[6]), (4, &[6, 8, 10]), (5, &[18]), (6, &[3]), (7, &[4])];

/// The columns of all other texts but state names, by the kind of row.
const PLAIN: [(u32, &[usize]); 8] = [
    (0, &[3, 5, 7]),
    (1, &[10]),
    (4, &[12, 14, 16, 18, 20, 22, 24, 26, 28, 30, 32, 34, 36, 38, 40]),
    (5, &[4, 6, 8, 10, 12, 14, 16]),
    (6, &[1]),
    (7, &[2, 6]),
    (8, &[3]),
    (2, &[]),
];

fn text(lent: &Lent, row: &[u32], column: usize) -> Option<String> {
    let (at, len) = (row[column] as usize, row[column + 1] as usize);
    (at > 0).then(|| String::from_utf8(lent.text[at - 1..at - 1 + len].to_vec()).expect("text"))
}

/// A script's and a content's text is plain; an assign's stands in the same column.
fn texts_agree(kind: u32, one: &Lent, other: &Lent, columns: &[usize]) -> bool {
    (0..one.count(kind)).all(|place| {
        let (row, partner) = (one.row(kind, place), other.row(kind, place));
        columns.iter().all(|column| text(one, &row, *column) == text(other, &partner, *column))
    })
}

fn names_renamed(one: &Lent, other: &Lent) -> bool {
    (0..one.count(1)).all(|place| {
        let name = |lent: &Lent| text(lent, &lent.row(1, place), 0).expect("a name");
        renamed(&name(one)) == name(other)
    })
}

/// Every number of every row and the position are the same, names are renamed, and other texts are the same where they are not replaced.
pub fn agree(one: &Lent, other: &Lent) -> bool {
    one.same_numbers(other)
        && names_renamed(one, other)
        && PLAIN.iter().all(|(kind, columns)| texts_agree(*kind, one, other, columns))
}

/// Whether some replaced text differs: that the partner is no copy.
pub fn differs(one: &Lent, other: &Lent) -> bool {
    MASKED.iter().any(|(kind, columns)| !texts_agree(*kind, one, other, columns))
}
