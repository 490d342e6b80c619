//! Every element in every parent, held to the nesting table.

use rufsm::event::{print, print_all, Event, Kind};
use rufsm::grid;
use rufsm::judge::{is_there, verdict, Verdict};
use rufsm::nesting::{parents, TABLE};
use rufsm::refusal;

/// The reference's own sentence.
fn sentence(tag: &str, parent: &str) -> String {
    let list = parents(tag).unwrap();
    let last = list.len() - 1;
    let parts = list.iter().enumerate().map(|(i, name)| match i {
        0 => format!("<{name}>"),
        _ if i < last => format!(", <{name}>"),
        _ => format!(" or <{name}>"),
    });
    format!("<{tag}> inside <{parent}>. Only allowed inside {}", parts.collect::<String>())
}

/// The judge's verdict on the last event, as a number; the events before it are taken.
fn judged(way: &[Event], last: &Event, parent: &str) -> u32 {
    let stream = print_all(way) + &print(last);
    let here = |event: usize| assert_eq!(event, way.len() + 1, "{stream}");
    match verdict(stream.as_bytes()) {
        Verdict::Accepted(_) => 0,
        Verdict::Form { event, .. } => {
            here(event);
            3
        }
        Verdict::Keys { .. } => 4,
        Verdict::LeftOut { event, .. } => {
            here(event);
            6
        }
        Verdict::Refused { event, reason } => {
            here(event);
            let number = refusal::number(last, &reason).unwrap_or_else(|| panic!("{stream}{reason}"));
            if number == 8 {
                assert_eq!(reason, sentence(&last.name, parent));
            }
            number
        }
    }
}

#[test]
fn every_element_in_every_parent() {
    if !is_there("every_element_in_every_parent") {
        return;
    }
    let mut taken = 0;
    for place in grid::places() {
        for tried in place.tried {
            let number = judged(&place.way, &tried.event, place.parent);
            assert_eq!(number, tried.number, "{:?} in {}", tried.event, place.parent);
            let listed = TABLE.iter().any(|(tag, _)| *tag == tried.event.name);
            taken += usize::from(listed && tried.event.kind == Kind::Empty && number == 0);
        }
    }
    assert_eq!(taken, TABLE.iter().map(|(_, parents)| parents.len()).sum::<usize>());
}

/// The first scxml stands in any unknown element, too.
#[test]
fn scxml_in_unknown_names() {
    if !is_there("scxml_in_unknown_names") {
        return;
    }
    let open = |tag: &str| Event::new(Kind::Open, tag);
    assert!(matches!(verdict(print_all(&[open("x"), open("y"), open("scxml")]).as_bytes()), Verdict::Accepted(_)));
}

#[test]
fn table_has_25_rows_of_up_to_seven() {
    assert_eq!(TABLE.len(), 25);
    assert_eq!(TABLE.iter().map(|(_, parents)| parents.len()).max(), Some(7));
}
