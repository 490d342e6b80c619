//! The generator: streams come again from their seed, most are accepted, nothing that should occur is missing.

use rufsm::event::{parse, print, split};
use rufsm::generate::{stream, Profile};
use rufsm::judge::is_there;
use rufsm::table;
use std::io::Write;

const PROFILES: [Profile; 3] = [Profile::Small, Profile::Middle, Profile::Ordinary];

#[test]
fn seeds_reproduce() {
    for profile in PROFILES {
        for index in 0..50 {
            assert_eq!(stream(5, index, profile), stream(5, index, profile));
        }
        assert_ne!(stream(5, 0, profile), stream(6, 0, profile));
    }
}

#[test]
fn small_streams_are_small() {
    for index in 0..2000 {
        let bytes = stream(9, index, Profile::Small);
        assert!(split(&bytes).len() <= 16, "stream {index}");
    }
}

/// An event in form is written as it was read.
#[test]
fn events_print_as_they_parse() {
    for index in 0..2000 {
        let bytes = stream(11, index, Profile::Ordinary);
        for raw in split(&bytes) {
            if let Ok(event) = parse(raw) {
                assert_eq!(print(&event).as_bytes(), raw);
            }
        }
    }
}

/// The run that must not crash the judge, with its table.
#[test]
fn twenty_thousand_streams() {
    if !is_there("twenty_thousand_streams") {
        return;
    }
    for profile in PROFILES {
        let count = if profile == Profile::Ordinary { 20_000 } else { 5_000 };
        let table = table::run(1, count, profile).unwrap();
        assert_eq!(table.unexpected(), 0, "{}", table.print());
        assert!(table.accepted * 100 >= table.streams * 60, "{}", table.summary());
        if profile == Profile::Ordinary {
            let absent: Vec<&String> = table.counts.iter().filter(|(_, n)| **n == 0).map(|(label, _)| label).collect();
            assert!(absent.is_empty(), "never occurred: {absent:?}");
            let _ = write!(std::io::stderr(), "{}", table.summary());
        }
    }
}
