//! The recorded answers in tests/answers: in form and consistent by themselves, and, where the reference
//! is at hand, the same again byte for byte.

use rufsm::chart::{Chart, Entry};
use rufsm::dump_parse::{self, Answer};
use rufsm::judge::{admit, is_there, verdict, Verdict};
use rufsm::table::Table;
use rufsm::{chartlist, dump, event, frames, record, sha256};
use std::collections::HashSet;
use std::path::PathBuf;

fn file(name: &str) -> Vec<u8> {
    let path = PathBuf::from(env!("CARGO_MANIFEST_DIR")).join("../answers").join(name);
    std::fs::read(&path).unwrap_or_else(|e| panic!("tests/answers/{name}: {e}"))
}

fn texts(name: &str) -> Vec<(String, String)> {
    let frames = frames::parse(&file(name)).unwrap();
    frames.into_iter().map(|(name, body)| (name, String::from_utf8(body).expect("text"))).collect()
}

#[test]
fn files_belong_together() {
    let sources = String::from_utf8(file("SOURCES")).unwrap();
    for name in ["streams.txt", "chartlist.txt", "dump.txt"] {
        let line = format!("answers {name} {}", sha256::hex(&file(name)));
        assert!(sources.lines().any(|l| l == line), "{name} is not the file that was recorded");
    }
    for name in ["scxml_reader.rs", "fsm.rs", "executable_content.rs"] {
        assert!(sources.lines().any(|l| l.starts_with(&format!("source {name} "))), "{name}");
    }
    let streams = frames::parse(&file("streams.txt")).unwrap();
    assert!(streams.len() >= 400);
    let names: Vec<String> = streams.into_iter().map(|(name, _)| name).collect();
    assert_eq!(names.iter().collect::<HashSet<_>>().len(), names.len(), "names are distinct");
    for other in ["chartlist.txt", "dump.txt"] {
        assert_eq!(texts(other).into_iter().map(|(name, _)| name).collect::<Vec<String>>(), names, "{other}");
    }
}

/// The generator and the streams by hand still give what was recorded.
#[test]
fn streams_come_again() {
    assert!(frames::parse(&file("streams.txt")).unwrap() == record::streams());
}

#[test]
fn dumps_are_in_form_and_chartlists_follow() {
    for ((name, text), (_, list)) in texts("dump.txt").into_iter().zip(texts("chartlist.txt")) {
        let answer = dump_parse::parse(&text).unwrap_or_else(|e| panic!("{name}: {e}"));
        assert!(text.is_ascii(), "{name}");
        match answer {
            Answer::Accepted(chart) => {
                assert_eq!(dump::print(&chart), text, "{name}");
                assert_eq!(chartlist::print(&chart), list, "{name}");
                keeps_rules(&name, &chart);
            }
            Answer::Stopped { word, event, .. } => {
                assert_eq!(format!("answer={word}\nevent={event}\n"), list, "{name}");
            }
        }
    }
}

/// What stops a stream before the handlers is decided by the form alone, so it is held to our own reading.
#[test]
fn stops_before_the_handlers() {
    let streams = frames::parse(&file("streams.txt")).unwrap();
    for ((name, stream), (_, text)) in streams.into_iter().zip(texts("dump.txt")) {
        let raws = event::split(&stream);
        let stop = raws.iter().enumerate().find_map(|(i, raw)| admit(raw, i + 1).err());
        let own = match stop {
            None => (String::new(), usize::MAX),
            Some(Verdict::Form { event, .. }) => ("form".to_string(), event),
            Some(Verdict::Keys { event }) => ("keys".to_string(), event),
            Some(Verdict::LeftOut { event, .. }) => ("leftout".to_string(), event),
            Some(other) => panic!("{name}: {other:?}"),
        };
        match dump_parse::parse(&text).unwrap() {
            Answer::Accepted(_) => assert_eq!(own.0, "", "{name}"),
            Answer::Stopped { word, event, .. } if word == "refused" => {
                assert!(event < own.1 && event <= raws.len(), "{name}")
            }
            Answer::Stopped { word, event, .. } => assert_eq!((word, event), own, "{name}"),
        }
    }
}

/// The chart rules of document 01, and counters that cover the rows.
fn keeps_rules(name: &str, chart: &Chart) {
    let count = chart.states.len() as u32;
    let names: HashSet<_> = chart.states.iter().map(|s| &s.name).collect();
    assert_eq!(names.len(), chart.states.len(), "{name}: names are distinct");
    let transitions: HashSet<u32> = chart.transitions.iter().map(|t| t.number).collect();
    let regions: HashSet<u32> = chart.regions.iter().map(|r| r.number).collect();
    assert!(transitions.is_disjoint(&regions), "{name}");
    let all: HashSet<u32> = transitions.union(&regions).copied().collect();
    assert_eq!(all, (1..=chart.position.ids).collect(), "{name}: every number drawn names a row");
    for (index, state) in chart.states.iter().enumerate() {
        assert_eq!(state.number as usize, index + 1, "{name}");
        assert!(state.parent <= count && state.doc <= chart.position.docs, "{name}");
        assert!(state.initial == 0 || transitions.contains(&state.initial), "{name}");
        assert!(state.children.iter().chain(&state.histories).all(|n| (1..=count).contains(n)), "{name}");
        assert!(state.onentry.iter().chain(&state.onexit).all(|n| regions.contains(n)), "{name}");
        assert!(state.transitions.iter().all(|n| transitions.contains(n)), "{name}");
    }
    for transition in &chart.transitions {
        assert!(transition.targets.iter().chain([&transition.source]).all(|n| (1..=count).contains(n)), "{name}");
        assert!(transition.content == 0 || regions.contains(&transition.content), "{name}");
        assert_eq!(transition.wildcard == 1, transition.events.iter().any(|w| w == "*"), "{name}");
    }
    for region in &chart.regions {
        for entry in &region.entries {
            let inner = match entry {
                Entry::If { content, otherwise, .. } => [*content, *otherwise],
                Entry::Foreach { content, .. } => [*content, 0],
                _ => [0, 0],
            };
            assert!(inner.iter().all(|n| *n == 0 || *n > region.number && regions.contains(n)), "{name}");
        }
    }
}

/// The recorded streams are few but miss nothing that the table of random streams counts.
#[test]
fn every_element_attribute_refusal_and_feature_is_recorded() {
    if !is_there("every_element_attribute_refusal_and_feature_is_recorded") {
        return;
    }
    let mut table = Table::new();
    record::streams().iter().for_each(|(_, stream)| table.add(stream, &verdict(stream)));
    let absent: Vec<&String> = table.counts.iter().filter(|(_, n)| **n == 0).map(|(label, _)| label).collect();
    assert!(absent.is_empty(), "not recorded: {absent:?}");
}

#[test]
fn reference_gives_the_same_again() {
    if !is_there("reference_gives_the_same_again") {
        return;
    }
    for again in record::files().unwrap() {
        assert!(file(again.name) == again.bytes, "tests/answers/{} differs: see its README", again.name);
    }
}
