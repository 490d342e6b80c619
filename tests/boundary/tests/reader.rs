//! The reader through its C functions against the judge: acceptance, the refused event, the number, and the whole chart through rows read.

use boundary::compare::{by_dump, by_verdict, check, feed_events, Expected};
use boundary::hostile::Attack;
use boundary::lent::Lent;
use boundary::partners::{agree, differs, partner};
use rufsm::event::{self, print, Event, Kind};
use rufsm::generate::{stream, Profile};
use rufsm::rng::Rng;
use rufsm::{dump_parse, frames, grid, judge};
use std::path::{Path, PathBuf};

fn repository() -> PathBuf {
    Path::new(env!("CARGO_MANIFEST_DIR")).join("../..")
}

fn parsed(dump: &[u8]) -> dump_parse::Answer {
    dump_parse::parse(std::str::from_utf8(dump).expect("text")).expect("a dump")
}

fn red(name: &str, stream: &[u8], expected: &Expected) {
    if let Err(difference) = check(stream, expected) {
        panic!("{name}: {difference}");
    }
}

/// All recorded answers; no reference is needed.
#[test]
fn recorded_answers() {
    let file = |name: &str| {
        let bytes = std::fs::read(repository().join("tests/answers").join(name)).expect("recorded answers");
        frames::parse(&bytes).expect("frames")
    };
    let (streams, dumps) = (file("streams.txt"), file("dump.txt"));
    assert!(streams.len() >= 400 && streams.len() == dumps.len());
    for ((name, stream), (other, dump)) in streams.iter().zip(&dumps) {
        assert_eq!(name, other);
        red(name, stream, &by_dump(stream, &parsed(dump)));
    }
}

/// Every chart of the decisions, the differences and the examples; no reference is needed.
#[test]
fn recorded_folders() {
    for folder in ["tests/decisions", "tests/differences", "examples"] {
        let mut count = 0;
        for entry in std::fs::read_dir(repository().join(folder)).expect(folder) {
            let path = entry.expect(folder).path();
            if path.extension().is_some_and(|word| word == "events") {
                let (stream, dump) = (std::fs::read(&path), std::fs::read(path.with_extension("dump")));
                let (stream, dump) = (stream.expect("events"), dump.expect("a dump"));
                red(&path.display().to_string(), &stream, &by_dump(&stream, &parsed(&dump)));
                count += 1;
            }
        }
        assert!(count >= 5, "{folder}: {count} files");
    }
}

/// Every element in every parent, as each kind of event: document 01's number, no judge.
#[test]
fn every_element_in_every_parent() {
    for place in grid::places() {
        let mut lent = Lent::zeros();
        for event in &place.way {
            assert_eq!(lent.event(print(event).as_bytes()), 0, "the way into {}", place.parent);
        }
        for tried in &place.tried {
            let mut other = lent.clone();
            let raw = print(&tried.event);
            assert_eq!(other.event(raw.as_bytes()), tried.number, "in {}: {raw}", place.parent);
            assert!(tried.number == 0 || other.same(&lent), "in {}: {raw} changed something", place.parent);
        }
    }
}

/// Streams of a seed, by two threads.
fn random(seed: u64, count: u64, profile: Profile) {
    let one = |index: u64| {
        let bytes = stream(seed, index, profile);
        let expected = by_verdict(&bytes, &judge::verdict(&bytes));
        red(&format!("stream {seed}-{index} {profile:?}"), &bytes, &expected);
    };
    std::thread::scope(|scope| {
        for first in 0..2 {
            scope.spawn(move || (first..count).step_by(2).for_each(one));
        }
    });
}

#[test]
fn random_streams() {
    if !judge::is_there("random_streams") {
        return;
    }
    random(1, 10_000, Profile::Ordinary);
    random(2, 6_000, Profile::Middle);
    random(3, 4_000, Profile::Small);
}

/// An attack of so many events meets every number that it can: 1 and 2 only on damaged tables, 16 only by a reading.
#[test]
fn hostile_events() {
    let mut attack = Attack::new(4);
    attack.run(100_000);
    let counts = &attack.counts;
    assert!(counts.events[0] > 10_000 && counts.events[1..3] == [0, 0] && counts.events[16] == 0, "{counts:?}");
    assert!((3..15).filter(|number| *number != 7).all(|number| counts.events[number] > 0), "{counts:?}");
    assert!((0..3).all(|number| counts.damaged[number] > 0) && counts.damaged[16] == 0, "{counts:?}");
    assert!(counts.readings[0] > 0 && counts.readings[16] > 0, "{counts:?}");
}

/// Demand 3: after every event the same number and, with the partner's names, the same rows.
#[test]
fn partners() {
    let (mut rng, mut replaced) = (Rng::of(5, 0), 0);
    for index in 0..1_000 {
        let bytes = stream(6, index, Profile::Middle);
        let (mut one, mut other) = (Lent::zeros(), Lent::zeros());
        for raw in event::split(&bytes) {
            let partner = match event::parse(raw) {
                Ok(event) => print(&partner(&mut rng, &event)).into_bytes(),
                Err(_) => raw.to_vec(),
            };
            assert_eq!(one.event(raw), other.event(&partner), "stream 6-{index}");
            assert!(agree(&one, &other), "stream 6-{index} at {}", String::from_utf8_lossy(raw));
        }
        replaced += u32::from(differs(&one, &other));
    }
    assert!(replaced > 300, "{replaced} of 1000 partners have other texts");
}

// ---- the edges of document 01 that are no star: each limit, and one past it

fn open(name: &str) -> Event {
    Event::new(Kind::Open, name)
}

fn empty(name: &str) -> Event {
    Event::new(Kind::Empty, name)
}

fn fed(lent: &mut Lent, event: &Event) -> u32 {
    lent.event(print(event).as_bytes())
}

/// A chart with these elements open.
fn within(names: &[&str]) -> Lent {
    let mut lent = Lent::zeros();
    for name in names {
        let event = if *name == "if" { open(name).with("cond", "c") } else { open(name) };
        assert_eq!(fed(&mut lent, &event), 0, "open {name}");
    }
    lent
}

/// `most` events are taken, and the next is not.
fn limit(what: &str, mut lent: Lent, most: u32, number: u32, event: impl Fn(u32) -> Event) {
    for place in 0..most {
        assert_eq!(fed(&mut lent, &event(place)), 0, "{what}, {place}");
    }
    let before = lent.clone();
    assert_eq!(fed(&mut lent, &event(most)), number, "{what}, one past");
    assert!(lent.same(&before), "{what}");
}

#[test]
fn limits_of_tables() {
    let scxml = || within(&["scxml"]);
    let state = || within(&["scxml", "state"]);
    limit("open elements", Lent::zeros(), 32, 7, |_| open("x"));
    limit("states", scxml(), 255, 15, |i| empty("state").with("id", &format!("s{i}")));
    limit("states by targets", state(), 254, 15, |i| empty("history").with("id", &format!("s{i}")));
    // The default initial is a transition too, but comes at the state's end.
    limit("transitions", state(), 512, 15, |_| empty("transition"));
    limit("regions", state(), 512, 15, |i| empty(if i % 2 == 0 { "onentry" } else { "onexit" }));
    limit("entries", within(&["scxml", "state", "onentry"]), 2_048, 15, |_| empty("raise").with("event", "e"));
    limit("invokes", state(), 64, 15, |_| empty("invoke"));
    limit("data", within(&["scxml", "datamodel"]), 256, 15, |i| empty("data").with("id", &format!("d{i}")));
    limit("parameters", within(&["scxml", "state", "invoke"]), 512, 15, |_| empty("param").with("name", "n"));
    // Two words an event, and the transition among its state's.
    limit("text charge", scxml(), 63, 15, |_| empty("x").with("k", &"v".repeat(1_024)));
}

/// 4,096 members: 2,047 targets twice, and each transition among its state's.
#[test]
fn limits_of_members() {
    let words = |n: usize| vec!["e"; n].join(" ");
    let mut lent = within(&["scxml", "state"]);
    // The state is a child of the root.
    let mut members = 1;
    while members + 513 <= 4_096 {
        assert_eq!(fed(&mut lent, &empty("transition").with("event", &words(512))), 0, "{members}");
        members += 513;
    }
    let rest = 4_096 - members - 1;
    let before = lent.clone();
    assert_eq!(fed(&mut lent, &empty("transition").with("event", &words(rest + 1))), 15);
    assert!(lent.same(&before));
    assert_eq!(fed(&mut lent, &empty("transition").with("event", &words(rest))), 0);
    assert_eq!(lent.position.members, 4_096);
    assert_eq!(fed(&mut lent, &empty("transition")), 15);
}

#[test]
fn limits_of_an_event() {
    let value = |n: usize| empty("x").with("k", &"v".repeat(n));
    let text = |n: usize| Event::new(Kind::Whole, "script").text(&"t".repeat(n));
    let pairs = |n: usize| (0..n).fold(empty("x"), |event, i| event.with(&format!("k{i}"), "v"));
    let name = |n: usize| empty(&"n".repeat(n));
    let key = |n: usize| empty("x").with(&"k".repeat(n), "v");
    let cases = [
        ("value", value(1_024), value(1_025)),
        ("text", text(4_096), text(4_097)),
        ("attributes", pairs(16), pairs(17)),
        ("name", name(64), name(65)),
        ("key", key(64), key(65)),
        ("name of some length", name(1), name(0)),
        ("key of some length", key(1), key(0)),
    ];
    for (what, taken, refused) in cases {
        let mut lent = within(&["scxml"]);
        assert_eq!(fed(&mut lent, &taken), 0, "{what}");
        assert_eq!(fed(&mut lent, &refused), 3, "{what}, one past");
    }
}

/// The text charge to the byte, and doc ids to the last number: a state with an empty id takes no text.
#[test]
fn limits_of_counters() {
    let mut lent = Lent::zeros();
    for _ in 0..63 {
        assert_eq!(fed(&mut lent, &empty("x").with("k", &"v".repeat(1_024))), 0);
    }
    assert_eq!(fed(&mut lent, &empty("x").with("k", &"v".repeat(1_024))), 15);
    assert_eq!(fed(&mut lent, &empty("x").with("k", &"v".repeat(1_023))), 0);
    assert_eq!(lent.position.charge, 65_535);
    assert_eq!(fed(&mut lent, &empty("x").with("k", "")), 0);
    assert_eq!(fed(&mut lent, &empty("x").with("k", "v")), 15);

    let mut lent = within(&["scxml"]);
    let drawn = lent.position.docs;
    let again = print(&empty("state").with("id", ""));
    let left = (65_535 - drawn) as usize;
    assert_eq!(lent.stream(again.repeat(left).as_bytes()), (0, 0));
    assert_eq!(lent.position.docs, 65_535);
    assert_eq!(lent.event(again.as_bytes()), 15);
}

/// Bytes before the first `event=`, an empty stream, an event cut short, a refusal in the middle.
#[test]
fn streams_at_the_edges() {
    let scxml = print(&open("scxml"));
    let cases: [(&str, String, (u32, usize), u32); 5] = [
        ("empty", String::new(), (0, 0), 0),
        ("bytes before the first event", format!("x\n{scxml}"), (3, 1), 0),
        ("cut short", format!("{scxml}event=open\nname=st"), (3, 2), 1),
        ("refused in the middle", format!("{scxml}{}{scxml}", print(&open("data"))), (3, 2), 1),
        ("second scxml", format!("{scxml}{scxml}"), (9, 2), 1),
    ];
    for (what, stream, answer, open) in cases {
        let mut lent = Lent::zeros();
        assert_eq!(lent.stream(stream.as_bytes()), answer, "{what}");
        assert_eq!(lent.position.opened, open, "{what}");
    }
}

/// Short slices get 1 for an event; a stream without events is not asked anything.
#[test]
fn short_slices() {
    for kind in 0..13 {
        let mut lent = Lent::zeros();
        lent.shorten(kind);
        let before = lent.clone();
        assert_eq!(lent.event(print(&open("scxml")).as_bytes()), 1, "slice {kind}");
        assert_eq!(feed_events(&mut lent, b""), (0, 0));
        assert_eq!(lent.stream(b""), (0, 0), "slice {kind}");
        assert_eq!(lent.stream(print(&open("scxml")).as_bytes()), (1, 1), "slice {kind}");
        assert!(lent.same(&before), "slice {kind}");
    }
}
