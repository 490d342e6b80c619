//! Questions 3 and 4, the form of an event and its keys, against the judge's own parser.

use boundary::lent::Lent;
use boundary::numbers::{ELEMENTS, KEYS};
use boundary::recorded;
use rufsm::event::{self, Fault};
use rufsm::generate::{stream, Profile};

/// Each event by itself, into the empty chart: the number is 3 or 4 exactly where the parser says so.
fn check(stream: &[u8], what: &str) {
    let mut lent = Lent::zeros();
    for raw in event::split(stream) {
        let number = lent.event(raw);
        let expected = match event::parse(raw) {
            Err(Fault::Form(_)) => number == 3,
            Err(Fault::Keys) => number == 4,
            Ok(_) => number != 3 && number != 4,
        };
        assert!(expected, "{what}: {number} for {:?}", String::from_utf8_lossy(raw));
    }
}

#[test]
fn recorded_streams() {
    let streams = recorded();
    assert!(streams.len() >= 400);
    for (name, body) in &streams {
        check(body, &format!("stream {name}"));
    }
}

#[test]
fn random_streams() {
    for index in 0..2_000 {
        let bytes = stream(5, index, Profile::Ordinary);
        check(&bytes, &format!("stream 5-{index}"));
    }
}

/// Every stream cut short at every byte: most are out of form.
#[test]
fn damaged_streams() {
    for index in 0..40 {
        let bytes = stream(6, index, Profile::Small);
        for end in 0..bytes.len() {
            check(&bytes[..end], &format!("stream 6-{index} to {end}"));
        }
    }
}

#[test]
fn each_byte_in_a_value() {
    for byte in 0..=255u8 {
        let mut bytes = b"event=open\nname=x\nkey=k\nvalue=a".to_vec();
        bytes.extend([byte, b'b', b'\n']);
        check(&bytes, &format!("byte {byte}"));
    }
}

/// An event at each of its limits, and one past it.
#[test]
fn limits() {
    let long = |head: &str, n: usize| format!("{head}{}\n", "a".repeat(n));
    for (start, head, limit) in [
        ("event=open\n", "name=", 64),
        ("event=open\nname=x\n", "key=", 64),
        ("event=open\nname=x\nkey=k\n", "value=", 1_024),
        ("event=whole\nname=data\n", "text=", 4_096),
    ] {
        let end = if head == "key=" { "value=\n" } else { "" };
        for n in [0, 1, limit - 1, limit, limit + 1] {
            check(format!("{start}{}{end}", long(head, n)).as_bytes(), &format!("{head} of {n}"));
        }
    }
    for n in 0..18 {
        let pairs: String = (0..n).map(|i| format!("key=k{i}\nvalue=v\n")).collect();
        check(format!("event=empty\nname=x\n{pairs}").as_bytes(), &format!("{n} attributes"));
    }
}

/// Every element and key by its number, and with an escaped byte in it.
#[test]
fn numbers() {
    for name in ELEMENTS {
        for written in [name.to_string(), format!("{name}\\n"), format!("\\\\{name}"), name.to_uppercase()] {
            check(format!("event=empty\nname={written}\n").as_bytes(), &written);
        }
    }
    for key in KEYS {
        for written in [key.to_string(), format!("{key}\\n"), format!("\\\\{key}"), key.to_uppercase()] {
            check(format!("event=empty\nname=state\nkey={written}\nvalue=\n").as_bytes(), &written);
        }
    }
}

/// A key twice, at all pairs of places of five, and written alike but for an escape.
#[test]
fn repeated_keys() {
    for first in 0..5 {
        for second in 0..5 {
            let keys: Vec<String> =
                (0..5).map(|i| if i == second { format!("k{first}") } else { format!("k{i}") }).collect();
            let pairs: String = keys.iter().map(|key| format!("key={key}\nvalue=v\n")).collect();
            check(format!("event=open\nname=x\n{pairs}").as_bytes(), &format!("key {second} as {first}"));
        }
    }
    check(b"event=open\nname=x\nkey=a\\n\nvalue=\nkey=a\\n\nvalue=\n", "an escaped key twice");
    check(b"event=open\nname=x\nkey=a\\n\nvalue=\nkey=a\\\\n\nvalue=\n", "two escaped keys");
}

/// The longest event that is in form, each byte of its texts escaped, and longer ones, past 16 bits too.
#[test]
fn long_events() {
    let backslashes = |n: usize| "\\\\".repeat(n);
    let pair = |i: usize| format!("key={}{i:02}\nvalue={}\n", backslashes(62), backslashes(1_024));
    let pairs: String = (0..16).map(pair).collect();
    let longest = format!("event=whole\nname=content\n{pairs}text={}\n", backslashes(4_096));
    assert!(event::parse(longest.as_bytes()).is_ok() && longest.len() > 43_000);
    check(longest.as_bytes(), "the longest event");
    for n in [43_352, 49_000, 49_151, 49_152, 49_153, 65_535, 65_536, 140_000] {
        for start in ["event=", "event=open\nname=", "event=open\nname=x\nkey=", "event=open\nname=x\nkey=k\nvalue="] {
            check(format!("{start}{}\n", "a".repeat(n)).as_bytes(), &format!("{start} and {n} bytes"));
        }
        check(format!("event=open\nname=x\n{}", "\n".repeat(n)).as_bytes(), &format!("{n} empty lines"));
    }
}
