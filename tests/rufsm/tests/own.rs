//! The judge's own parts: hashes, taking items out of a text, frames, the form of events, the dump's grammar.

use rufsm::dump_parse::{self, Answer};
use rufsm::event::{escape, parse, split, unescape, Event, Fault, Kind};
use rufsm::generate::{stream, Profile};
use rufsm::judge::{is_there, verdict, Verdict};
use rufsm::{answer, chartlist, dump, frames, sha256};

#[path = "../src/extract.rs"]
mod extract;

#[test]
fn known_hashes() {
    assert_eq!(sha256::hex(b""), "e3b0c44298fc1c149afbf4c8996fb92427ae41e4649b934ca495991b7852b855");
    assert_eq!(sha256::hex(b"abc"), "ba7816bf8f01cfea414140de5dae2223b00361a396177a9cb410ff61f20015ad");
    assert_eq!(sha256::hex(&[b'a'; 1000]), "41edece42d63e8d9bf515a9ba6932e1c20cbc9f5a5d134645adb5db1b9737ea3");
}

#[test]
fn items_are_taken_whole() {
    let text = "// a {\n#[x]\n/// doc }\npub struct A {\n    a: u8, // }\n    b: &'static str,\n}\n\n\
        fn f() {\n    g(\"}\", '}');\n}\ntype T = u8;\n";
    let a = extract::item(text, "pub struct A {").unwrap();
    assert_eq!(a, "#[x]\n/// doc }\npub struct A {\n    a: u8, // }\n    b: &'static str,\n}\n");
    assert_eq!(extract::item(text, "fn f() {").unwrap(), "fn f() {\n    g(\"}\", '}');\n}\n");
    assert_eq!(extract::item(text, "type T = u8;").unwrap(), "type T = u8;\n");
    assert!(extract::item(text, "fn g() {").is_err());
    assert!(extract::item("fn f() {\n}\nfn f() {\n}\n", "fn f() {").is_err(), "twice");
    assert!(extract::item("fn f() {\n", "fn f() {").is_err(), "no end");
}

#[test]
fn frames_keep_any_bytes() {
    let bodies: [&[u8]; 4] = [b"", b"a", b"stream=x bytes=1\n", b"\n\n\xff"];
    let file: Vec<u8> = bodies.iter().flat_map(|body| frames::print("n", body)).collect();
    let read: Vec<Vec<u8>> = frames::parse(&file).unwrap().into_iter().map(|(_, body)| body).collect();
    assert_eq!(read, bodies);
    assert!(frames::parse(b"stream=x bytes=5\nab\n").is_err());
}

#[test]
fn escapes() {
    assert_eq!(escape("a\n\\n"), "a\\n\\\\n");
    assert_eq!(unescape("a\\n\\\\n").as_deref(), Some("a\n\\n"));
    assert_eq!(unescape("\\t"), None);
    assert_eq!(unescape("a\\"), None);
}

#[test]
fn streams_split_at_lines_that_begin_an_event() {
    assert!(split(b"").is_empty());
    assert_eq!(split(b"x\nevent=a\ny\nevent=b"), [&b"x\n"[..], b"event=a\ny\n", b"event=b"]);
    assert_eq!(split(b"event=a\nvalue=event=b\n").len(), 1);
}

#[test]
fn form() {
    let good = Event::new(Kind::Whole, "data").with("id", "a\nb").text("");
    assert_eq!(parse(b"event=whole\nname=data\nkey=id\nvalue=a\\nb\ntext=\n"), Ok(good));
    let faults: [(&[u8], &str); 14] = [
        (b"event=empty\nname=\x80\n", "byte"),
        (b"event=empty\nname=x", "line end"),
        (b"event=Empty\nname=x\n", "event word"),
        (b"event=empty\n", "name line"),
        (b"event=empty\nname=\n", "name length"),
        (b"event=empty\nname=\\a\n", "escape"),
        (b"event=empty\nname=x\nkey=\nvalue=\n", "key length"),
        (b"event=empty\nname=x\nkey=a\n", "value line"),
        (b"event=empty\nname=x\nvalue=a\n", "key line"),
        (b"event=empty\nname=x\n\n", "lines"),
        (b"event=empty\nname=x\ntext=a\n", "text line"),
        (b"event=whole\nname=data\n", "text line"),
        (b"event=open\nname=assign\n", "open"),
        (b"event=whole\nname=x\ntext=\n", "whole"),
    ];
    for (raw, class) in faults {
        assert_eq!(parse(raw), Err(Fault::Form(class)), "{}", String::from_utf8_lossy(raw));
    }
    assert_eq!(parse(b"event=end\nname=x\nkey=a\nvalue=\n"), Err(Fault::Form("end pairs")));
    assert_eq!(parse(b"event=open\nname=x\nkey=a\nvalue=\nkey=a\nvalue=b\n"), Err(Fault::Keys));
    // Form comes before keys.
    assert_eq!(parse(b"event=end\nname=x\nkey=a\nvalue=\nkey=a\nvalue=b\n"), Err(Fault::Form("end pairs")));
}

/// The dump loses nothing: read back it is the same chart, whose list is the same.
#[test]
fn dumps_read_back() {
    if !is_there("dumps_read_back") {
        return;
    }
    for index in 0..3000 {
        let verdict = verdict(&stream(21, index, Profile::Ordinary));
        let text = answer::dump(&verdict);
        assert!(text.is_ascii());
        match (dump_parse::parse(&text).unwrap(), verdict) {
            (Answer::Accepted(read), Verdict::Accepted(chart)) => {
                assert_eq!(read, chart);
                assert_eq!(dump::print(&read), text);
                assert_eq!(chartlist::print(&read), answer::chartlist(&Verdict::Accepted(chart)));
            }
            (Answer::Stopped { event, .. }, stopped) => {
                assert!(answer::chartlist(&stopped).ends_with(&format!("event={event}\n")));
            }
            other => panic!("{other:?}"),
        }
    }
}

#[test]
fn dumps_out_of_form_are_told() {
    for text in ["", "answer=0\n", "answer=1\nevent=1\n", "answer=form\nevent=x\n", "answer=keys\nevent=1\nmore=1\n"] {
        assert!(dump_parse::parse(text).is_err(), "{text}");
    }
}
