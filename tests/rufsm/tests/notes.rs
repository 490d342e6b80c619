//! What the handlers do where document 01 is easily misread: each line of the notes that can be run is run.

use rufsm::chart::{Chart, Entry, StateRow};
use rufsm::edges::lines;
use rufsm::judge::{is_there, verdict, Verdict};

fn chart(short: &str) -> Chart {
    match verdict(&lines(short)) {
        Verdict::Accepted(chart) => *chart,
        other => panic!("{short}: {other:?}"),
    }
}

/// Accepted up to the last event, which is refused.
fn refused(short: &str) -> String {
    let count = rufsm::edges::events(short).len();
    match verdict(&lines(short)) {
        Verdict::Refused { event, reason } if event == count => reason,
        other => panic!("{short}: {other:?}"),
    }
}

fn state<'a>(chart: &'a Chart, name: &str) -> &'a StateRow {
    chart.states.iter().find(|s| s.name.as_deref() == Some(name)).expect("a state of that name")
}

fn some(text: &str) -> Option<String> {
    Some(text.to_string())
}

#[test]
fn timing() {
    if !is_there("timing") {
        return;
    }
    let open = chart("+scxml +state id:a +onentry .raise event:e");
    assert!(state(&open, "a").onentry.is_empty());
    let ended = chart("+scxml +state id:a +onentry .raise event:e -onentry .onentry .onexit");
    assert_eq!((&state(&ended, "a").onentry[..], &state(&ended, "a").onexit[..]), (&[1, 2][..], &[3][..]));
    assert_eq!(chart("+scxml +state id:a +transition").transitions[0].content, 0);
    assert_eq!(chart("+scxml +state id:a .transition").transitions[0].content, 2);
    let finalize = |short: &str| state(&chart(short), "a").invokes[0].finalize;
    assert_eq!(finalize("+scxml +state id:a +invoke +finalize"), 0);
    assert_eq!(finalize("+scxml +state id:a +invoke .finalize .finalize"), 2);
    assert_eq!(chart("+scxml =script |x").position.open.len(), 1);
    let script = chart("+scxml .script .script");
    assert_eq!((script.script, script.regions.len()), (2, 2));
}

#[test]
fn lists_and_duplicates() {
    if !is_there("lists_and_duplicates") {
        return;
    }
    let twice = chart("+scxml +state id:a .history id:h .history id:h .state id:c .state id:c");
    assert_eq!(state(&twice, "a").histories, [3, 3]);
    assert_eq!(state(&twice, "a").children, [4]);
    let words = chart("+scxml +state id:a .transition target:b%20b event:e%20e");
    assert_eq!(words.transitions[0].targets, [3, 3]);
    assert_eq!(words.transitions[0].events, ["e", "e"]);
    let invoke = chart("+scxml +state id:a .invoke namelist:x%20x%0by");
    assert_eq!(state(&invoke, "a").invokes[0].namelist, ["x", "x\x0by"]);
}

#[test]
fn states_named_again() {
    if !is_there("states_named_again") {
        return;
    }
    let moved = chart("+scxml +state id:a .state id:c -state +state id:b .state id:c");
    let (a, b, c) = (state(&moved, "a"), state(&moved, "b"), state(&moved, "c"));
    assert_eq!((&a.children, &b.children), (&vec![c.number], &vec![c.number]));
    assert_eq!((c.parent, c.doc), (b.number, 5));
    let own = chart("+scxml +state id:a +state id:a");
    assert_eq!((state(&own, "a").parent, &state(&own, "a").children[..]), (2, &[2][..]));
    assert_eq!(chart("+scxml +state id:__id1").states[0].parent, 1);
    let kept = chart("+scxml .parallel id:p .final id:p .state id:p");
    assert_eq!((state(&kept, "p").parallel, state(&kept, "p").is_final), (1, 1));
    let history = |short: &str| state(&chart(short), "h").history;
    assert_eq!(history("+scxml +state .history id:h type:deep .state id:h"), 2);
    assert_eq!(history("+scxml +state .history id:h type:deep .history id:h"), 1);
    assert_eq!(history("+scxml +state .history id:h type:deep .history id:h type:"), 0);
    let both = chart("+scxml +state id:a .history id:h .state id:h");
    assert_eq!(state(&both, "a").histories, state(&both, "a").children);
}

#[test]
fn initials() {
    if !is_there("initials") {
        return;
    }
    let again = chart("+scxml .state id:a initial:b .state id:a initial:c");
    assert_eq!((state(&again, "a").initial, again.transitions.len()), (2, 2));
    let blank = chart("+scxml +state id:a initial: .state -state");
    assert_eq!((state(&blank, "a").initial, &blank.transitions[0].targets[..]), (1, &[][..]));
    refused("+scxml +state id:a initial: .initial");
    for tag in ["final", "parallel"] {
        let short = format!("+scxml +parallel id:p .state -parallel +state .{tag} id:p");
        assert_eq!(state(&chart(&short), "p").initial, 0, "{tag}");
    }
    assert_ne!(state(&chart("+scxml +parallel id:p .state -parallel .state id:p"), "p").initial, 0);
    refused("+scxml +state id:a .state -state +state id:a .initial");
    chart("+scxml +state id:a .initial .initial");
    refused("+scxml +state id:a +initial .transition .transition");
    chart("+scxml +parallel .initial");
    let root = chart("+scxml id:r initial:r");
    assert_eq!((root.transitions[0].doc, root.states[0].doc), (1, 2));
    assert_eq!(chart("+scxml +state .final initial:x .history initial:x").transitions.len(), 2);
}

#[test]
fn names() {
    if !is_there("names") {
        return;
    }
    assert_eq!(chart("+scxml id:").states[0].name, some(""));
    let met = chart("+scxml +state id:a .transition target:__id2%20z .state");
    assert_eq!(met.states.len(), 4);
    assert_eq!((state(&met, "__id2").parent, state(&met, "__id2").doc), (2, 4));
    assert_eq!((state(&met, "z").parent, state(&met, "z").doc), (0, 0));
    assert_eq!(chart("+scxml .invoke2 +state .invoke").position.docs, 2, "an invoke draws no doc id");
}

#[test]
fn refusals_go_by_presence() {
    if !is_there("refusals_go_by_presence") {
        return;
    }
    let entry = "+scxml +state +onentry ";
    for (one, other) in [("event", "eventexpr"), ("target", "targetexpr"), ("type", "typeexpr"), ("id", "idlocation")] {
        refused(&format!("{entry}.send {one}: {other}:"));
    }
    refused(&format!("{entry}+send .param name: expr: location:"));
    refused(&format!("{entry}+send =content expr: |"));
    refused("+scxml +datamodel =data id: expr: |x");
    refused(&format!("{entry}.cancel sendid: sendidexpr:"));
    refused(&format!("{entry}=assign location: expr:e |"));
    chart(&format!("{entry}=assign location: expr: |"));
    chart(&format!("{entry}+if cond: .elseif cond:"));
    let data = chart("+scxml id:r +datamodel =data id:d expr:%201%20 |%20%0a");
    assert_eq!(state(&data, "r").data[0].value, some(" 1 "));
    refused("+scxml binding:");
    refused("+scxml +state .transition type:%20internal");
    chart("+scxml +state .transition type: .invoke type: typeexpr: src: srcexpr: id: idlocation:");
    refused("+scxml -script");
    assert!(matches!(verdict(&lines("+Include .STATE .Send delay:1")), Verdict::Accepted(_)));
}

#[test]
fn contents() {
    if !is_there("contents") {
        return;
    }
    let invoke = chart("+scxml +state id:a +invoke .content expr:e .content");
    let payload = &state(&invoke, "a").invokes[0].payload;
    assert_eq!((payload.record, &payload.expr), (1, &None));
    let send = chart("+scxml +state +onentry +send .content expr:e .content");
    match &send.regions[0].entries[0] {
        Entry::Send { payload, .. } => assert_eq!((payload.record, &payload.expr), (1, &some("e"))),
        other => panic!("{other:?}"),
    }
    let done = chart("+scxml +final id:f +donedata .param name:p -donedata -final +final id:f .donedata");
    assert_eq!(state(&done, "f").donedata.as_ref().map(|d| d.params.len()), Some(0));
    let data = chart("+scxml id:r +datamodel .data id: expr:1 -datamodel .state +datamodel =data id: |%202");
    assert_eq!((state(&data, "r").data.len(), &state(&data, "r").data[0].value), (1, &some("2")));
    let region = |short: &str| chart(&format!("+scxml +state +onentry {short}")).regions[0].entries.clone();
    assert_eq!(region(".script"), [Entry::Script { text: some("") }]);
    assert_eq!(region(".log label:l .log expr:").len(), 1);
    let assign = |value: &str| Entry::Assign { location: some("l"), value: some(value) };
    assert_eq!(region("=assign location:l |"), [assign("\"\"")]);
    assert_eq!(region("=assign location:l |a\\\"b%0a%0ac"), [assign("\"a\\\\\"b  c\"")]);
}

#[test]
fn parent_names() {
    if !is_there("parent_names") {
        return;
    }
    let history = chart("+scxml +state id:a +history id:h +transition .send");
    match &history.regions[0].entries[0] {
        Entry::Send { texts, .. } => assert_eq!(texts[9], some("h")),
        other => panic!("{other:?}"),
    }
    for tag in ["raise event:e", "send", "cancel sendid:s"] {
        refused(&format!("+scxml +state +invoke +finalize .{tag}"));
        chart(&format!("+scxml +state +invoke +finalize +if cond: .{tag}"));
    }
}

#[test]
fn else_walk() {
    if !is_there("else_walk") {
        return;
    }
    let entry = "+scxml +state +onentry +if cond:c ";
    for short in [".elseif cond: .elseif cond: .else", ".else +if cond:d -if .log .else", "+if cond: -if .else"] {
        chart(&format!("{entry}{short}"));
    }
    for short in [".else .else", ".else .elseif cond:", ".else +if cond:d .else -if .else", "+if cond: -if .else .else"]
    {
        refused(&format!("{entry}{short}"));
    }
    chart(&format!("{entry}+else .x -else +elseif2"));
    refused(&format!("{entry}+else .raise event:e"));
}

#[test]
fn streams() {
    if !is_there("streams") {
        return;
    }
    for short in ["", ".x", "+x +scxml", "+scxml -scxml +x"] {
        chart(short);
    }
    refused("+scxml -scxml .script");
    refused("+scxml -scxml .scxml");
}
