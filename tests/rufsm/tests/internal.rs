//! "Where the Rust meets an internal error outside the else walk": the handlers begun at what rows can say and no events lead to (docs/DECISIONS.md, 54 and
//! 55). Each case is an event after others: with what it needs taken away the handlers must panic with a sentence that is no refusal's, else take it.

use rufsm::edges::events;
use rufsm::judge::{is_there, without};
use rufsm::lack::Lack;
use rufsm::refusal;

/// Whether the handlers take the event, or meet an internal error.
fn is_taken(before: &str, lack: Lack, event: &str) -> bool {
    let list = events(event);
    let [event] = list.as_slice() else { panic!("{event}: one event") };
    match without(&events(before), lack, event).expect("the judge is there") {
        Ok(()) => true,
        Err(reason) => {
            let number = refusal::number(event, &reason);
            assert_eq!(number, None, "{before}, {lack:?}: a refusal: {reason}");
            false
        }
    }
}

fn needs(lack: Lack, cases: &[(&str, &str)]) {
    for (before, event) in cases {
        assert!(is_taken(before, Lack::Nothing, event), "{before} {event}");
        assert!(!is_taken(before, lack, event), "{before} {event}: taken without {lack:?}");
    }
}

fn does_not_need(lack: Lack, cases: &[(&str, &str)]) {
    for (before, event) in cases {
        assert!(is_taken(before, lack, event), "{before} {event}: an internal error without {lack:?}");
    }
}

#[test]
fn current_state() {
    if !is_there("current_state") {
        return;
    }
    needs(
        Lack::State,
        &[
            ("+scxml +state +datamodel", ".data id:z"),
            ("+scxml +state", "+initial"),
            ("+scxml +state", "+transition"),
            ("+scxml +state", "+invoke"),
            ("+scxml +final", "+donedata"),
            ("+scxml +state +onentry", "+send"),
            ("+scxml +state +invoke", "+param name:p"),
            ("+scxml +state +invoke", "=content |t"),
            ("+scxml +final +donedata", "+param name:p"),
            ("+scxml +final +donedata", "=content |t"),
            ("+scxml +state", "-state"),
            ("+scxml +state +onentry", "-onentry"),
            ("+scxml +state +onexit", "-onexit"),
            ("+scxml +state +invoke +finalize", "-finalize"),
        ],
    );
    needs(Lack::Root, &[("+scxml", "-scxml")]);
    needs(Lack::Transition, &[("+scxml +state +transition", "-transition")]);
    does_not_need(Lack::State, &[("+scxml +state", ".state id:b"), ("+scxml +state", ".history id:h")]);
}

#[test]
fn current_region() {
    if !is_there("current_region") {
        return;
    }
    let block = "+scxml +state +onentry";
    let branch = "+scxml +state +onentry +if cond:c";
    let entries = [
        "+if cond:x",
        "+foreach array:x item:y",
        ".script",
        ".log expr:x",
        ".assign location:x",
        "=assign location:x |y",
        ".raise event:x",
        ".cancel sendid:x",
        ".send",
        "-onentry",
    ];
    needs(Lack::Region, &entries.map(|event| (block, event)));
    needs(Lack::Region, &["-if", "+else", "+elseif cond:x"].map(|event| (branch, event)));
    needs(
        Lack::Region,
        &[
            ("+scxml +state +transition", "-transition"),
            ("+scxml +state +onexit", "-onexit"),
            ("+scxml +state +invoke +finalize", "-finalize"),
            ("+scxml +state +onentry +foreach array:x item:y", "-foreach"),
        ],
    );
    needs(Lack::OuterRegion, &["-if", "+else"].map(|event| (branch, event)));
    does_not_need(Lack::Leftover, &[("+scxml +state +transition", "-transition")]);
    does_not_need(Lack::Region, &[(block, ".log"), ("+scxml +state +onentry +send", "=content |t")]);
}

#[test]
fn owner() {
    if !is_there("owner") {
        return;
    }
    let only = "+scxml +state +onentry +send";
    let after = "+scxml +state +onentry .raise event:e +send";
    for send in [only, after] {
        needs(Lack::Entry, &[(send, "+param name:p"), (send, "=content |t")]);
    }
    needs(Lack::Region, &[(only, "+param name:p")]);
    let invoke = "+scxml +state +invoke";
    let finalize = "+scxml +state +invoke +finalize";
    needs(Lack::Invokes, &[(invoke, "+param name:p"), (invoke, "=content |t"), (finalize, "-finalize")]);
    let donedata = "+scxml +final +donedata";
    needs(Lack::Donedata, &[(donedata, "+param name:p"), (donedata, "=content |t")]);
}
