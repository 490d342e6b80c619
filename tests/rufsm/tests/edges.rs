//! The lines of 'Charts at the edges' that concern the Rust, and the example of `chartlist`.

use rufsm::answer;
use rufsm::chart::{Chart, Entry};
use rufsm::edges;
use rufsm::judge::{is_there, verdict, Verdict};

fn chart(stream: &[u8]) -> Chart {
    match verdict(stream) {
        Verdict::Accepted(chart) => *chart,
        other => panic!("accepted expected: {other:?}"),
    }
}

fn named(name: &str) -> Chart {
    chart(&edges::stream(name))
}

fn refused_at(name: &str, place: usize) -> String {
    match verdict(&edges::stream(name)) {
        Verdict::Refused { event, reason } if event == place => reason,
        other => panic!("{name}: refused at {place} expected: {other:?}"),
    }
}

#[test]
fn chartlist_example() {
    if !is_there("chartlist_example") {
        return;
    }
    let expected = "answer=0\nroot=1\nstates=2\ntransitions=1\n\
        state=1\nname=__id1\nparent=0\ninitial=1\ndoc=1\nchildren=2\n\
        state=2\nname=a\nparent=1\ninitial=0\ndoc=2\nchildren=\n\
        transition=1\nsource=1\ntargets=2\ntype=external\ndoc=0\ncontent=0\n";
    assert_eq!(answer::chartlist(&verdict(&edges::stream("two-states"))), expected);
}

#[test]
fn event_words() {
    if !is_there("event_words") {
        return;
    }
    let cases: [(&str, &[&str], u32); 6] = [
        ("events-star-suffix", &["foo"], 0),
        ("events-star-star", &["*"], 1),
        ("events-dots", &["a"], 0),
        ("events-empty-word", &[""], 0),
        ("events-star-letter", &["a*"], 0),
        ("events-byte-11", &["a", "b"], 0),
    ];
    for (name, words, wildcard) in cases {
        let transition = &named(name).transitions[0];
        assert_eq!(transition.events, words, "{name}");
        assert_eq!(transition.wildcard, wildcard, "{name}");
    }
}

#[test]
fn byte_11_does_not_part_targets() {
    if !is_there("byte_11_does_not_part_targets") {
        return;
    }
    let chart = named("targets-byte-11");
    assert_eq!(chart.transitions[0].targets, [3]);
    assert_eq!(chart.states[2].name.as_deref(), Some("a\x0bb"));
}

#[test]
fn else_walk_meets_the_inner_if() {
    if !is_there("else_walk_meets_the_inner_if") {
        return;
    }
    let chart = named("else-inner-if-else");
    let numbers: Vec<u32> = chart.regions.iter().map(|region| region.number).collect();
    assert_eq!(numbers, [1, 2, 3, 4, 5]);
    let d = Entry::If { cond: Some("d".to_string()), content: 4, otherwise: 5 };
    assert_eq!(chart.regions[2].entries, [d]);
    refused_at("else-else", 6);
    refused_at("else-inner-else-else", 9);
    refused_at("else-raise-else", 7);
}

#[test]
fn initial_attribute_comes_first() {
    if !is_there("initial_attribute_comes_first") {
        return;
    }
    let chart = named("initial-order");
    let names: Vec<&str> = chart.states.iter().map(|s| s.name.as_deref().unwrap()).collect();
    assert_eq!(names, ["__id1", "a", "b"]);
    let transition = &chart.transitions[0];
    assert_eq!((transition.number, transition.doc, transition.kind), (1, 2, 1));
    assert_eq!((chart.states[1].doc, chart.states[1].initial), (3, 1));
    assert_eq!(chart.states[2].doc, 0);
    let reason = refused_at("initial-twice", 3);
    assert!(reason.starts_with("<initial> must not be specified"), "{reason}");
}

#[test]
fn content_with_expr() {
    if !is_there("content_with_expr") {
        return;
    }
    let chart = named("content-empty-expr");
    let donedata = chart.states[1].donedata.as_ref().unwrap();
    assert_eq!((donedata.record, donedata.text.as_deref(), donedata.expr.as_deref()), (1, None, Some("e")));
    let reason = refused_at("content-whole-expr", 4);
    assert_eq!(reason, "content shall have only expr or children, but not both.");
}

#[test]
fn values_at_their_limit() {
    if !is_there("values_at_their_limit") {
        return;
    }
    assert_eq!(named("value-1024").transitions[0].cond.as_ref().map(String::len), Some(1024));
    // Lengths are counted unescaped.
    assert_eq!(named("value-1024-line-ends").transitions[0].cond.as_ref().map(String::len), Some(1024));
    assert_eq!(verdict(&edges::stream("value-1025")), Verdict::Form { event: 3, class: "value length" });
}

/// The Rust has none of the chart's limits: state 257 and a 33rd open element are taken.
#[test]
fn chart_limits_are_not_the_reference_s() {
    if !is_there("chart_limits_are_not_the_reference_s") {
        return;
    }
    let states: String = (0..256).map(|n| format!(" .state id:s{n}")).collect();
    assert_eq!(chart(&edges::lines(&format!("+scxml{states}"))).states.len(), 257);
    let deep = " +if cond:".repeat(30);
    assert_eq!(chart(&edges::lines(&format!("+scxml +state +onentry{deep}"))).position.open.len(), 33);
}

#[test]
fn transition_number_before_region_number() {
    if !is_there("transition_number_before_region_number") {
        return;
    }
    let chart = named("transition-empty");
    assert_eq!((chart.transitions[0].number, chart.transitions[0].content), (1, 2));
    assert_eq!(named("transition-open").transitions[0].content, 0, "content is set at the end");
}

#[test]
fn parallel_gets_no_default_initial() {
    if !is_there("parallel_gets_no_default_initial") {
        return;
    }
    assert_eq!(named("parallel-no-default").states[1].initial, 0);
    assert_ne!(named("parallel-ended-as-state").states[1].initial, 0, "the default goes by the ending tag");
}

#[test]
fn left_out_is_asked_before_the_parent() {
    if !is_there("left_out_is_asked_before_the_parent") {
        return;
    }
    assert_eq!(verdict(&edges::stream("send-delay")), Verdict::LeftOut { event: 1, class: "send delay" });
    assert_eq!(verdict(&edges::stream("include-empty")), Verdict::LeftOut { event: 1, class: "include" });
}

/// The reference's counters run on over the whole process; the judge's numbers do not.
#[test]
fn numbers_do_not_depend_on_earlier_runs() {
    if !is_there("numbers_do_not_depend_on_earlier_runs") {
        return;
    }
    for (name, stream) in edges::all() {
        assert_eq!(verdict(&stream), verdict(&stream), "{name}");
    }
}
