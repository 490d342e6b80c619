//! Pictures: what is drawn how, and that any text makes DOT in form.

use host::{picture, Chart};
use rufsm::frames;
use std::path::Path;

fn drawn(events: &str) -> String {
    picture::dot(&Chart::of_stream(events.as_bytes()).expect("a chart"))
}

fn example(name: &str) -> String {
    let path = Path::new(env!("CARGO_MANIFEST_DIR")).join(format!("../examples/{name}.events"));
    drawn(&std::fs::read_to_string(path).expect("an example"))
}

/// Lines without the spaces before them.
fn has(dot: &str, line: &str) {
    assert!(dot.lines().any(|found| found.trim_start() == line), "no line {line} in\n{dot}");
}

#[test]
fn states_inside_states() {
    let dot = example("changeover");
    has(&dot, "label=\"changeover\"; style=\"rounded\";");
    has(&dot, "label=\"lamps\"; style=\"rounded,dashed\";");
    has(&dot, "label=\"left\"; style=\"rounded\";");
    has(&dot, "s9 [label=\"dark\", peripheries=2];");
    has(&dot, "s2 -> s9 [label=\" house.closed\", ltail=cluster_2];");
    has(&dot, "s4 -> s5 [label=\" strike.left changeover [In('right_lit')]\"];");
    has(&dot, "i3 -> s4;");
    has(&dot, "i1 -> s2 [lhead=cluster_2];");
}

#[test]
fn histories() {
    let dot = example("dowser");
    has(&dot, "s4 [label=\"H\", shape=circle, xlabel=\"before\"];");
    has(&dot, "s6 -> s4 [label=\" gate.closed\"];");
}

const BEGIN: &str = "event=open\nname=scxml\nevent=open\nname=state\nkey=id\nvalue=a\n";

#[test]
fn transitions_of_all_kinds() {
    let dot = drawn(&format!(
        "{BEGIN}event=empty\nname=transition\nkey=event\nvalue=x\nkey=target\nvalue=b c\n\
         event=empty\nname=transition\nkey=event\nvalue=y .* *\nkey=cond\nvalue=z\n\
         event=empty\nname=transition\nkey=target\nvalue=b\nkey=type\nvalue=internal\n"
    ));
    has(&dot, "s2 [label=\"a\\non y '' * [z]\"];");
    has(&dot, "s3 [label=\"b\", style=\"rounded,dotted\"];");
    has(&dot, "t1 [shape=point, width=0.05];");
    has(&dot, "s2 -> t1 [label=\" x\", arrowhead=none];");
    has(&dot, "t1 -> s3;");
    has(&dot, "t1 -> s4;");
    has(&dot, "s2 -> s3 [style=dashed];");
}

/// From a state to one inside it, and back: no border is crossed twice.
#[test]
fn transitions_into_and_out_of_a_cluster() {
    let dot = drawn(&format!(
        "{BEGIN}event=open\nname=state\nkey=id\nvalue=b\n\
         event=empty\nname=transition\nkey=event\nvalue=up\nkey=target\nvalue=a\nevent=end\nname=state\n\
         event=empty\nname=transition\nkey=event\nvalue=down\nkey=target\nvalue=b\n"
    ));
    has(&dot, "s3 -> s2 [label=\" up\"];");
    has(&dot, "s2 -> s3 [label=\" down\"];");
}

#[test]
fn labels_are_escaped() {
    let dot = drawn("event=open\nname=scxml\nevent=empty\nname=state\nkey=id\nvalue=a\"b\\\\c&lt;\\nd\x07\n");
    has(&dot, r#"s2 [label="a\"b\\c&amp;lt;\nd\\x07"];"#);
}

/// A state that is its own child, and one that two states list, are drawn once.
#[test]
fn strange_trees() {
    let own = drawn(&format!("{BEGIN}event=empty\nname=state\nkey=id\nvalue=a\n"));
    assert_eq!(own.matches("cluster_2 {").count(), 1);
    let two = drawn(&format!(
        "{BEGIN}event=empty\nname=state\nkey=id\nvalue=b\nevent=end\nname=state\n\
         event=open\nname=state\nkey=id\nvalue=c\nevent=empty\nname=state\nkey=id\nvalue=b\n"
    ));
    assert_eq!(two.matches("label=\"b\"").count(), 1);
}

/// Quotes in a line are in pairs, but for those behind an odd number of backslashes.
fn quotes_match(line: &str) -> bool {
    let (mut open, mut escaped) = (false, false);
    for letter in line.chars() {
        open ^= letter == '"' && !escaped;
        escaped = letter == '\\' && !escaped && open;
    }
    !open
}

/// Every recorded chart: braces and quotes in pairs, each state drawn once, visible bytes only.
#[test]
fn every_recorded_chart() {
    let path = Path::new(env!("CARGO_MANIFEST_DIR")).join("../tests/answers/streams.txt");
    let streams = frames::parse(&std::fs::read(path).expect("the recorded streams")).expect("frames");
    let mut count = 0;
    for (name, stream) in streams {
        let Ok(chart) = Chart::of_stream(&stream) else { continue };
        let dot = picture::dot(&chart);
        let lines = |end: &str| dot.lines().filter(|line| line.ends_with(end)).count();
        assert_eq!(lines("{"), dot.lines().filter(|line| line.trim() == "}").count(), "{name}");
        assert!(dot.lines().all(quotes_match), "{name}:\n{dot}");
        assert!(dot.bytes().all(|byte| byte == b'\n' || (b' '..=b'~').contains(&byte)), "{name}");
        let nodes = dot
            .lines()
            .filter(|line| line.trim_start().starts_with('s') && line.contains(" [") && !line.contains("->"));
        assert_eq!(nodes.count(), chart.states().count(), "{name}:\n{dot}");
        count += 1;
    }
    assert!(count > 200);
}
