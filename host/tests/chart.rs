//! A chart through this crate: document 01's charts at the edges, refusals that change nothing, numbers and lists.

use host::{Chart, HistoryType, Kind, Owner, Refusal};

const SCXML: &[u8] = b"event=open\nname=scxml\n";

fn state(id: &str) -> String {
    format!("event=empty\nname=state\nkey=id\nvalue={id}\n")
}

fn begun() -> Chart {
    Chart::of_stream(SCXML).expect("an scxml")
}

fn number(fed: Result<(), Refusal>) -> u32 {
    fed.map_or_else(|refusal| refusal.number(), |()| 0)
}

#[test]
fn value_lengths() {
    assert_eq!(number(begun().feed(state(&"v".repeat(1_024)).as_bytes())), 0);
    assert_eq!(number(begun().feed(state(&"v".repeat(1_025)).as_bytes())), 3);
}

#[test]
fn states_to_the_limit() {
    let mut chart = begun();
    for place in 2..=Chart::STATES {
        assert_eq!(number(chart.feed(state(&format!("s{place}")).as_bytes())), 0);
    }
    let before = chart.clone();
    assert_eq!(number(chart.feed(state("one more").as_bytes())), 15);
    assert!(chart == before);
    assert_eq!(number(chart.feed(state("s256").as_bytes())), 0);
    assert_eq!(chart.states().count(), Chart::STATES);
}

#[test]
fn elements_to_the_limit() {
    let mut chart = Chart::new();
    for _ in 0..Chart::OPENED {
        assert_eq!(number(chart.feed(b"event=open\nname=x\n")), 0);
    }
    assert_eq!(number(chart.feed(b"event=open\nname=x\n")), 7);
    assert_eq!(chart.depth(), Chart::OPENED);
}

/// Every refusal leaves the chart as it was, also in a stream, where the events before it stay.
#[test]
fn refusals_change_nothing() {
    let refused: [(&[u8], u32); 6] = [
        (b"event=open\nname=scxml", 3),
        (b"event=empty\nname=x\nkey=k\nvalue=\nkey=k\nvalue=\n", 4),
        (b"event=end\nname=state\n", 5),
        (b"event=empty\nname=include\n", 6),
        (b"event=empty\nname=onentry\n", 8),
        (SCXML, 9),
    ];
    for (event, wanted) in refused {
        let mut chart = begun();
        assert_eq!(number(chart.feed(event)), wanted);
        assert!(chart == begun());
        let mut streamed = Chart::new();
        let refusal = streamed.feed_stream(&[SCXML, event].concat()).expect_err("a refusal");
        assert_eq!((refusal.number(), refusal.event()), (wanted, Some(2)));
        assert!(streamed == begun());
    }
}

#[test]
fn charts_are_equal_by_what_they_say() {
    let (mut one, mut other) = (begun(), begun());
    one.feed(state("a").as_bytes()).expect("a state");
    other.feed(state("b").as_bytes()).expect("a state");
    assert!(one != other && one == one.clone() && Chart::new() == Chart::default());
}

#[test]
fn numbers_of_another_chart() {
    let mut large = begun();
    large.feed(state("a").as_bytes()).expect("a state");
    let id = large.state_named("a").expect("a state").id();
    assert_eq!((id.number(), id.to_string().as_str()), (2, "2"));
    assert!(begun().state(id).is_none() && large.state(id).is_some());
    assert!(large.state_named("b").is_none());
}

/// Document 01: the parameters of a first donedata leave the chart and keep their numbers.
#[test]
fn a_second_donedata() {
    let param = |name: &str| format!("event=empty\nname=param\nkey=name\nvalue={name}\n");
    let donedata = |names: [&str; 2]| {
        let params: String = names.into_iter().map(param).collect();
        format!("event=open\nname=donedata\n{params}event=end\nname=donedata\n")
    };
    let mut chart = begun();
    let events = [donedata(["p", "q"]), donedata(["r", "s"])].concat();
    chart.feed(b"event=open\nname=final\nkey=id\nvalue=f\n").expect("a final");
    chart.feed_stream(events.as_bytes()).expect("donedata");
    let last = chart.state_named("f").and_then(|state| state.donedata()).expect("donedata");
    let params: Vec<(u32, &str)> = last.params().map(|param| (param.number(), param.name())).collect();
    assert_eq!(params, [(3, "r"), (4, "s")]);
    assert_eq!(number(chart.read_row(Kind::Parameter, 2).map(|_| ())), 16);
    let owners =
        chart.parameters().filter(|param| matches!(param.owner(), Some(Owner::Donedata(f)) if f.name() == "f"));
    assert_eq!(owners.count(), 2);
}

#[test]
fn histories_are_no_children() {
    let mut chart = begun();
    let events =
        "event=open\nname=state\nkey=id\nvalue=a\nevent=empty\nname=history\nkey=id\nvalue=h\nkey=type\nvalue=deep\n";
    chart.feed_stream(events.as_bytes()).expect("a history");
    let a = chart.state_named("a").expect("a state");
    let history: Vec<(&str, HistoryType)> = a.history().map(|state| (state.name(), state.history_type())).collect();
    assert_eq!((history, a.children().count()), (vec![("h", HistoryType::Deep)], 0));
}

/// What is large stays on the heap, and views and charts can be shown while a program is written.
#[test]
fn sizes_and_shows() {
    assert!(size_of::<Chart>() < 200);
    let chart = begun();
    assert!(format!("{chart:?}").starts_with("Chart { name: None, position: Position { opened: 1, states: 1, "));
    assert_eq!(format!("{:?}", chart.root().expect("an scxml")), "State { id: StateId(1), name: \"__id1\", .. }");
}

/// Tables are made, copied and fed without a large frame.
#[test]
fn small_stack() {
    let thread = std::thread::Builder::new().stack_size(96 * 1_024);
    let same = thread.spawn(|| Chart::new().clone() == Chart::new() && begun().clone() == begun()).expect("a thread");
    assert!(same.join().expect("no overflow"));
}

/// A chart can go to another thread.
#[test]
fn threads() {
    let threads: Vec<_> = (0..4).map(|_| std::thread::spawn(|| begun().states().count())).collect();
    assert!(threads.into_iter().all(|thread| thread.join().expect("no panic") == 1));
}
