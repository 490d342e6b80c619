//! Charts that were recorded from the Rust reference: the listing, the number, and all that the views say.

use host::{listing, Action, Binding, Chart, HistoryType, Payload, Region, SendParameters, State, TransitionType};
use rufsm::chart as judge;
use rufsm::dump_parse::{self, Answer};
use rufsm::generate::{self, Profile};
use rufsm::rng::Rng;
use rufsm::{event, frames, refusal};
use std::path::{Path, PathBuf};

fn repository() -> PathBuf {
    Path::new(env!("CARGO_MANIFEST_DIR")).join("..")
}

fn recorded(file: &str) -> Vec<(String, Vec<u8>)> {
    let path = repository().join("tests/answers").join(file);
    frames::parse(&std::fs::read(path).expect("a recorded file")).expect("frames")
}

fn text(value: Option<&str>) -> judge::Text {
    value.map(str::to_string)
}

fn states<'a>(list: impl Iterator<Item = State<'a>>) -> Vec<u32> {
    list.map(|state| state.id().number()).collect()
}

fn regions<'a>(list: impl Iterator<Item = Region<'a>>) -> Vec<u32> {
    list.map(|region| region.id().number()).collect()
}

fn words<'a>(list: impl Iterator<Item = &'a str>) -> Vec<String> {
    list.map(str::to_string).collect()
}

fn region(found: Option<Region>) -> u32 {
    found.map_or(0, |region| region.id().number())
}

fn payload(carried: Payload) -> judge::Payload {
    let content = carried.content();
    let params = carried.params().map(|param| judge::ParamRow {
        name: param.name().to_string(),
        expr: text(param.expr()),
        location: text(param.location()),
    });
    judge::Payload {
        record: u32::from(content.is_some()),
        text: content.and_then(|content| text(content.text)),
        expr: content.and_then(|content| text(content.expr)),
        params: params.collect(),
    }
}

fn invoke(invoke: host::Invoke) -> judge::InvokeRow {
    let name = invoke.state().map(|state| state.name());
    let texts =
        [invoke.type_name(), invoke.typeexpr(), invoke.src(), invoke.srcexpr(), invoke.id(), invoke.idlocation(), name];
    judge::InvokeRow {
        texts: texts.into_iter().map(text).collect(),
        autoforward: u32::from(invoke.autoforward()),
        finalize: region(invoke.finalize()),
        namelist: words(invoke.namelist()),
        payload: payload(invoke.payload()),
    }
}

/// The judge's data have no order: by the bytes of their ids.
fn data(state: State) -> Vec<judge::DataRow> {
    let rows = state.data().map(|datum| judge::DataRow { id: datum.id().to_string(), value: text(datum.value()) });
    let mut rows: Vec<judge::DataRow> = rows.collect();
    rows.sort_by(|one, other| one.id.as_bytes().cmp(other.id.as_bytes()));
    rows
}

fn state(state: State) -> judge::StateRow {
    judge::StateRow {
        number: state.id().number(),
        name: Some(state.name().to_string()),
        doc: state.doc_id(),
        initial: state.initial().map_or(0, |transition| transition.id().number()),
        parent: state.parent().map_or(0, |parent| parent.id().number()),
        parallel: u32::from(state.is_parallel()),
        is_final: u32::from(state.is_final()),
        history: match state.history_type() {
            HistoryType::None => 0,
            HistoryType::Shallow => 1,
            HistoryType::Deep => 2,
        },
        children: states(state.children()),
        histories: states(state.history()),
        onentry: regions(state.onentry()),
        onexit: regions(state.onexit()),
        transitions: state.transitions().map(|transition| transition.id().number()).collect(),
        donedata: state.donedata().map(payload),
        invokes: state.invokes().map(invoke).collect(),
        data: data(state),
    }
}

fn transition(found: host::Transition) -> judge::TransitionRow {
    judge::TransitionRow {
        number: found.id().number(),
        doc: found.doc_id(),
        source: found.source().id().number(),
        kind: u32::from(found.transition_type() == TransitionType::Internal),
        wildcard: u32::from(found.wildcard()),
        cond: text(found.cond()),
        content: region(found.content()),
        targets: states(found.targets()),
        events: words(found.events()),
    }
}

fn send(send: SendParameters) -> judge::Entry {
    let texts = [
        send.event(),
        send.eventexpr(),
        send.target(),
        send.targetexpr(),
        send.type_value(),
        send.typeexpr(),
        send.id(),
        send.idlocation(),
        send.delayexpr(),
        send.state().map(|state| state.name()),
    ];
    judge::Entry::Send {
        texts: texts.into_iter().map(text).collect(),
        namelist: words(send.namelist()),
        payload: payload(send.payload()),
    }
}

fn action(action: Action) -> judge::Entry {
    let given = |value: &str| Some(value.to_string());
    match action {
        Action::If { cond, content, otherwise } => {
            judge::Entry::If { cond: given(cond), content: region(content), otherwise: region(otherwise) }
        }
        Action::Script { text } => judge::Entry::Script { text: given(text) },
        Action::Log { label, expr } => judge::Entry::Log { label: text(label), expr: given(expr) },
        Action::Foreach { array, item, index, content } => judge::Entry::Foreach {
            array: given(array),
            item: given(item),
            index: text(index),
            content: region(content),
        },
        Action::Send(parameters) => send(parameters),
        Action::Raise { event } => judge::Entry::Raise { event: given(event) },
        Action::Cancel { sendid, sendidexpr } => {
            judge::Entry::Cancel { sendid: text(sendid), sendidexpr: text(sendidexpr) }
        }
        Action::Assign { location, value } => judge::Entry::Assign { location: given(location), value: text(value) },
    }
}

/// All that the views say, as the judge has it; the open elements are not among it.
fn whole(chart: &Chart, position: judge::Position) -> judge::Chart {
    let rows = chart.regions().map(|region| judge::RegionRow {
        number: region.id().number(),
        entries: region.entries().map(|entry| action(entry.action())).collect(),
    });
    judge::Chart {
        root: chart.root().map_or(0, |root| root.id().number()),
        script: region(chart.script()),
        binding: u32::from(chart.binding() == Binding::Late),
        name: text(chart.name()),
        datamodel: text(chart.datamodel()),
        version: text(chart.version()),
        states: chart.states().map(state).collect(),
        transitions: chart.transitions().map(transition).collect(),
        regions: rows.collect(),
        position,
    }
}

/// The number for an answer of the judge that is no chart.
fn number(raw: &[u8], word: &str, reason: &str) -> u32 {
    match word {
        "form" => 3,
        "keys" => 4,
        "leftout" => 6,
        _ => refusal::number(&event::parse(raw).expect("in form"), reason).expect("a known sentence"),
    }
}

/// The place of the first event that begins where 32 elements are open.
fn too_deep(stream: &[u8]) -> Option<usize> {
    let mut open = 0;
    for (place, raw) in (1..).zip(event::split(stream)) {
        match raw {
            _ if raw.starts_with(b"event=end\n") => open -= 1,
            _ if open == Chart::OPENED as i32 => return Some(place),
            _ => open += i32::from(raw.starts_with(b"event=open\n")),
        }
    }
    None
}

/// What the reader must make of a stream: the judge's chart, or the number and the event's place. The Rust has no limit of open
/// elements, so question 7 is put here; 3, 4 and 6 come before it.
fn expected(stream: &[u8], answer: Answer) -> Result<judge::Chart, (u32, usize)> {
    let judged = match answer {
        Answer::Accepted(chart) => Ok(*chart),
        Answer::Stopped { word, event, reason } => {
            Err((number(event::split(stream)[event - 1], &word, reason.as_deref().unwrap_or_default()), event))
        }
    };
    let Some(deep) = too_deep(stream) else { return judged };
    match judged {
        Err((number, place)) if place < deep || (place == deep && number < 7 && number != 5) => Err((number, place)),
        _ => Err((7, deep)),
    }
}

fn hold(name: &str, stream: &[u8], answer: Answer) {
    match (Chart::of_stream(stream), expected(stream, answer)) {
        (Ok(chart), Ok(wanted)) => {
            let (p, open) = (chart.position(), wanted.position.clone());
            assert_eq!((p.ids, p.docs, p.names), (open.ids, open.docs, open.names), "{name}");
            assert_eq!((chart.depth(), p.current), (open.open.len(), open.current), "{name}");
            assert_eq!(whole(&chart, open), wanted, "{name}");
        }
        (Err(refusal), Err((number, place))) => {
            assert_eq!((refusal.number(), refusal.event()), (number, Some(place)), "{name}");
        }
        (Ok(_), Err(wanted)) => panic!("{name}: accepted, and not refused with {wanted:?}"),
        (Err(refusal), Ok(_)) => panic!("{name}: {refusal}"),
    }
}

#[test]
fn views_say_what_was_recorded() {
    let dumps = recorded("dump.txt");
    assert!(dumps.len() > 200);
    for ((name, stream), (_, dump)) in recorded("streams.txt").into_iter().zip(dumps) {
        hold(&name, &stream, dump_parse::parse(std::str::from_utf8(&dump).expect("text")).expect("a dump"));
    }
}

#[test]
fn listings_are_the_recorded_ones() {
    for ((name, stream), (_, wanted)) in recorded("streams.txt").into_iter().zip(recorded("chartlist.txt")) {
        let wanted = String::from_utf8(wanted).expect("text");
        match Chart::of_stream(&stream) {
            Ok(chart) => assert_eq!(listing::chart(&chart), wanted, "{name}"),
            Err(refusal) => assert_eq!(listing::refusal(&refusal).lines().nth(1), wanted.lines().nth(1), "{name}"),
        }
    }
}

/// One event each gives the same chart as the stream, and the same refusal.
fn agree(name: &str, stream: &[u8]) {
    let (mut whole, mut single) = (Chart::new(), Chart::new());
    let streamed = whole.feed_stream(stream).err();
    let mut events = (1..).zip(host::stream::events(stream));
    let fed = events.find_map(|(place, raw)| single.feed(raw).err().map(|refusal| (place, refusal.number())));
    assert_eq!(streamed.map(|refusal| (refusal.event().expect("a place"), refusal.number())), fed, "{name}");
    assert!(whole == single, "{name}");
    assert_eq!(host::stream::events(stream).collect::<Vec<_>>(), event::split(stream), "{name}");
}

#[test]
fn events_one_by_one() {
    for (name, stream) in recorded("streams.txt") {
        agree(&name, &stream);
    }
}

/// Whatever bytes come, and wherever a stream is cut.
#[test]
fn changed_bytes() {
    let mut rng = Rng::of(5, 0);
    for (name, mut stream) in recorded("streams.txt").into_iter().filter(|(_, stream)| !stream.is_empty()) {
        let place = rng.below(stream.len());
        stream[place] = [b'\n', b'\\', b'=', 0, 0xff][rng.below(5)];
        agree(&name, &stream);
        agree(&name, &stream[..place]);
        agree(&name, &stream[place..]);
    }
}

/// Streams that the judge reads now, where it is at hand: more of them, and longer ones.
#[test]
fn random_streams() {
    if !rufsm::judge::is_there("random_streams") {
        return;
    }
    for (profile, count) in [(Profile::Small, 4_000), (Profile::Middle, 2_000), (Profile::Ordinary, 500)] {
        for index in 0..count {
            let stream = generate::stream(11, index, profile);
            let dump = rufsm::answer::dump(&rufsm::judge::verdict(&stream));
            hold(&format!("{profile:?} {index}"), &stream, dump_parse::parse(&dump).expect("a dump"));
        }
    }
}

/// The other inputs that stand beside their dump.
#[test]
fn folders() {
    for folder in ["examples", "tests/differences", "tests/decisions"] {
        let files = std::fs::read_dir(repository().join(folder)).expect("a folder");
        let events =
            files.map(|file| file.expect("a file").path()).filter(|path| path.extension() == Some("events".as_ref()));
        let mut count = 0;
        for path in events {
            let dump = std::fs::read_to_string(path.with_extension("dump")).expect("a dump");
            let stream = std::fs::read(&path).expect("a stream");
            hold(&path.display().to_string(), &stream, dump_parse::parse(&dump).expect("a dump"));
            count += 1;
        }
        assert!(count > 0, "{folder}");
    }
}
