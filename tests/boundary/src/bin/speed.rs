//! `speed ROUNDS`: from bytes to a chart, `chart_stream` beside the judge's parser and handlers on the same bytes. All take turns, so that what else the machine
//! does falls on all; medians are printed. The tables are not cleared between rounds, only the position and the chart's row; the judge makes a new reader.

use boundary::lent::{Lent, Position};
use rufsm::event::{self, print_all, Event, Kind};
use rufsm::judge::build_times;
use std::hint::black_box;
use std::path::Path;
use std::process::ExitCode;
use std::time::Instant;

fn micros(work: impl FnOnce()) -> f64 {
    let begin = Instant::now();
    work();
    begin.elapsed().as_secs_f64() * 1e6
}

fn median(mut times: Vec<f64>) -> f64 {
    times.sort_by(f64::total_cmp);
    times[times.len() / 2]
}

fn open(name: &str) -> Event {
    Event::new(Kind::Open, name)
}

fn empty(name: &str) -> Event {
    Event::new(Kind::Empty, name)
}

fn end(name: &str) -> Event {
    Event::new(Kind::End, name)
}

/// A state of 22 events, with what charts have.
fn block(place: usize, states: usize) -> Vec<Event> {
    let (name, next) = (format!("state-{place:03}"), format!("state-{:03}", (place + 1) % states));
    let both = format!("{name} {next}");
    vec![
        open("state").with("id", &name),
        open("onentry"),
        empty("log").with("label", "lamp").with("expr", "'strike'"),
        empty("assign").with("location", "x").with("expr", "x + 1"),
        open("if").with("cond", "x == 1"),
        empty("raise").with("event", "lamp.on"),
        empty("else"),
        empty("send").with("event", "fan.on").with("target", "#_parent").with("type", "scxml"),
        end("if"),
        end("onentry"),
        open("onexit"),
        empty("cancel").with("sendid", "s1"),
        end("onexit"),
        open("transition").with("event", "lamp.on").with("target", &next).with("cond", "ready"),
        empty("log").with("expr", "'go'"),
        end("transition"),
        open("transition").with("event", "fan.* error").with("target", &both),
        end("transition"),
        open("invoke").with("type", "scxml"),
        empty("param").with("name", "p").with("expr", "1"),
        end("invoke"),
        end("state"),
    ]
}

fn chart_of(states: usize) -> Vec<u8> {
    let blocks = (0..states).flat_map(|place| block(place, states));
    inside(blocks.collect())
}

fn inside(events: Vec<Event>) -> Vec<u8> {
    let all: Vec<Event> = [open("scxml")].into_iter().chain(events).chain([end("scxml")]).collect();
    print_all(&all).into_bytes()
}

/// 64 transitions with eight targets each.
fn targets() -> Vec<u8> {
    let names = |from: usize| (0..8).map(|i| format!("state-{:03}", (from + i) % 64)).collect::<Vec<_>>().join(" ");
    let states = (0..64).flat_map(|place| {
        let name = format!("state-{place:03}");
        [
            open("state").with("id", &name),
            empty("transition").with("event", "e").with("target", &names(place)),
            end("state"),
        ]
    });
    inside(states.collect())
}

fn entries() -> Vec<u8> {
    let raises = (0..2_048).map(|i| empty("raise").with("event", &format!("e{i}")));
    let around = [open("state").with("id", "a"), open("onentry")].into_iter().chain(raises);
    inside(around.chain([end("onentry"), end("state")]).collect())
}

fn texts() -> Vec<u8> {
    let script = Event::new(Kind::Whole, "script").text(&"x = x + 1; ".repeat(370));
    let scripts = (0..15).map(|_| script.clone());
    let around = [open("state").with("id", "a"), open("onentry")].into_iter().chain(scripts);
    inside(around.chain([end("onentry"), end("state")]).collect())
}

fn begin_again(lent: &mut Lent) {
    lent.position = Position::default();
    lent.chart[0] = [0; 24];
}

/// Ours; the judge's parser; its handlers without and with freeing.
fn compared(what: &str, stream: &[u8], rounds: usize) {
    let mut lent = Lent::zeros();
    let parse = || event::split(stream).into_iter().map(event::parse).collect::<Result<Vec<_>, _>>();
    let events = parse().expect("events in form");
    let mut times: [Vec<f64>; 3] = Default::default();
    for _ in 0..rounds {
        begin_again(&mut lent);
        times[0].push(micros(|| assert_eq!(black_box(lent.stream(black_box(stream))), (0, 0), "{what}")));
        times[1].push(micros(|| _ = black_box(parse())));
        match build_times(&events, 1) {
            Ok(built) => times[2].push(built[0][0] as f64 / 1e3),
            Err(absent) => return println!("{what}: {absent}"),
        }
    }
    let [ours, parsing, handling] = times.map(median);
    println!(
        "| {what} | {} | {ours:.1} | {:.0} | {parsing:.1} | {handling:.1} | {:.2} | {:.2} |",
        events.len(),
        ours * 1e3 / events.len() as f64,
        (parsing + handling) / ours,
        handling / ours
    );
}

/// One event through C, question 2 with it: a raise into a chart of so many blocks.
fn single(what: &str, blocks: usize, rounds: usize) {
    let mut lent = Lent::zeros();
    let chart = if blocks == 0 { inside(vec![]) } else { chart_of(blocks) };
    assert_eq!(lent.stream(&chart), (0, 0));
    let raw = print_all(&[empty("x")]);
    let mut times = Vec::new();
    for _ in 0..rounds {
        times.push(micros(|| (0..10).for_each(|_| assert_eq!(black_box(lent.event(raw.as_bytes())), 0))) / 10.0);
    }
    println!("| {what} | {:.2} |", median(times));
}

fn main() -> ExitCode {
    let Some(Ok(rounds)) = std::env::args().nth(1).map(|word| word.parse::<usize>()) else {
        eprintln!("usage: speed ROUNDS");
        return ExitCode::FAILURE;
    };
    let rounds = rounds.max(1);
    let lamp = Path::new(env!("CARGO_MANIFEST_DIR")).join("../../examples/lamp.events");
    println!("| chart | events | stream, us | ns an event | judge's parser, us | judge's handlers, us | both / stream | handlers / stream |");
    println!("|---|---|---|---|---|---|---|---|");
    compared("lamp", &std::fs::read(lamp).expect("the lamp chart"), rounds);
    for states in [1, 5, 10, 32, 64] {
        compared(&format!("{states} states"), &chart_of(states), rounds);
    }
    compared("512 targets", &targets(), rounds);
    compared("2,048 entries", &entries(), rounds);
    compared("long texts", &texts(), rounds);
    println!("\n| one event, with questions 1 and 2 | us |\n|---|---|");
    single("no state", 0, rounds);
    single("10 states", 10, rounds);
    single("64 states", 64, rounds);
    ExitCode::SUCCESS
}
