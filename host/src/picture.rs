//! A chart as a picture, in Graphviz's language DOT.
//!
//! | in the picture | in the chart |
//! |---|---|
//! | rounded box | state |
//! | box around others | state with children; dashed: parallel |
//! | double border | final |
//! | circle with H or H* | history, shallow or deep |
//! | dotted border | a state that no element declares |
//! | arrow from a point | initial transition |
//! | arrow | transition, with its event words and its condition in brackets; dashed: internal |
//! | line `on ..` below a state's name | transition without a target |
//! | arrow that forks at a small point | transition with several targets |

use crate::{Chart, HistoryType, State, StateId, Transition, TransitionType};
use std::collections::HashMap;
use std::fmt::Write;

/// The chart in DOT.
///
/// ```
/// let chart = host::Chart::of_stream(b"event=open\nname=scxml\nevent=empty\nname=state\nkey=id\nvalue=off\n")?;
/// let dot = host::picture::dot(&chart);
/// assert!(dot.starts_with("digraph chart {\n") && dot.contains("label=\"off\""));
/// # Ok::<(), host::Refusal>(())
/// ```
pub fn dot(chart: &Chart) -> String {
    let mut picture = Picture { chart, text: String::new(), around: HashMap::new() };
    picture.line(0, "digraph chart {");
    picture.line(1, "compound=true;");
    picture.line(1, "node [shape=box, style=rounded, fontname=\"Helvetica\"];");
    picture.line(1, "edge [fontname=\"Helvetica\", fontsize=10];");
    picture.line(1, "graph [fontname=\"Helvetica\"];");
    picture.states();
    picture.arrows();
    picture.line(0, "}");
    picture.text
}

/// A text inside a label. A backslash, a quote and `&` mean something to DOT and are escaped; byte 10 breaks the line there
/// too, and other bytes that are not visible stand as `\x` and two digits.
fn label(text: &str) -> String {
    let mut escaped = String::with_capacity(text.len());
    for letter in text.chars() {
        match letter {
            '\\' => escaped.push_str("\\\\"),
            '"' => escaped.push_str("\\\""),
            '&' => escaped.push_str("&amp;"),
            '\n' => escaped.push_str("\\n"),
            _ if letter.is_control() => drop(write!(escaped, "\\\\x{:02x}", u32::from(letter))),
            _ => escaped.push(letter),
        }
    }
    escaped
}

/// Event words and condition. The word of no bytes, which no event has, stands as two quotes.
fn words(transition: Transition) -> String {
    let events = transition.events().map(|word| if word.is_empty() { "''".to_string() } else { label(word) });
    let cond = transition.cond().map(|cond| format!("[{}]", label(cond)));
    events.chain(cond).collect::<Vec<String>>().join(" ")
}

/// The name, and below it the transitions without a target.
fn caption(state: State, name: &str) -> String {
    let stay = state.transitions().filter(|transition| transition.targets().next().is_none());
    let lines = stay.map(words).filter(|words| !words.is_empty()).map(|words| format!("on {words}"));
    std::iter::once(label(name)).chain(lines).collect::<Vec<String>>().join("\\n")
}

/// Where an arrow begins: a node, the state that it lies in, and whether the arrow is seen to begin at that state's border.
struct Tail<'a> {
    node: String,
    inside: Option<State<'a>>,
    at_border: bool,
}

impl<'a> Tail<'a> {
    /// An initial transition begins at its point; a state without children has none, and there it begins at the state.
    fn of(transition: Transition<'a>) -> Tail<'a> {
        let source = transition.source();
        let initial = source.initial().is_some_and(|initial| initial.id() == transition.id());
        let at_border = has_children(source) && !initial;
        let letter = if has_children(source) && initial { 'i' } else { 's' };
        Tail { node: format!("{letter}{}", source.id()), inside: Some(source), at_border }
    }

    fn border(&self) -> Option<String> {
        self.inside.filter(|_| self.at_border).map(|source| format!("ltail=cluster_{}", source.id()))
    }
}

/// How a transition's arrow looks. A space keeps the words off the line. An arrow from a point is never dashed: it leaves
/// nothing.
fn attributes(transition: Transition, tail: &Tail) -> Vec<String> {
    let words = words(transition);
    let label = (!words.is_empty()).then(|| format!("label=\" {words}\""));
    let internal = transition.transition_type() == TransitionType::Internal && !tail.node.starts_with('i');
    label.into_iter().chain(internal.then(|| "style=dashed".to_string())).collect()
}

fn has_children(state: State) -> bool {
    state.children().next().is_some() || state.history().next().is_some()
}

struct Picture<'a> {
    chart: &'a Chart,
    text: String,
    /// Each state that is drawn, with the state around it. A chart may list a state twice, or in itself; it is drawn once.
    around: HashMap<StateId, Option<StateId>>,
}

impl<'a> Picture<'a> {
    fn line(&mut self, depth: usize, line: &str) {
        let _ = writeln!(self.text, "{:1$}{line}", "", 2 * depth);
    }

    /// The root with all below it, then states that hang nowhere.
    fn states(&mut self) {
        let chart = self.chart;
        for state in chart.root().into_iter().chain(chart.states()) {
            self.state(state, None, 1);
        }
    }

    fn state(&mut self, state: State<'a>, around: Option<StateId>, depth: usize) {
        if self.around.contains_key(&state.id()) {
            return;
        }
        self.around.insert(state.id(), around);
        if has_children(state) {
            self.cluster(state, depth);
        } else {
            let line = self.node(state);
            self.line(depth, &line);
        }
    }

    /// A state with others in it. Arrows need a node to begin and end at: a point that is not seen.
    fn cluster(&mut self, state: State<'a>, depth: usize) {
        let id = state.id();
        self.line(depth, &format!("subgraph cluster_{id} {{"));
        let style = if state.is_parallel() { "rounded,dashed" } else { "rounded" };
        let title = caption(state, self.title(state));
        self.line(depth + 1, &format!("label=\"{title}\"; style=\"{style}\";"));
        self.line(depth + 1, &format!("s{id} [shape=point, style=invis, width=0, height=0, label=\"\"];"));
        if state.initial().is_some() {
            self.line(depth + 1, &format!("i{id} [shape=point, width=0.12];"));
        }
        for child in state.children().chain(state.history()) {
            self.state(child, Some(id), depth + 1);
        }
        self.line(depth, "}");
    }

    /// The root has the chart's name, if there is one.
    fn title(&self, state: State<'a>) -> &'a str {
        let is_root = self.chart.root().is_some_and(|root| root.id() == state.id());
        self.chart.name().filter(|_| is_root).unwrap_or(state.name())
    }

    fn node(&self, state: State<'a>) -> String {
        let title = caption(state, self.title(state));
        let undeclared = if state.doc_id() == 0 { ", style=\"rounded,dotted\"" } else { "" };
        let (id, double) = (state.id(), if state.is_final() { ", peripheries=2" } else { "" });
        match state.history_type() {
            HistoryType::None => format!("s{id} [label=\"{title}\"{double}{undeclared}];"),
            HistoryType::Shallow => format!("s{id} [label=\"H\", shape=circle, xlabel=\"{title}\"];"),
            HistoryType::Deep => format!("s{id} [label=\"H*\", shape=circle, xlabel=\"{title}\"];"),
        }
    }

    /// All transitions.
    fn arrows(&mut self) {
        for transition in self.chart.transitions() {
            let targets: Vec<State> = transition.targets().collect();
            let tail = Tail::of(transition);
            match targets[..] {
                [] => (),
                [target] => self.arrow(&tail, target, attributes(transition, &tail)),
                _ => self.fork(transition, &tail, &targets),
            }
        }
    }

    /// Several targets are entered together: one arrow to a small point, and one from there to each.
    fn fork(&mut self, transition: Transition<'a>, tail: &Tail<'a>, targets: &[State<'a>]) {
        let point = Tail { node: format!("t{}", transition.id()), inside: None, at_border: false };
        self.line(1, &format!("{} [shape=point, width=0.05];", point.node));
        let mut attributes = attributes(transition, tail);
        attributes.push("arrowhead=none".to_string());
        attributes.extend(tail.border());
        self.line(1, &format!("{} -> {} [{}];", tail.node, point.node, attributes.join(", ")));
        for target in targets {
            self.arrow(&point, *target, Vec::new());
        }
    }

    /// An arrow begins and ends at a cluster's border, unless its other end is inside.
    fn arrow(&mut self, tail: &Tail<'a>, target: State<'a>, mut attributes: Vec<String>) {
        let from_inside = tail.inside.is_some_and(|source| self.is_inside(source.id(), target.id()));
        let to_inside = tail.inside.is_some_and(|source| self.is_inside(target.id(), source.id()));
        if has_children(target) && !from_inside {
            attributes.push(format!("lhead=cluster_{}", target.id()));
        }
        attributes.extend(tail.border().filter(|_| !to_inside));
        let attributes = if attributes.is_empty() { String::new() } else { format!(" [{}]", attributes.join(", ")) };
        self.line(1, &format!("{} -> s{}{attributes};", tail.node, target.id()));
    }

    /// Whether a state is drawn inside another, or is that other.
    fn is_inside(&self, state: StateId, other: StateId) -> bool {
        let mut next = Some(state);
        while let Some(inner) = next {
            if inner == other {
                return true;
            }
            next = self.around.get(&inner).copied().flatten();
        }
        false
    }
}
