//! A chart listed, in the form of the program `chartlist`: one field a line.

use crate::{Chart, Refusal, State, Transition, TransitionType};
use std::fmt::Write;

/// Byte 10 as `\n` and a backslash as two, as in event lines.
fn escape(text: &str) -> String {
    text.replace('\\', "\\\\").replace('\n', "\\n")
}

/// Numbers of states, parted by single spaces.
fn numbers<'a>(states: impl Iterator<Item = State<'a>>) -> String {
    states.map(|state| state.id().to_string()).collect::<Vec<String>>().join(" ")
}

fn state(state: State) -> String {
    format!(
        "state={}\nname={}\nparent={}\ninitial={}\ndoc={}\nchildren={}\n",
        state.id(),
        escape(state.name()),
        state.parent().map_or(0, |parent| parent.id().number()),
        state.initial().map_or(0, |initial| initial.id().number()),
        state.doc_id(),
        numbers(state.children())
    )
}

fn transition(transition: Transition) -> String {
    let word = match transition.transition_type() {
        TransitionType::External => "external",
        TransitionType::Internal => "internal",
    };
    format!(
        "transition={}\nsource={}\ntargets={}\ntype={word}\ndoc={}\ncontent={}\n",
        transition.id(),
        transition.source().id(),
        numbers(transition.targets()),
        transition.doc_id(),
        transition.content().map_or(0, |region| region.id().number())
    )
}

/// The answer 0, the root's number, the counts, all states and all transitions.
///
/// ```
/// let chart = host::Chart::of_stream(b"event=open\nname=scxml\n")?;
/// let listed = "answer=0\nroot=1\nstates=1\ntransitions=0\nstate=1\nname=__id1\nparent=0\ninitial=0\ndoc=1\nchildren=\n";
/// assert_eq!(host::listing::chart(&chart), listed);
/// # Ok::<(), host::Refusal>(())
/// ```
pub fn chart(chart: &Chart) -> String {
    let root = chart.root().map_or(0, |root| root.id().number());
    let mut text = String::from("answer=0\n");
    let _ = write!(text, "root={root}\nstates={}\n", chart.states().count());
    let _ = writeln!(text, "transitions={}", chart.transitions().count());
    text.extend(chart.states().map(state));
    text.extend(chart.transitions().map(transition));
    text
}

/// The number and the refused event's place, and no more.
pub fn refusal(refusal: &Refusal) -> String {
    format!("answer={}\nevent={}\n", refusal.number(), refusal.event().unwrap_or(1))
}
