//! What document 01 says of a stream where the Rust shows nothing: its limit of open elements, its text charge, how
//! many parameters there were, and whether a value of data or assign came from `expr` or from the text (two columns
//! here, one value in the Rust).

use rufsm::event::{self, Event, Kind};
use std::collections::HashMap;

/// "32 open elements."
const OPENED: usize = 32;
/// "Are fewer than 32 open? 7 (starts only)"
const TOO_DEEP: u32 = 7;
const NAMED: [&str; 5] = ["scxml", "state", "parallel", "final", "history"];

/// Where a value stands: in the column of `expr`, in the column of the text, or in neither.
#[derive(Debug, Clone, Copy, PartialEq, Eq)]
pub enum Column {
    Neither,
    Expr,
    Text,
}

/// What is noted over the events of a stream.
#[derive(Default)]
pub struct Walk {
    pub charge: usize,
    /// Parameters, those of a donedata that another replaced too: they "still count".
    pub parameters: usize,
    /// By the state's name and the data's id.
    pub data: HashMap<(String, String), Column>,
    /// In the order of the events.
    pub assigns: Vec<Column>,
    /// The names of the current state, one for each open element.
    open: Vec<String>,
    generated: usize,
}

/// The events of a stream, as far as they are in form.
fn events(stream: &[u8]) -> Vec<Event> {
    event::split(stream).into_iter().map_while(|raw| event::parse(raw).ok()).collect()
}

/// The walk over a stream that is accepted.
pub fn over(stream: &[u8]) -> Walk {
    let mut walk = Walk::default();
    events(stream).iter().for_each(|event| walk.take(event));
    walk
}

/// The first event that begins where 32 elements are open, with its number.
pub fn too_deep(stream: &[u8]) -> Option<(usize, u32)> {
    let mut open: usize = 0;
    for (event, place) in events(stream).iter().zip(1..) {
        match event.kind {
            Kind::End => open = open.saturating_sub(1),
            _ if open == OPENED => return Some((place, TOO_DEEP)),
            Kind::Open => open += 1,
            Kind::Empty | Kind::Whole => {}
        }
    }
    None
}

impl Walk {
    fn take(&mut self, event: &Event) {
        if event.kind == Kind::End {
            self.open.pop();
            return;
        }
        self.charge += event.pairs.iter().map(|(_, value)| value.len()).sum::<usize>();
        self.charge += event.text.as_ref().map_or(0, |text| text_charge(&event.name, text.len()));
        let state = self.state_inside(event);
        match event.name.as_str() {
            "data" => {
                let id = event.value("id").unwrap_or_default().to_string();
                let column = if event.value("expr").is_some() { Column::Expr } else { Column::Text };
                self.data.insert((state.clone(), id), column);
            }
            "param" => self.parameters += 1,
            "assign" => self.assigns.push(match event.kind {
                Kind::Whole => Column::Text,
                _ if event.value("expr").is_some() => Column::Expr,
                _ => Column::Neither,
            }),
            _ => {}
        }
        if event.kind == Kind::Open {
            self.open.push(state);
        }
    }

    /// The name of the current state inside an element. "Without `id` the name is `__id` and a count from 1."
    fn state_inside(&mut self, event: &Event) -> String {
        let outer = self.open.last().cloned().unwrap_or_default();
        match event.value("id") {
            _ if !NAMED.contains(&event.name.as_str()) => outer,
            Some(id) => id.to_string(),
            None => {
                self.generated += 1;
                let name = format!("__id{}", self.generated);
                self.charge += name.len();
                name
            }
        }
    }
}

/// "Texts (assign: twice and two more)."
fn text_charge(name: &str, length: usize) -> usize {
    if name == "assign" {
        2 * length + 2
    } else {
        length
    }
}

#[cfg(test)]
mod tests {
    use super::*;
    use rufsm::edges::lines;

    #[test]
    fn values_texts_and_generated_names_are_charged() {
        let charge = |short: &str| over(&lines(short)).charge;
        assert_eq!(charge("+scxml"), "__id1".len());
        assert_eq!(charge("+scxml id:r name:n any:xyz +state id:r -state"), 6);
        assert_eq!(charge("+scxml id: =script |%20x%0a"), 3);
        assert_eq!(charge("+scxml id: =assign location:l |yy"), 1 + 2 * 2 + 2);
    }

    #[test]
    fn the_last_data_of_an_id_in_a_state_counts() {
        let walk =
            over(&lines("+scxml id:r +datamodel =data id:d |t .data id:e expr:1 .data id:d expr:2 =data id:e |u"));
        let column = |id: &str| walk.data[&("r".to_string(), id.to_string())];
        assert_eq!((column("d"), column("e")), (Column::Expr, Column::Text));
    }

    #[test]
    fn the_33rd_open_element_is_too_deep() {
        let open = |count: usize| "+x ".repeat(count);
        assert_eq!(too_deep(&lines(&open(32))), None);
        assert_eq!(too_deep(&lines(&(open(32) + "-x +x"))), None);
        assert_eq!(too_deep(&lines(&(open(32) + "=script |"))), Some((33, TOO_DEEP)));
        assert_eq!(too_deep(&lines(&(open(31) + ".x .x +x .x"))), Some((35, TOO_DEEP)));
    }
}
