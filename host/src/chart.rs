//! The chart: it owns its tables and is fed events.

use crate::action::Entry;
use crate::columns::{chart, region, state, transition};
use crate::ffi::{self, Position};
use crate::payload::Parameter;
use crate::row::Row;
use crate::tables::Tables;
use crate::view::{Datum, Invoke, Region, State, Transition};
use crate::{Refusal, RegionId, StateId, TransitionId, ROW_COLUMNS};
use std::fmt;

/// Kinds of row, as [`Chart::read_row`] takes them.
#[derive(Debug, Clone, Copy, PartialEq, Eq, Hash)]
#[allow(missing_docs)]
pub enum Kind {
    Chart = 0,
    State = 1,
    Transition = 2,
    Region = 3,
    Entry = 4,
    Invoke = 5,
    Datum = 6,
    Parameter = 7,
    Member = 8,
}

impl Kind {
    /// All of them, by number.
    pub const ALL: [Kind; 9] = [
        Kind::Chart,
        Kind::State,
        Kind::Transition,
        Kind::Region,
        Kind::Entry,
        Kind::Invoke,
        Kind::Datum,
        Kind::Parameter,
        Kind::Member,
    ];
}

/// A row as the reader gives it: its columns are those of [`columns`](crate::columns), and zeros behind them.
pub type ReadRow = [u32; ROW_COLUMNS];

/// When data get their values.
#[derive(Debug, Clone, Copy, PartialEq, Eq, Hash, Default)]
#[allow(missing_docs)]
pub enum Binding {
    #[default]
    Early,
    Late,
}

/// A chart, as far as it was read.
///
/// Two charts are equal when all their rows, texts and positions are.
#[derive(Clone)]
pub struct Chart {
    tables: Tables,
    position: Position,
}

/// Limits.
impl Chart {
    /// States of a chart.
    pub const STATES: usize = 256;
    /// Transitions of a chart.
    pub const TRANSITIONS: usize = 512;
    /// Regions of a chart.
    pub const REGIONS: usize = 512;
    /// Entries of all regions.
    pub const ENTRIES: usize = 2_048;
    /// Invokes of all states.
    pub const INVOKES: usize = 64;
    /// Data of all states.
    pub const DATA: usize = 256;
    /// Parameters of sends, invokes and donedata.
    pub const PARAMETERS: usize = 512;
    /// Members of all lists together.
    pub const MEMBERS: usize = 4_096;
    /// Elements open at once.
    pub const OPENED: usize = 32;
    /// Regions open at once.
    pub const OPEN_REGIONS: usize = 64;
    /// The text charge: over accepted events, the lengths of all values, texts and generated names.
    pub const CHARGE: usize = 65_535;
}

/// Feeding.
impl Chart {
    /// The empty chart.
    pub fn new() -> Chart {
        Chart { tables: Tables::new(), position: Position::default() }
    }

    /// The chart of a whole stream.
    ///
    /// ```
    /// let chart = host::Chart::of_stream(b"event=open\nname=scxml\nevent=end\nname=scxml\n")?;
    /// assert_eq!(chart.root().expect("an scxml").name(), "__id1");
    /// # Ok::<(), host::Refusal>(())
    /// ```
    pub fn of_stream(events: &[u8]) -> Result<Chart, Refusal> {
        let mut chart = Chart::new();
        chart.feed_stream(events)?;
        Ok(chart)
    }

    /// One event, its lines as bytes. A refused event has changed nothing.
    ///
    /// ```
    /// let mut chart = host::Chart::new();
    /// let before = chart.clone();
    /// assert_eq!(chart.feed(b"event=open\nname=scxml").unwrap_err().number(), 3); // its last line does not end
    /// assert!(chart == before);
    /// ```
    pub fn feed(&mut self, event: &[u8]) -> Result<(), Refusal> {
        let answer = ffi::event(&mut self.tables, self.position, event);
        self.position = answer.position;
        Refusal::of(answer.number, None)
    }

    /// Many events, one behind the other: each runs to the next line that begins `event=`, or to the end. The first refusal
    /// ends it; the events before it are in the chart then.
    ///
    /// ```
    /// let mut chart = host::Chart::new();
    /// let refusal = chart.feed_stream(b"event=open\nname=scxml\nevent=open\nname=scxml\n").unwrap_err();
    /// assert_eq!((refusal.number(), refusal.event()), (9, Some(2)));
    /// assert!(chart.root().is_some());
    /// ```
    pub fn feed_stream(&mut self, events: &[u8]) -> Result<(), Refusal> {
        let streamed = ffi::stream(&mut self.tables, self.position, events);
        self.position = streamed.position;
        Refusal::of(streamed.number, Some(streamed.event))
    }

    /// A row by kind and number, as the reader gives it to every caller: it asks first whether the tables keep the chart
    /// rules. Transitions and regions are read by their own number, all other rows by creation from 1.
    ///
    /// ```
    /// use host::{columns, Chart, Kind};
    /// let chart = Chart::of_stream(b"event=open\nname=scxml\nevent=empty\nname=state\nkey=id\nvalue=a\n")?;
    /// assert_eq!(chart.read_row(Kind::State, 2)?[columns::state::PARENT], 1);
    /// assert_eq!(chart.read_row(Kind::State, 3).unwrap_err().number(), 16);
    /// # Ok::<(), host::Refusal>(())
    /// ```
    pub fn read_row(&self, kind: Kind, number: u32) -> Result<ReadRow, Refusal> {
        let (answer, bytes) = ffi::read_row(&self.tables, self.position, kind as u32, number);
        Refusal::of(answer, None)?;
        let mut row = [0; ROW_COLUMNS];
        for (cell, bytes) in row.iter_mut().zip(bytes.chunks_exact(4)) {
            *cell = u32::from_le_bytes([bytes[0], bytes[1], bytes[2], bytes[3]]);
        }
        Ok(row)
    }

    /// The reading position: rows in use, counters, the text charge.
    pub fn position(&self) -> Position {
        self.position
    }

    /// How many elements are open.
    pub fn depth(&self) -> usize {
        self.position.opened as usize
    }
}

/// What the chart says of itself.
impl Chart {
    fn row(&self) -> Row<'_> {
        Row { chart: self, cells: &self.tables.chart[0] }
    }

    /// The state of the element scxml; nothing before it is read.
    pub fn root(&self) -> Option<State<'_>> {
        self.row().state(chart::ROOT)
    }

    /// The region of the script directly in scxml.
    pub fn script(&self) -> Option<Region<'_>> {
        self.row().region(chart::SCRIPT)
    }

    /// Early, unless scxml says otherwise.
    pub fn binding(&self) -> Binding {
        if self.row().flag(chart::BINDING) {
            Binding::Late
        } else {
            Binding::Early
        }
    }

    /// The attribute `name` of scxml.
    pub fn name(&self) -> Option<&str> {
        self.row().text(chart::NAME)
    }

    /// The attribute `datamodel` of scxml.
    pub fn datamodel(&self) -> Option<&str> {
        self.row().text(chart::DATAMODEL)
    }

    /// The attribute `version` of scxml.
    pub fn version(&self) -> Option<&str> {
        self.row().text(chart::VERSION)
    }
}

/// The rows in use of a table whose rows are numbered by creation, each with its number.
fn numbered<'a, const WIDTH: usize>(
    chart: &'a Chart,
    rows: &'a [[u32; WIDTH]],
    count: u32,
) -> impl Iterator<Item = (u32, Row<'a>)> {
    (1..).zip(&rows[..count as usize]).map(move |(number, cells)| (number, Row { chart, cells }))
}

/// The row with a number of its own; numbers rise.
fn own<'a>(chart: &'a Chart, rows: &'a [[u32; 8]], count: u32, number: u32, column: usize) -> Option<Row<'a>> {
    let rows = &rows[..count as usize];
    let place = rows.binary_search_by_key(&number, |row| row[column]).ok()?;
    Some(Row { chart, cells: &rows[place] })
}

/// The rows of each kind.
impl Chart {
    /// All states, by rising number.
    pub fn states(&self) -> impl Iterator<Item = State<'_>> {
        numbered(self, &*self.tables.states, self.position.states)
            .filter_map(|(number, row)| Some(State { id: StateId::new(number)?, row }))
    }

    /// A state by its number; nothing for a number of another chart that this one does not have.
    pub fn state(&self, id: StateId) -> Option<State<'_>> {
        let rows = &self.tables.states[..self.position.states as usize];
        let cells = rows.get(id.number() as usize - 1)?;
        Some(State { id, row: Row { chart: self, cells } })
    }

    /// The state that has a name.
    pub fn state_named(&self, name: &str) -> Option<State<'_>> {
        self.states().find(|state| state.row.text(state::NAME) == Some(name))
    }

    /// All transitions, by rising number.
    pub fn transitions(&self) -> impl Iterator<Item = Transition<'_>> {
        numbered(self, &*self.tables.transitions, self.position.transitions)
            .filter_map(|(_, row)| Some(Transition { id: TransitionId::new(row.number(transition::NUMBER))?, row }))
    }

    /// A transition by its number.
    pub fn transition(&self, id: TransitionId) -> Option<Transition<'_>> {
        let count = self.position.transitions;
        let row = own(self, &*self.tables.transitions, count, id.number(), transition::NUMBER)?;
        Some(Transition { id, row })
    }

    /// All regions, by rising number.
    pub fn regions(&self) -> impl Iterator<Item = Region<'_>> {
        numbered(self, &*self.tables.regions, self.position.regions)
            .filter_map(|(_, row)| Some(Region { id: RegionId::new(row.number(region::NUMBER))?, row }))
    }

    /// A region by its number.
    pub fn region(&self, id: RegionId) -> Option<Region<'_>> {
        let row = own(self, &*self.tables.regions, self.position.regions, id.number(), region::NUMBER)?;
        Some(Region { id, row })
    }

    /// All entries of all regions, in order of creation.
    pub fn entries(&self) -> impl Iterator<Item = Entry<'_>> {
        numbered(self, &*self.tables.entries, self.position.entries).map(|(number, row)| Entry { number, row })
    }

    /// All invokes of all states, in order of creation.
    pub fn invokes(&self) -> impl Iterator<Item = Invoke<'_>> {
        numbered(self, &*self.tables.invokes, self.position.invokes).map(|(number, row)| Invoke { number, row })
    }

    /// All data of all states, in order of creation.
    pub fn data(&self) -> impl Iterator<Item = Datum<'_>> {
        numbered(self, &*self.tables.data, self.position.data).map(|(number, row)| Datum { number, row })
    }

    /// All parameters that are in the chart, in order of creation. Those of a donedata that another replaced are not.
    pub fn parameters(&self) -> impl Iterator<Item = Parameter<'_>> {
        numbered(self, &*self.tables.parameters, self.position.parameters)
            .map(|(number, row)| Parameter { number, row })
            .filter(|parameter| !parameter.has_left())
    }

    pub(crate) fn members(&self) -> impl Iterator<Item = Row<'_>> {
        numbered(self, &*self.tables.members, self.position.members).map(|(_, row)| row)
    }

    /// The text that rows speak of.
    pub(crate) fn text(&self) -> &[u8] {
        &self.tables.text[..self.position.used as usize]
    }
}

impl Default for Chart {
    fn default() -> Chart {
        Chart::new()
    }
}

impl PartialEq for Chart {
    fn eq(&self, other: &Chart) -> bool {
        self.position == other.position
            && self.tables.in_use(&self.position) == other.tables.in_use(&other.position)
            && self.tables.text_in_use(&self.position) == other.tables.text_in_use(&other.position)
    }
}

impl Eq for Chart {}

/// The tables are large: only the name and the position are shown.
impl fmt::Debug for Chart {
    fn fmt(&self, f: &mut fmt::Formatter<'_>) -> fmt::Result {
        f.debug_struct("Chart").field("name", &self.name()).field("position", &self.position).finish_non_exhaustive()
    }
}
