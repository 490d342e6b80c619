//! The tables that a chart owns and lends to the reader.

use crate::ffi::Position;
use crate::Chart;

/// One array for each table. Zeros are the empty chart.
#[derive(Clone)]
pub(crate) struct Tables {
    pub chart: Box<[[u32; 24]; 1]>,
    pub states: Box<[[u32; 24]; Chart::STATES]>,
    pub transitions: Box<[[u32; 8]; Chart::TRANSITIONS]>,
    pub regions: Box<[[u32; 8]; Chart::REGIONS]>,
    pub entries: Box<[[u32; 48]; Chart::ENTRIES]>,
    pub invokes: Box<[[u32; 24]; Chart::INVOKES]>,
    pub data: Box<[[u32; 8]; Chart::DATA]>,
    pub parameters: Box<[[u32; 8]; Chart::PARAMETERS]>,
    pub members: Box<[[u32; 8]; Chart::MEMBERS]>,
    pub opened: Box<[[u32; 8]; Chart::OPENED]>,
    pub open_names: Box<[[u8; 64]; Chart::OPENED]>,
    pub open_regions: Box<[[u32; 8]; Chart::OPEN_REGIONS]>,
    pub text: Box<[u8; Chart::CHARGE]>,
}

/// Made on the heap: a vector of zeros is never on the stack, and an array of them would be.
fn zeros<T: Clone, const ROWS: usize>(zero: T) -> Box<[T; ROWS]> {
    let rows: Result<Box<[T; ROWS]>, Vec<T>> = vec![zero; ROWS].try_into();
    rows.unwrap_or_else(|_| unreachable!("a vector of so many rows"))
}

impl Tables {
    pub fn new() -> Tables {
        Tables {
            chart: zeros([0; 24]),
            states: zeros([0; 24]),
            transitions: zeros([0; 8]),
            regions: zeros([0; 8]),
            entries: zeros([0; 48]),
            invokes: zeros([0; 24]),
            data: zeros([0; 8]),
            parameters: zeros([0; 8]),
            members: zeros([0; 8]),
            opened: zeros([0; 8]),
            open_names: zeros([0; 64]),
            open_regions: zeros([0; 8]),
            text: zeros(0),
        }
    }

    /// The numbers of all rows in use, a slice for each table.
    pub fn in_use(&self, p: &Position) -> [&[u32]; 11] {
        [
            self.chart.as_flattened(),
            self.states[..p.states as usize].as_flattened(),
            self.transitions[..p.transitions as usize].as_flattened(),
            self.regions[..p.regions as usize].as_flattened(),
            self.entries[..p.entries as usize].as_flattened(),
            self.invokes[..p.invokes as usize].as_flattened(),
            self.data[..p.data as usize].as_flattened(),
            self.parameters[..p.parameters as usize].as_flattened(),
            self.members[..p.members as usize].as_flattened(),
            self.opened[..p.opened as usize].as_flattened(),
            self.open_regions[..p.open_regions as usize].as_flattened(),
        ]
    }

    /// The text in use, and the names of open elements.
    pub fn text_in_use(&self, p: &Position) -> [&[u8]; 2] {
        [&self.text[..p.used as usize], self.open_names[..p.opened as usize].as_flattened()]
    }
}

#[cfg(test)]
mod tests {
    use super::*;

    type Cell = fn(&mut Tables, usize) -> &mut u32;

    const CELLS: [Cell; 10] = [
        |tables, row| &mut tables.states[row][3],
        |tables, row| &mut tables.transitions[row][3],
        |tables, row| &mut tables.regions[row][3],
        |tables, row| &mut tables.entries[row][3],
        |tables, row| &mut tables.invokes[row][3],
        |tables, row| &mut tables.data[row][3],
        |tables, row| &mut tables.parameters[row][3],
        |tables, row| &mut tables.members[row][3],
        |tables, row| &mut tables.opened[row][3],
        |tables, row| &mut tables.open_regions[row][3],
    ];

    /// A position with one row of each table in use.
    fn one_row() -> Position {
        Position {
            opened: 1,
            states: 1,
            transitions: 1,
            regions: 1,
            entries: 1,
            invokes: 1,
            data: 1,
            parameters: 1,
            members: 1,
            open_regions: 1,
            ..Position::default()
        }
    }

    /// A row in use counts, the row behind it does not.
    #[test]
    fn rows_in_use() {
        let (zeros, position) = (Tables::new(), one_row());
        for cell in CELLS {
            for (row, same) in [(0, false), (1, true)] {
                let mut changed = zeros.clone();
                *cell(&mut changed, row) = 7;
                assert_eq!(changed.in_use(&position) == zeros.in_use(&position), same);
            }
        }
    }
}
