//! What a host lends; an event and a stream fed to it and a row read of it, through the C boundary.

/// The chart's limits, as document 01 has them: rows of each table, and the text charge.
pub const LIMITS: [usize; 12] = [1, 256, 512, 512, 2_048, 64, 256, 512, 4_096, 32, 32, 64];
pub const CHARGE: usize = 65_535;
/// A row as it is read: 50 numbers, lowest byte first.
pub const BYTES: usize = 200;

#[repr(C)]
#[derive(Debug, Clone, Copy, Default, PartialEq, Eq)]
pub struct Position {
    pub opened: u32,
    pub states: u32,
    pub transitions: u32,
    pub regions: u32,
    pub entries: u32,
    pub invokes: u32,
    pub datums: u32,
    pub parameters: u32,
    pub members: u32,
    pub open_regions: u32,
    pub current: u32,
    pub ids: u32,
    pub docs: u32,
    pub names: u32,
    pub used: u32,
    pub charge: u32,
}

impl Position {
    /// One of its numbers, in the order of declaration.
    fn number(&mut self, place: usize) -> Option<&mut u32> {
        let numbers = [
            &mut self.opened,
            &mut self.states,
            &mut self.transitions,
            &mut self.regions,
            &mut self.entries,
            &mut self.invokes,
            &mut self.datums,
            &mut self.parameters,
            &mut self.members,
            &mut self.open_regions,
            &mut self.current,
            &mut self.ids,
            &mut self.docs,
            &mut self.names,
            &mut self.used,
            &mut self.charge,
        ];
        numbers.into_iter().nth(place)
    }

    /// Rows in use of each table after the chart's, in the order of `LIMITS`. An open element has a row in two tables.
    pub fn rows(&self) -> [u32; 11] {
        [
            self.states,
            self.transitions,
            self.regions,
            self.entries,
            self.invokes,
            self.datums,
            self.parameters,
            self.members,
            self.opened,
            self.opened,
            self.open_regions,
        ]
    }
}

#[derive(Debug, Clone, PartialEq, Eq)]
pub struct Lent {
    pub chart: Vec<[u32; 24]>,
    pub states: Vec<[u32; 24]>,
    pub transitions: Vec<[u32; 8]>,
    pub regions: Vec<[u32; 8]>,
    pub entries: Vec<[u32; 48]>,
    pub invokes: Vec<[u32; 24]>,
    pub datums: Vec<[u32; 8]>,
    pub parameters: Vec<[u32; 8]>,
    pub members: Vec<[u32; 8]>,
    pub opened: Vec<[u32; 8]>,
    pub open_names: Vec<[u8; 64]>,
    pub open_regions: Vec<[u32; 8]>,
    pub text: Vec<u8>,
    pub position: Position,
}

/// A number, and the position that comes back.
#[repr(C)]
#[derive(Debug, Clone, Copy, PartialEq, Eq)]
pub struct Answer {
    pub number: u32,
    pub position: Position,
}

/// event: the refused event's place, from 1.
#[repr(C)]
#[derive(Debug, Clone, Copy, PartialEq, Eq)]
pub struct Streamed {
    pub number: u32,
    pub event: usize,
    pub position: Position,
}

/// A function over everything that is lent: each slice is a pointer and its number of rows, then comes the position.
macro_rules! over_slices {
    ($name:ident, $access:tt, ($($more:ident: $kind:ty),*) -> $answer:ty) => {
        extern "C" {
            fn $name(
                chart: *$access [u32; 24],
                chart_rows: usize,
                states: *$access [u32; 24],
                states_rows: usize,
                transitions: *$access [u32; 8],
                transitions_rows: usize,
                regions: *$access [u32; 8],
                regions_rows: usize,
                entries: *$access [u32; 48],
                entries_rows: usize,
                invokes: *$access [u32; 24],
                invokes_rows: usize,
                datums: *$access [u32; 8],
                datums_rows: usize,
                parameters: *$access [u32; 8],
                parameters_rows: usize,
                members: *$access [u32; 8],
                members_rows: usize,
                opened: *$access [u32; 8],
                opened_rows: usize,
                open_names: *$access [u8; 64],
                open_names_rows: usize,
                open_regions: *$access [u32; 8],
                open_regions_rows: usize,
                text: *$access u8,
                text_bytes: usize,
                position: Position,
                $($more: $kind),*
            ) -> $answer;
        }
    };
}

over_slices!(chart_event, mut, (raw: *const u8, bytes: usize) -> Answer);
over_slices!(chart_stream, mut, (raw: *const u8, bytes: usize) -> Streamed);
over_slices!(chart_read_row, const, (kind: u32, number: u32, out: *mut u8, bytes: usize) -> u32);

/// Calls one of them. Nothing is kept after the call.
macro_rules! lend {
    ($name:ident, $lent:expr, $pointer:ident, $($more:expr),*) => {
        unsafe {
            $name(
                $lent.chart.$pointer(),
                $lent.chart.len(),
                $lent.states.$pointer(),
                $lent.states.len(),
                $lent.transitions.$pointer(),
                $lent.transitions.len(),
                $lent.regions.$pointer(),
                $lent.regions.len(),
                $lent.entries.$pointer(),
                $lent.entries.len(),
                $lent.invokes.$pointer(),
                $lent.invokes.len(),
                $lent.datums.$pointer(),
                $lent.datums.len(),
                $lent.parameters.$pointer(),
                $lent.parameters.len(),
                $lent.members.$pointer(),
                $lent.members.len(),
                $lent.opened.$pointer(),
                $lent.opened.len(),
                $lent.open_names.$pointer(),
                $lent.open_names.len(),
                $lent.open_regions.$pointer(),
                $lent.open_regions.len(),
                $lent.text.$pointer(),
                $lent.text.len(),
                $lent.position,
                $($more),*
            )
        }
    };
}

impl Lent {
    /// Zeros up to every limit, and the empty chart's position.
    pub fn zeros() -> Lent {
        Lent {
            chart: vec![[0; 24]; LIMITS[0]],
            states: vec![[0; 24]; LIMITS[1]],
            transitions: vec![[0; 8]; LIMITS[2]],
            regions: vec![[0; 8]; LIMITS[3]],
            entries: vec![[0; 48]; LIMITS[4]],
            invokes: vec![[0; 24]; LIMITS[5]],
            datums: vec![[0; 8]; LIMITS[6]],
            parameters: vec![[0; 8]; LIMITS[7]],
            members: vec![[0; 8]; LIMITS[8]],
            opened: vec![[0; 8]; LIMITS[9]],
            open_names: vec![[0; 64]; LIMITS[10]],
            open_regions: vec![[0; 8]; LIMITS[11]],
            text: vec![0; CHARGE],
            position: Position::default(),
        }
    }

    /// Whether two have the same bytes; compared as plain numbers, since there are many.
    pub fn same(&self, other: &Lent) -> bool {
        self.position == other.position
            && self.text == other.text
            && self.open_names.as_flattened() == other.open_names.as_flattened()
            && self.tables() == other.tables()
    }

    /// All but the text.
    pub fn same_numbers(&self, other: &Lent) -> bool {
        self.position == other.position && self.open_names == other.open_names && self.tables() == other.tables()
    }

    /// A number of a table's row, or of the position (12), becomes another. Columns and rows past the last do nothing.
    pub fn set(&mut self, kind: usize, row: usize, column: usize, value: u32) {
        let cell = match kind {
            0 => self.chart.get_mut(row).and_then(|r| r.get_mut(column)),
            1 => self.states.get_mut(row).and_then(|r| r.get_mut(column)),
            2 => self.transitions.get_mut(row).and_then(|r| r.get_mut(column)),
            3 => self.regions.get_mut(row).and_then(|r| r.get_mut(column)),
            4 => self.entries.get_mut(row).and_then(|r| r.get_mut(column)),
            5 => self.invokes.get_mut(row).and_then(|r| r.get_mut(column)),
            6 => self.datums.get_mut(row).and_then(|r| r.get_mut(column)),
            7 => self.parameters.get_mut(row).and_then(|r| r.get_mut(column)),
            8 => self.members.get_mut(row).and_then(|r| r.get_mut(column)),
            9 => self.opened.get_mut(row).and_then(|r| r.get_mut(column)),
            11 => self.open_regions.get_mut(row).and_then(|r| r.get_mut(column)),
            12 => self.position.number(column),
            _ => None,
        };
        if let Some(cell) = cell {
            *cell = value;
        }
        if let Some(byte) = self.open_names.get_mut(row).filter(|_| kind == 10).and_then(|name| name.get_mut(column)) {
            *byte = value as u8;
        }
    }

    /// One slice (12: the text) is one row too short.
    pub fn shorten(&mut self, kind: usize) {
        match kind {
            0 => _ = self.chart.pop(),
            1 => _ = self.states.pop(),
            2 => _ = self.transitions.pop(),
            3 => _ = self.regions.pop(),
            4 => _ = self.entries.pop(),
            5 => _ = self.invokes.pop(),
            6 => _ = self.datums.pop(),
            7 => _ = self.parameters.pop(),
            8 => _ = self.members.pop(),
            9 => _ = self.opened.pop(),
            10 => _ = self.open_names.pop(),
            11 => _ = self.open_regions.pop(),
            _ => _ = self.text.pop(),
        }
    }

    fn tables(&self) -> [&[u32]; 11] {
        [
            self.chart.as_flattened(),
            self.states.as_flattened(),
            self.transitions.as_flattened(),
            self.regions.as_flattened(),
            self.entries.as_flattened(),
            self.invokes.as_flattened(),
            self.datums.as_flattened(),
            self.parameters.as_flattened(),
            self.members.as_flattened(),
            self.opened.as_flattened(),
            self.open_regions.as_flattened(),
        ]
    }

    /// The row of a kind and number into the asker's buffer.
    pub fn read_into(&self, kind: u32, number: u32, out: &mut [u8]) -> u32 {
        lend!(chart_read_row, self, as_ptr, kind, number, out.as_mut_ptr(), out.len())
    }

    /// One event fed; its number.
    pub fn event(&mut self, raw: &[u8]) -> u32 {
        let answer = lend!(chart_event, self, as_mut_ptr, raw.as_ptr(), raw.len());
        self.position = answer.position;
        answer.number
    }

    /// A stream fed; its number, and the refused event's place.
    pub fn stream(&mut self, bytes: &[u8]) -> (u32, usize) {
        let answer = lend!(chart_stream, self, as_mut_ptr, bytes.as_ptr(), bytes.len());
        self.position = answer.position;
        (answer.number, answer.event)
    }

    /// The number, and the row's 50 numbers.
    pub fn read(&self, kind: u32, number: u32) -> (u32, [u32; 50]) {
        let mut out = [0xee; BYTES];
        let answer = self.read_into(kind, number, &mut out);
        let mut row = [0; 50];
        for (cell, bytes) in row.iter_mut().zip(out.chunks_exact(4)) {
            *cell = u32::from_le_bytes(bytes.try_into().expect("four bytes"));
        }
        (answer, row)
    }

    /// The first no of questions 1 and 2, or 0. There is no row of kind 9: a reading of one gets 16 where both are yes.
    pub fn first_no(&self) -> u32 {
        match self.read(9, 1).0 {
            16 => 0,
            other => other,
        }
    }

    /// A row of a table as the host has it, as numbers.
    pub fn row(&self, kind: u32, place: usize) -> Vec<u32> {
        match kind {
            0 => self.chart[place].to_vec(),
            1 => self.states[place].to_vec(),
            2 => self.transitions[place].to_vec(),
            3 => self.regions[place].to_vec(),
            4 => self.entries[place].to_vec(),
            5 => self.invokes[place].to_vec(),
            6 => self.datums[place].to_vec(),
            7 => self.parameters[place].to_vec(),
            8 => self.members[place].to_vec(),
            _ => panic!("kind {kind}"),
        }
    }

    /// How many rows of a kind are in use.
    pub fn count(&self, kind: u32) -> usize {
        let p = &self.position;
        [1, p.states, p.transitions, p.regions, p.entries, p.invokes, p.datums, p.parameters, p.members][kind as usize]
            as usize
    }
}
