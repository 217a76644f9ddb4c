//! The table: what a farm's part of it holds.

use crate::sheet::Seat;
use crate::wire;

/// "Each farm has [..] its at most nine rows"
pub const SEATS: usize = 9;

/// "Limits of 001 in ticks: initial 200, alive check 50, general 30,000."
pub const INITIAL: u16 = 200;
pub const ALIVE_CHECK: u16 = 50;
pub const GENERAL: u16 = 30_000;

/// What is kept of an activation request: "all after the type are ignored".
#[derive(Clone, Copy, Debug, PartialEq, Eq)]
pub struct Request {
    pub address: u16,
    pub kind: u8,
}

/// "A row is free, fresh with its age, waiting with its request, or active with its tester's
/// address and idle count."
#[derive(Clone, Copy, Debug, PartialEq, Eq)]
pub enum State {
    Free,
    Fresh { age: u16 },
    Waiting(Request),
    Active { tester: u16, idle: u16 },
}

/// "An open row also knows its place in the byte stream."
#[derive(Clone, Copy, Debug, PartialEq, Eq)]
pub enum Place {
    /// So many bytes of a header are in; none between two messages.
    Header(u8),
    /// So many bytes of the payload are read.
    Reading(u32),
    /// So many bytes of the payload are skipped.
    Skipping(u32),
}

pub const BETWEEN: Place = Place::Header(0);

#[derive(Clone, Copy, Debug, PartialEq, Eq)]
pub struct Row {
    pub state: State,
    pub place: Place,
    /// The header's bytes as they came; 0 where none came yet.
    pub header: [u8; 8],
}

impl Row {
    pub const FREE: Row = Row { state: State::Free, place: BETWEEN, header: [0; 8] };

    pub fn is_open(&self) -> bool {
        self.state != State::Free
    }

    /// The tester's address of an active row.
    pub fn active(&self) -> Option<u16> {
        match self.state {
            State::Active { tester, .. } => Some(tester),
            State::Free | State::Fresh { .. } | State::Waiting(_) => None,
        }
    }

    /// The bytes taken of a message that is not finished.
    pub fn in_hand(&self) -> u64 {
        match self.place {
            Place::Header(count) => u64::from(count),
            Place::Reading(count) | Place::Skipping(count) => 8 + u64::from(count),
        }
    }

    pub fn length(&self) -> u32 {
        wire::length_of(&self.header)
    }

    /// The message in hand is finished: the next byte begins a header.
    pub fn stand_between(&mut self) {
        self.place = BETWEEN;
        self.header = [0; 8];
    }
}

/// "Per farm, u32, wrapping on purpose"
#[derive(Clone, Copy, Debug, Default, PartialEq, Eq)]
pub struct Meters {
    pub taken: u32,
    pub finished: u32,
    pub lost: u32,
}

impl Meters {
    pub fn take(&mut self, amount: usize) {
        self.taken = self.taken.wrapping_add(amount as u32);
    }

    pub fn finish(&mut self, amount: u64) {
        self.finished = self.finished.wrapping_add(amount as u32);
    }

    pub fn lose(&mut self, amount: u64) {
        self.lost = self.lost.wrapping_add(amount as u32);
    }
}

/// "Each farm has a line of waiting rows, one check clock, a mark "answered" for each of its at
/// most nine rows, kept by value, and three meters."
#[derive(Clone, Debug, PartialEq, Eq)]
pub struct Farm {
    pub meters: Meters,
    pub line: Vec<Seat>,
    pub clock: u16,
    pub marks: [bool; SEATS],
    pub rows: [Row; SEATS],
}

impl Farm {
    /// "A new table holds all rows free and all meters 0."
    pub fn new() -> Farm {
        Farm {
            meters: Meters::default(),
            line: Vec::new(),
            clock: 0,
            marks: [false; SEATS],
            rows: [Row::FREE; SEATS],
        }
    }

    /// The seat on which this tester is active.
    pub fn seat_of(&self, tester: u16) -> Option<Seat> {
        self.rows.iter().position(|row| row.active() == Some(tester))
    }

    pub fn active_rows(&self) -> usize {
        self.rows.iter().filter(|row| row.active().is_some()).count()
    }

    pub fn open_rows(&self) -> usize {
        self.rows.iter().filter(|row| row.is_open()).count()
    }

    /// "An empty line has clock 0 and no marks."
    pub fn has_no_check(&self) -> bool {
        self.clock == 0 && self.marks == [false; SEATS]
    }
}

#[derive(Clone, Debug, PartialEq, Eq)]
pub struct Table {
    pub farms: [Farm; 4],
}

impl Table {
    pub fn new() -> Table {
        Table { farms: [Farm::new(), Farm::new(), Farm::new(), Farm::new()] }
    }
}
