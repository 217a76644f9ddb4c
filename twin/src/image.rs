//! The table in bytes, as docs/TABLE.md lays it out: 213 bytes for each of four farms.
//!
//! Between calls the twin keeps the table as values. Only a `damage` record needs the bytes.

use crate::table::{Farm, Meters, Place, Request, Row, State, Table, SEATS};

pub const BLOCK: usize = 213;
pub const TABLE: usize = 4 * BLOCK;

const ROWS_AT: usize = 33;
const ROW: usize = 20;

/// The table as it is lent: a table's values, or bytes that are the image of none.
#[allow(clippy::large_enum_variant)] // there is only one of it
pub enum Lent {
    Table(Table),
    NoTable([u8; TABLE]),
}

impl Lent {
    pub fn bytes(&self) -> [u8; TABLE] {
        match self {
            Lent::Table(table) => table_bytes(table),
            Lent::NoTable(bytes) => *bytes,
        }
    }

    /// "these bytes are written over the lent table from that place on; what falls past its end is
    /// left out"
    pub fn damage(&mut self, place: usize, damage: &[u8]) {
        let mut bytes = self.bytes();
        for (old, new) in bytes.iter_mut().skip(place).zip(damage) {
            *old = *new;
        }
        *self = match read_table(&bytes) {
            Some(table) => Lent::Table(table),
            None => Lent::NoTable(bytes),
        };
    }

    /// The meters stand at the start of a farm's block, whatever the rest of it is.
    pub fn meters(&self, farm: usize) -> Meters {
        match self {
            Lent::Table(table) => table.farms[farm].meters,
            Lent::NoTable(bytes) => read_meters(&bytes[BLOCK * farm..]),
        }
    }
}

pub fn table_bytes(table: &Table) -> [u8; TABLE] {
    let mut bytes = [0; TABLE];
    for (block, farm) in bytes.chunks_exact_mut(BLOCK).zip(&table.farms) {
        write_farm(block, farm);
    }
    bytes
}

fn write_farm(block: &mut [u8], farm: &Farm) {
    block[0..4].copy_from_slice(&farm.meters.taken.to_be_bytes());
    block[4..8].copy_from_slice(&farm.meters.finished.to_be_bytes());
    block[8..12].copy_from_slice(&farm.meters.lost.to_be_bytes());
    block[12] = farm.line.len() as u8;
    for (place, seat) in farm.line.iter().enumerate() {
        block[13 + place] = *seat as u8;
    }
    block[22..24].copy_from_slice(&farm.clock.to_be_bytes());
    for seat in 0..SEATS {
        block[24 + seat] = u8::from(farm.marks[seat]);
        write_row(&mut block[ROWS_AT + ROW * seat..][..ROW], &farm.rows[seat]);
    }
}

fn write_row(bytes: &mut [u8], row: &Row) {
    let (tag, kind, address, ticks) = match row.state {
        State::Free => (0, 0, 0, 0),
        State::Fresh { age } => (1, 0, 0, age),
        State::Waiting(request) => (2, request.kind, request.address, 0),
        State::Active { tester, idle } => (3, 0, tester, idle),
    };
    let (place, count) = match row.place {
        Place::Header(count) => (0, u32::from(count)),
        Place::Reading(count) => (1, count),
        Place::Skipping(count) => (2, count),
    };
    bytes[0] = tag;
    bytes[1] = kind;
    bytes[2..4].copy_from_slice(&address.to_be_bytes());
    bytes[4..6].copy_from_slice(&ticks.to_be_bytes());
    bytes[6] = place;
    bytes[7..11].copy_from_slice(&count.to_be_bytes());
    bytes[11..19].copy_from_slice(&row.header);
    bytes[19] = 0;
}

/// The table that these bytes are the image of.
fn read_table(bytes: &[u8; TABLE]) -> Option<Table> {
    let mut table = Table::new();
    for (farm, block) in table.farms.iter_mut().zip(bytes.chunks_exact(BLOCK)) {
        *farm = read_farm(block)?;
    }
    Some(table)
}

fn u16_at(bytes: &[u8], at: usize) -> u16 {
    u16::from_be_bytes([bytes[at], bytes[at + 1]])
}

fn u32_at(bytes: &[u8], at: usize) -> u32 {
    u32::from_be_bytes([bytes[at], bytes[at + 1], bytes[at + 2], bytes[at + 3]])
}

fn read_meters(block: &[u8]) -> Meters {
    Meters { taken: u32_at(block, 0), finished: u32_at(block, 4), lost: u32_at(block, 8) }
}

/// "a tag is at most 3 and a place at most 2; what the tables above give as 0 is 0; the count of
/// the line is at most 9 and the seats past it are 0; each mark is 0 or 1." (docs/TABLE.md)
fn read_farm(block: &[u8]) -> Option<Farm> {
    let waiting = usize::from(block[12]);
    let seats = &block[13..22];
    if waiting > SEATS || seats[waiting..].iter().any(|&seat| seat != 0) {
        return None;
    }
    let mut farm = Farm::new();
    farm.meters = read_meters(block);
    farm.line = seats[..waiting].iter().map(|&seat| usize::from(seat)).collect();
    farm.clock = u16_at(block, 22);
    for seat in 0..SEATS {
        farm.marks[seat] = match block[24 + seat] {
            0 => false,
            1 => true,
            _ => return None,
        };
        farm.rows[seat] = read_row(&block[ROWS_AT + ROW * seat..][..ROW])?;
    }
    Some(farm)
}

fn read_row(bytes: &[u8]) -> Option<Row> {
    let (kind, address, ticks) = (bytes[1], u16_at(bytes, 2), u16_at(bytes, 4));
    let state = match (bytes[0], kind, address, ticks) {
        (0, 0, 0, 0) => State::Free,
        (1, 0, 0, age) => State::Fresh { age },
        (2, kind, address, 0) => State::Waiting(Request { address, kind }),
        (3, 0, tester, idle) => State::Active { tester, idle },
        _ => return None,
    };
    let count = u32_at(bytes, 7);
    let place = match bytes[6] {
        0 => Place::Header(u8::try_from(count).ok()?),
        1 => Place::Reading(count),
        2 => Place::Skipping(count),
        _ => return None,
    };
    let header = bytes[11..19].try_into().ok()?;
    (bytes[19] == 0).then_some(Row { state, place, header })
}
