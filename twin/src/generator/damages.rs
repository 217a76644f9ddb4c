//! Tables that are changed from outside: at a rule's edge, or anywhere.

use super::dice::Dice;
use crate::image::{table_bytes, TABLE};
use crate::table::{Farm, Place, Request, Row, State, Table, ALIVE_CHECK, GENERAL, INITIAL, SEATS};

/// The bytes of a table that differs from this one in one thing, on one side of a rule or the other.
pub fn at_an_edge(dice: &mut Dice, table: &Table, testers: &[u16]) -> [u8; TABLE] {
    let mut table = table.clone();
    let number = if dice.percent(90) { busiest(dice, &table) } else { dice.below(4) };
    change(dice, &mut table.farms[number], testers);
    table_bytes(&table)
}

/// A farm with an open row, if there is one.
fn busiest(dice: &mut Dice, table: &Table) -> usize {
    let open: Vec<usize> = (0..4).filter(|&number| table.farms[number].open_rows() > 0).collect();
    dice.one_of(&open).unwrap_or(0)
}

fn change(dice: &mut Dice, farm: &mut Farm, testers: &[u16]) {
    let open: Vec<usize> = (0..SEATS).filter(|&seat| farm.rows[seat].is_open()).collect();
    let seat = match dice.one_of(&open) {
        Some(seat) if dice.percent(95) => seat,
        _ => dice.below(SEATS),
    };
    let active: Vec<u16> = farm.rows.iter().filter_map(Row::active).collect();
    let some = if dice.percent(40) { dice.one_of(&active) } else { dice.one_of(testers) };
    let tester = some.unwrap_or(0x0E00);
    match dice.below(12) {
        0..=3 => near_a_limit(dice, farm, seat),
        4 => farm.meters.taken = dice.pick(&[0, 0xFFFF_FFFF, 0xFFFF_FFF0]),
        5 => farm.meters.finished = dice.pick(&[0, 0xFFFF_FFFF, 0xFFFF_FFF0]),
        6 => farm.marks[seat] ^= true,
        7 => change_line(dice, farm, seat),
        8..=9 => farm.rows[seat] = other_place(dice, farm.rows[seat]),
        10 => farm.rows[seat].state = State::Active { tester, idle: dice.below(100) as u16 },
        _ => {
            let kind = dice.pick(&[0, 1, 2]);
            farm.rows[seat].state = State::Waiting(Request { address: tester, kind });
            if farm.line.len() < SEATS && dice.percent(70) {
                farm.line.push(seat);
            }
        }
    }
}

/// Clocks are set so that they reach their limits in one and the same tick, or stand at them already.
fn near_a_limit(dice: &mut Dice, farm: &mut Farm, seat: usize) {
    let left = dice.below(5) as u16;
    if !farm.line.is_empty() && dice.percent(60) {
        farm.clock = ALIVE_CHECK - left;
    }
    match &mut farm.rows[seat].state {
        State::Fresh { age } => *age = INITIAL - left,
        State::Active { idle, .. } => *idle = GENERAL - left,
        State::Waiting(_) => farm.clock = ALIVE_CHECK - left,
        State::Free => farm.clock = left,
    }
}

fn change_line(dice: &mut Dice, farm: &mut Farm, seat: usize) {
    match dice.below(4) {
        0 => farm.line.reverse(),
        1 => drop(farm.line.pop()),
        2 if farm.line.len() < SEATS => farm.line.push(seat),
        _ => {
            if let Some(head) = farm.line.first_mut() {
                *head = seat;
            }
        }
    }
}

/// The row at another place in its stream, possible or not.
fn other_place(dice: &mut Dice, row: Row) -> Row {
    const TYPES: [u16; 7] = [0x0000, 0x0005, 0x0008, 0x8001, 0x8003, 0x0007, 0x4001];
    const LENGTHS: [u32; 9] = [0, 1, 2, 7, 8, 11, 2_048, 2_049, 0xFFFF_FFFF];
    const RIGHT: [(u16, u32); 6] = [(0, 1), (5, 7), (5, 11), (8, 2), (0x8001, 5), (0x8001, 2_048)];
    let (message_type, length) = match dice.percent(50) {
        true => dice.pick(&RIGHT),
        false => (dice.pick(&TYPES), dice.pick(&LENGTHS)),
    };
    let mut header = [0; 8];
    header[..2].copy_from_slice(&[0x03, if dice.percent(90) { 0xFC } else { 0xFD }]);
    header[2..4].copy_from_slice(&message_type.to_be_bytes());
    header[4..].copy_from_slice(&u32::to_be_bytes(length));
    let count = match dice.below(4) {
        0 => 0,
        1 => length.saturating_sub(1),
        2 => length,
        _ => length / 2,
    };
    let place = match dice.below(3) {
        0 => {
            let count = dice.between(0, 8);
            header[count..].fill(0);
            Place::Header(count as u8)
        }
        1 => Place::Reading(count),
        _ => Place::Skipping(count),
    };
    Row { state: row.state, place, header }
}

/// The table with a row in the midst of an 8001 of `length` bytes.
pub fn half_read(table: &Table, farm: usize, seat: usize, count: u32, length: u32) -> [u8; TABLE] {
    let mut table = table.clone();
    let row = &mut table.farms[farm].rows[seat];
    row.place = Place::Reading(count);
    row.header[..4].copy_from_slice(&[0x03, 0xFC, 0x80, 0x01]);
    row.header[4..].copy_from_slice(&length.to_be_bytes());
    table_bytes(&table)
}

/// The shortest run of bytes that makes one table of the other: its place and the bytes.
pub fn difference(old: &[u8; TABLE], new: &[u8; TABLE]) -> Option<(usize, Vec<u8>)> {
    let first = (0..TABLE).find(|&at| old[at] != new[at])?;
    let last = (0..TABLE).rfind(|&at| old[at] != new[at])?;
    Some((first, new[first..=last].to_vec()))
}

/// Some bytes somewhere; the last ones may fall past the table's end.
pub fn anywhere(dice: &mut Dice) -> (usize, Vec<u8>) {
    let place = if dice.percent(97) { dice.below(TABLE) } else { dice.between(TABLE - 2, 0xFFFF) };
    let count = if dice.percent(80) { 1 } else { dice.below(30) };
    let bytes = match dice.below(3) {
        0 => vec![0; count],
        1 => (0..count).map(|_| dice.pick(&[0, 1, 2, 3, 4, 9, 0xFF])).collect(),
        _ => dice.bytes(count),
    };
    (place, bytes)
}
