//! What must hold on every random day, whatever the answers are.

use crate::day::{carry_out, read_record, Record};
use crate::gateway::{Call, Rig};
use crate::generator;
use crate::image::Lent;
use crate::rule4::keeps_rules;
use crate::table::Table;

/// The records of a day that is whole up to its last few bytes.
fn records(day: &[u8]) -> Vec<Record<'_>> {
    let (mut list, mut rest) = (Vec::new(), day);
    while let Some((length, behind)) = rest.split_first_chunk::<2>() {
        let length = usize::from(u16::from_be_bytes(*length));
        let Some(bytes) = behind.get(..length).filter(|bytes| !bytes.is_empty()) else { break };
        let Some(record) = read_record(bytes[0], &bytes[1..]) else { break };
        list.push(record);
        rest = &behind[length..];
    }
    list
}

/// taken - finished - lost - in hand, of each farm, modulo 2^32.
fn differences(table: &Table) -> [u32; 4] {
    [0, 1, 2, 3].map(|number: usize| {
        let farm = &table.farms[number];
        let in_hand = farm.rows.iter().map(|row| row.in_hand() as u32).fold(0, u32::wrapping_add);
        let meters = farm.meters;
        [meters.finished, meters.lost, in_hand].into_iter().fold(meters.taken, u32::wrapping_sub)
    })
}

fn sound(rig: &Rig) -> Option<&Table> {
    match (&rig.sheet, &rig.table) {
        (Some(sheet), Lent::Table(table)) if keeps_rules(sheet, table) => Some(table),
        _ => None,
    }
}

/// An accepted call on a table that keeps the rules leaves one that keeps them (C3), and keeps the
/// difference of the meters (C4). A refused one changes no byte of the table.
#[test]
fn rules_and_meters_are_kept() {
    for seed in 100..130 {
        let day = generator::day(seed, 1_000);
        let mut rig = Rig::new();
        for record in records(&day) {
            let (before, meters) = (rig.table.bytes(), sound(&rig).map(differences));
            let Some(answer) = carry_out(&mut rig, record) else { continue };
            if answer.number != 0 {
                assert_eq!(rig.table.bytes(), before);
            } else if let Record::Call(Call::Start) = record {
                assert_eq!(sound(&rig).map(differences), Some([0; 4]));
            } else {
                assert!(meters.is_some());
                assert_eq!(sound(&rig).map(differences), meters);
            }
        }
    }
}

/// A row's bytes may be cut in any way (C6): byte by byte the entries and the table are the same.
#[test]
fn cutting_changes_nothing() {
    for seed in 200..220 {
        let day = generator::day(seed, 600);
        let (mut whole, mut cut) = (Rig::new(), Rig::new());
        for record in records(&day) {
            let Some(answer) = carry_out(&mut whole, record) else {
                carry_out(&mut cut, record);
                continue;
            };
            let entries = whole.out.sheet();
            match record {
                Record::Call(Call::Bytes(row, input)) if answer.taken > 0 => {
                    let mut said = Vec::new();
                    for byte in &input[..answer.taken] {
                        assert_eq!(cut.call(Call::Bytes(row, &[*byte])).taken, 1);
                        if cut.out.sheet() != [0, 0, 0, 4] {
                            said.push(cut.out.sheet());
                        }
                    }
                    let once = if entries == [0, 0, 0, 4] { vec![] } else { vec![entries] };
                    assert_eq!(said, once);
                }
                _ => assert_eq!((carry_out(&mut cut, record), cut.out.sheet()), (Some(answer), entries)),
            }
            assert_eq!(cut.table.bytes(), whole.table.bytes());
        }
    }
}

#[test]
fn a_seed_gives_one_day() {
    assert_eq!(generator::day(5, 500), generator::day(5, 500));
    assert_ne!(generator::day(5, 500), generator::day(6, 500));
}
