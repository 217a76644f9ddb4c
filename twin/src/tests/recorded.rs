//! Datagrams, damaged tables, and the file of recorded calls.

use super::*;
use crate::day::replay;
use crate::image::TABLE;

fn datagram(bench: &mut Bench, text: &str) -> String {
    let (answer, said) = bench.call(Call::Datagram(FarmNo(0), &hex(text)));
    assert_eq!((answer.number, answer.row, answer.taken), (0, 255, 0));
    said
}

#[test]
fn a56_to_a62_datagrams() {
    let mut bench = bench(2);
    bench.connect(0);
    bench.connect(0);
    let vin = "56".repeat(17);
    let announcement = format!("03FC 0004 00000020 {vin} 1000 E0E0E0E0E0E0 606060606060 00");
    let announced = entries(&[(255, 1, &announcement)]);
    let silent = ["", "03FC 0001 000000", "03FD 0000 00000000", "03FC 0000 00000005 00"];
    for text in silent {
        assert_eq!(datagram(&mut bench, text), NOTHING);
    }
    for text in ["03FC 0001 00000000", "FF00 0001 00000000", "FF00 0002 00000006 E0E0E0E0E0E0"] {
        assert_eq!(datagram(&mut bench, text), announced);
    }
    assert_eq!(datagram(&mut bench, &format!("03FC 0003 00000011 {vin}")), announced);
    assert_eq!(datagram(&mut bench, "03FC 0002 00000006 E0E0E0E0E0E1"), NOTHING);
    for length in [32, 33] {
        let text = format!("03FC 0004 {length:08x} {}", "00".repeat(length));
        assert_eq!(datagram(&mut bench, &text), NOTHING);
    }
    let wrong = [
        ("FF00 4001 00000000", 0x00),
        ("FF00 0004 00000000", 0x00),
        ("FF00 0005 00000000", 0x00),
        ("02FD 0001 00000000", 0x00),
        ("FF00 0001 00000001 00", 0x04),
        ("03FC 0005 00000007 0E00 00 00000000", 0x01),
        ("03FC 0007 FFFFFFFF", 0x01),
        ("03FC 0001 00000801", 0x04),
        ("03FC 0001 00000000 00", 0x04),
        ("03FC 0002 00000006 E0E0E0E0E0", 0x04),
    ];
    for (text, code) in wrong {
        assert_eq!(datagram(&mut bench, text), entries(&[(255, 1, &nack(code))]), "{text}");
    }
    let status = "03FC 4002 00000007 00 02 02 00000800";
    assert_eq!(datagram(&mut bench, "03FC 4001 00000000"), entries(&[(255, 1, status)]));
    assert_eq!(datagram(&mut bench, "03FC 4003 00000000"), entries(&[(255, 1, "03FC 4004 00000001 00")]));
    assert_eq!(bench.refused(Call::Datagram(FarmNo(2), &[])), 5);
}

/// The example of docs/TABLE.md, as farm 0 of `bench(2)`.
#[test]
fn the_tables_example() {
    let block = "0000003A 00000037 00000000 01 020000000000000000 0007 010000000000000000
        03 00 0E00 0003 00 00000000 0000000000000000 00
        03 00 0E01 012C 00 00000003 03FC800000000000 00
        02 00 0E02 0000 00 00000000 0000000000000000 00";
    let block = hex(&block.replace('\n', ""));
    let mut bench = bench(2);
    bench.0.table.damage(0, &block);
    assert_eq!(bench.0.table.bytes()[..block.len()], block);
    bench.quiet(42);
    assert_eq!(bench.tick(), entries(&[(1, 2, ""), (2, 1, &response(0x0E02, 0x10))]));
    assert_eq!(bench.meters(0), (58, 55, 3));
}

#[test]
fn damage_that_breaks_rule_4() {
    // byte by byte of a table with an active, a waiting and a reading row: (place, value)
    let bad = [
        (12, 10),         // ten wait
        (14, 1),          // a seat past the line's end
        (12, 0),          // nobody in the line, and one waits
        (13, 0),          // an active row in the line
        (23, 50),         // a check clock of 50
        (24, 2),          // a mark that is neither 0 nor 1
        (24, 1),          // the check is already decided
        (25, 1),          // a mark on a row not asked
        (33, 4),          // an unknown tag
        (36, 0xFF),       // an active address that is no tester
        (33 + 20 + 1, 2), // a waiting row whose request would get 06
        (33 + 40 + 6, 3), // an unknown place
        (33 + 60, 1),     // a row beyond the sheet's rows
        (33 + 60 + 11, 1),
        (33 + 19, 1),
        (213 + 23, 1),     // a clock where nobody waits
        (2 * 213 + 23, 1), // the same of a farm beyond the sheet's
        (3 * 213 + 33, 1),
    ];
    let mut bench = bench(2);
    let (_, b, c) = (bench.active(0, 0x0E00), bench.connect(0), bench.connect(0));
    bench.asks(b, 0x0E00);
    bench.bytes(c, "03FC 8001 00000009 0E");
    let good = bench.0.table.bytes();
    for (place, value) in bad {
        bench.0.table.damage(place, &[value]);
        assert_eq!(bench.refused(Call::Tick), 4, "{place} {value}");
        assert_eq!(bench.refused(Call::Connect(FarmNo(9))), 4);
        bench.0.table.damage(0, &good);
    }
    // meters are free, also those of farms beyond the sheet's
    for place in [0, 11, 3 * 213, 3 * 213 + 11] {
        bench.0.table.damage(place, &[0xAB]);
    }
    bench.quiet(1);
    // past the end: left out
    bench.0.table.damage(TABLE - 1, &[1, 1]);
    assert_eq!(bench.refused(Call::Tick), 4);
    bench.0.output_length = 4_095;
    assert_eq!(bench.refused(Call::Start), 2);
    assert_eq!(bench.0.table.bytes()[TABLE - 1], 1);
    bench.0.output_length = 65_536;
    bench.0.assembling_length = 32_769;
    assert_eq!(bench.refused(Call::Start), 3);
    bench.0.assembling_length = 32_768;
    assert_eq!(bench.call(Call::Start).0.number, 0);
    assert_eq!(bench.0.table.bytes(), [0; TABLE]);
}

fn lines(day: &[u8]) -> String {
    let mut text = Vec::new();
    replay(day, |line| text.extend_from_slice(line));
    String::from_utf8(text).unwrap()
}

fn record(kind: u8, fields: &[u8]) -> Vec<u8> {
    let mut bytes = (1 + fields.len() as u16).to_be_bytes().to_vec();
    bytes.push(kind);
    bytes.extend_from_slice(fields);
    bytes
}

#[test]
fn a_day_and_its_lines() {
    assert_eq!(lines(&[]), "end 0\n");
    assert_eq!(lines(&record(6, &[])), "1 255 0 -\nend 1\n");
    let mut day = record(0, &sheet(&[FarmLine(0x1000, 1)], &[(0x0E00, 0)], &[]));
    day.extend(record(1, &[]));
    day.extend(record(2, &[0]));
    day.extend(record(3, &hex("00 03FC 0005 00000007 0E00 00 00000000 03")));
    day.extend(record(4, &[1]));
    let reply = entries(&[(0, 1, &response(0x0E00, 0x10))]);
    let calls = format!("0 255 0 00000004\n0 0 0 00000004\n0 255 15 {reply}\n6 255 0 -\n");
    let meters = "farm 0 taken 15 finished 15 lost 0\n";
    assert_eq!(lines(&day), format!("{calls}{meters}end 4\n"));
    let behind = day.len();
    for end in [&[0][..], &[0, 1], &[0, 3, 3, 0]] {
        let text = lines(&[&day[..], end].concat());
        assert_eq!(text, format!("{calls}{meters}cut at {behind}\n"));
    }
    // no byte, too many, an unknown kind, a start with a field, a connect without one
    for end in ["0000", "8000", "00010B", "00020100", "000102"] {
        let text = lines(&[&day[..], &hex(end)].concat());
        assert_eq!(text, format!("{calls}{meters}bad at {behind}\n"));
    }
    let rooms = record(9, &hex("00010001 00008000"));
    assert_eq!(lines(&rooms), "bad at 0\n");
}

#[test]
fn sheets_that_break_a_rule() {
    let farms = [FarmLine(0x0010, 7), FarmLine(0x2000, 7)];
    let testers = [(0x0E00, 0), (0x0E01, 1)];
    let good = sheet(&farms, &testers, &[(0x1010, 0, 1), (0x1011, 1, 0)]);
    assert!(Sheet::read(&good).is_some());
    for length in 0..good.len() {
        assert!(Sheet::read(&good[..length]).is_none());
    }
    assert!(Sheet::read(&[&good[..], &[0]].concat()).is_none());
    let (testers_at, targets_at) = (12 + 66, 12 + 66 + 8);
    let bad = [
        (1, 0),                 // no farm
        (7, 13),                // a section that begins elsewhere
        (13, 0),                // an entity address of 0
        (14, 0),                // no quota
        (14, 9),                // a quota of nine
        (14, 8),                // seventeen rows
        (15, 3),                // a power mode of three
        (testers_at + 2, 2),    // a farm that is not there
        (testers_at + 3, 1),    // not zero
        (testers_at + 5, 0),    // the same tester again
        (targets_at + 3, 2),    // neither reachable nor not
        (targets_at + 5, 0x10), // the same target again
        (targets_at, 0xFF),     // not ascending
    ];
    for (place, value) in bad {
        let mut bytes = good.clone();
        bytes[place] = value;
        assert!(Sheet::read(&bytes).is_none(), "{place}");
    }
    // nobody listed, and the greatest address
    assert!(Sheet::read(&sheet(&[FarmLine(1, 8)], &[], &[])).is_some());
    assert!(Sheet::read(&sheet(&[FarmLine(1, 8)], &[(0xFFFF, 0)], &[(0xFFFF, 0, 1)])).is_some());
}
