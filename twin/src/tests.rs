//! The worked days of document 01, with the bytes that it gives, and what the tests share.

mod random;
mod readings;
mod recorded;

use crate::gateway::{Answer, Call, Rig};
use crate::image::Lent;
use crate::sheet::{FarmNo, RowNo, Sheet};
use crate::table::Farm;

pub const NOTHING: &str = "00000004";

/// One farm of a test's sheet: entity address and quota.
pub struct FarmLine(pub u16, pub u8);

/// A farm sheet's bytes. Testers: address and farm. Targets: address, farm, reachable.
pub fn sheet(farms: &[FarmLine], testers: &[(u16, u8)], targets: &[(u16, u8, u8)]) -> Vec<u8> {
    let (f, t, g) = (farms.len() as u16, testers.len() as u16, targets.len() as u16);
    let mut bytes = Vec::new();
    for number in [f, t, g, 12, 12 + 33 * f, 12 + 33 * f + 4 * t] {
        bytes.extend(number.to_be_bytes());
    }
    for (number, farm) in farms.iter().enumerate() {
        bytes.extend(farm.0.to_be_bytes());
        bytes.extend([farm.1, number as u8 % 3]);
        bytes.extend([b'V' + number as u8; 17]);
        bytes.extend([0xE0 + number as u8; 6]);
        bytes.extend([0x60 + number as u8; 6]);
    }
    for (address, farm) in testers {
        bytes.extend(address.to_be_bytes());
        bytes.extend([*farm, 0]);
    }
    for (address, farm, reachable) in targets {
        bytes.extend(address.to_be_bytes());
        bytes.extend([*farm, *reachable]);
    }
    bytes
}

pub fn hex(text: &str) -> Vec<u8> {
    let digits: Vec<u8> = text.bytes().filter(|byte| *byte != b' ').collect();
    let read = |pair: &[u8]| u8::from_str_radix(std::str::from_utf8(pair).unwrap(), 16).unwrap();
    digits.chunks(2).map(read).collect()
}

/// The sheet with these entries, each a row, a kind and its bytes.
pub fn entries(list: &[(u8, u8, &str)]) -> String {
    let bodies: Vec<Vec<u8>> = list.iter().map(|entry| hex(entry.2)).collect();
    let head = 4 + 2 * list.len();
    let total = head + bodies.iter().map(|body| 4 + body.len()).sum::<usize>();
    let mut text = format!("{:04x}{:04x}", list.len(), total);
    let mut at = head;
    for body in &bodies {
        text += &format!("{at:04x}");
        at += 4 + body.len();
    }
    for (entry, body) in list.iter().zip(&bodies) {
        text += &format!("{:02x}{:02x}{:04x}", entry.0, entry.1, body.len());
        body.iter().for_each(|byte| text += &format!("{byte:02x}"));
    }
    text
}

/// A rig with a started table, and calls that give the output sheet in hexadecimal.
pub struct Bench(pub Rig);

impl Bench {
    pub fn new(sheet_bytes: &[u8]) -> Bench {
        let mut rig = Rig::new();
        rig.sheet = Sheet::read(sheet_bytes);
        assert!(rig.sheet.is_some());
        assert_eq!(rig.call(Call::Start).number, 0);
        Bench(rig)
    }

    pub fn call(&mut self, call: Call) -> (Answer, String) {
        let answer = self.0.call(call);
        let sheet = self.0.out.sheet();
        (answer, sheet.iter().map(|byte| format!("{byte:02x}")).collect())
    }

    /// A call that is done.
    fn done(&mut self, call: Call) -> String {
        let (answer, sheet) = self.call(call);
        assert_eq!(answer.number, 0, "{call:?}");
        sheet
    }

    pub fn refused(&mut self, call: Call) -> u8 {
        let answer = self.0.call(call);
        assert_eq!((answer.row, answer.taken), (255, 0));
        answer.number
    }

    pub fn connect(&mut self, farm: u8) -> u8 {
        let (answer, sheet) = self.call(Call::Connect(FarmNo(farm)));
        assert_eq!((answer.number, sheet.as_str()), (0, NOTHING));
        answer.row
    }

    /// Bytes of which all are taken.
    pub fn bytes(&mut self, row: u8, text: &str) -> String {
        let input = hex(text);
        let (answer, sheet) = self.call(Call::Bytes(RowNo(row), &input));
        assert_eq!((answer.number, answer.taken), (0, input.len()));
        sheet
    }

    /// Bytes of which only some are taken.
    pub fn some_of(&mut self, row: u8, text: &str) -> (usize, String) {
        let (answer, sheet) = self.call(Call::Bytes(RowNo(row), &hex(text)));
        assert_eq!(answer.number, 0);
        (answer.taken, sheet)
    }

    pub fn asks(&mut self, row: u8, address: u16) -> String {
        self.bytes(row, &format!("03FC 0005 00000007 {address:04x} 00 00000000"))
    }

    pub fn alive(&mut self, row: u8, address: u16) -> String {
        self.bytes(row, &format!("03FC 0008 00000002 {address:04x}"))
    }

    pub fn active(&mut self, farm: u8, address: u16) -> u8 {
        let row = self.connect(farm);
        let reply = self.asks(row, address);
        assert_eq!(&reply[reply.len() - 10..], "1000000000");
        row
    }

    pub fn peer_closed(&mut self, row: u8) -> String {
        self.done(Call::PeerClosed(RowNo(row)))
    }

    pub fn tick(&mut self) -> String {
        self.done(Call::Tick)
    }

    /// So many ticks that say nothing.
    pub fn quiet(&mut self, ticks: usize) {
        for number in 1..=ticks {
            assert_eq!(self.tick(), NOTHING, "tick {number} of {ticks}");
        }
    }

    pub fn farm(&mut self, number: usize) -> &mut Farm {
        let Lent::Table(table) = &mut self.0.table else { panic!("no table") };
        &mut table.farms[number]
    }

    pub fn meters(&mut self, number: usize) -> (u32, u32, u32) {
        let meters = self.farm(number).meters;
        (meters.taken, meters.finished, meters.lost)
    }
}

/// A 0006 of entity 1000.
pub fn response(address: u16, code: u8) -> String {
    format!("03FC 0006 00000009 {address:04x} 1000 {code:02x} 00000000")
}

pub const ALIVE: &str = "03FC 0007 00000000";

pub fn nack(code: u8) -> String {
    format!("03FC 0000 00000001 {code:02x}")
}

/// Entity 1000 with this quota, testers 0E00 to 0E03, target 1010 reachable, 1011 not; a second farm
/// with tester 0F00 and target 1020.
pub fn bench(quota: u8) -> Bench {
    let farms = [FarmLine(0x1000, quota), FarmLine(0x2000, 2)];
    let testers = [(0x0E00, 0), (0x0E01, 0), (0x0E02, 0), (0x0E03, 0), (0x0F00, 1)];
    Bench::new(&sheet(&farms, &testers, &[(0x1010, 0, 1), (0x1011, 0, 0), (0x1020, 1, 1)]))
}

#[test]
fn row_3_activates() {
    let mut bench = bench(3);
    for row in 0..4 {
        assert_eq!(bench.connect(0), row);
    }
    let whole = "00 01 00 1B 00 06 03 01 00 11 03 FC 00 06 00 00 00 09 0E 00 10 00 10 00 00 00 00";
    let said = bench.asks(3, 0x0E00);
    assert_eq!(hex(&said), hex(whole));
}

#[test]
fn a_message_is_accepted_and_handed_on() {
    let mut bench = bench(1);
    let row = bench.active(0, 0x0E00);
    let said = bench.bytes(row, "03FC 8001 00000006 0E00 1010 3E00");
    let ack = "03 FC 80 02 00 00 00 05 10 10 0E 00 00";
    assert_eq!(said, entries(&[(row, 1, ack), (row, 3, "0E00 1010 3E00")]));
}

#[test]
fn a_wrong_pattern_closes() {
    let mut bench = bench(1);
    let row = bench.connect(0);
    let said = bench.bytes(row, "03FD 0005 00000007");
    assert_eq!(said, entries(&[(row, 1, &nack(0x00)), (row, 2, "")]));
}

#[test]
fn length_2048_passes_and_2049_does_not() {
    let mut bench = bench(1);
    let row = bench.active(0, 0x0E00);
    assert_eq!(bench.bytes(row, "03FC 8001 00000800"), NOTHING);
    let payload = "0E001010".to_string() + &"AB".repeat(2044);
    let ack = "03FC 8002 00000005 1010 0E00 00";
    assert_eq!(bench.bytes(row, &payload), entries(&[(row, 1, ack), (row, 3, &payload)]));
    let said = bench.bytes(row, "03FC 8001 00000801");
    assert_eq!(said, entries(&[(row, 1, &nack(0x02))]));
}

#[test]
fn length_4_on_8001_closes_and_0007_of_any_length_is_skipped() {
    let mut bench = bench(1);
    let row = bench.connect(0);
    for length in ["00000000", "00000002", "00000800", "00000801", "FFFFFFFF"] {
        let said = bench.bytes(row, &format!("03FC 0007 {length}"));
        assert_eq!(said, entries(&[(row, 1, &nack(0x01))]));
        bench.peer_closed(row);
        bench.connect(0);
    }
    let said = bench.bytes(row, "03FC 8001 00000004");
    assert_eq!(said, entries(&[(row, 1, &nack(0x04)), (row, 2, "")]));
}

#[test]
fn a_answers_and_b_gets_01() {
    let mut bench = bench(1);
    let (a, b) = (bench.active(0, 0x0E00), bench.connect(0));
    assert_eq!(bench.asks(b, 0x0E01), entries(&[(a, 1, ALIVE)]));
    let said = bench.alive(a, 0x0E00);
    assert_eq!(said, entries(&[(b, 1, &response(0x0E01, 0x01)), (b, 2, "")]));
}

#[test]
fn a_is_silent_and_closes_at_50() {
    let mut bench = bench(1);
    let (a, b) = (bench.active(0, 0x0E00), bench.connect(0));
    assert_eq!(bench.asks(b, 0x0E01), entries(&[(a, 1, ALIVE)]));
    bench.quiet(49);
    assert_eq!(bench.tick(), entries(&[(a, 2, ""), (b, 1, &response(0x0E01, 0x10))]));
}

#[test]
fn b_and_c_ask_for_the_address_of_a() {
    let mut bench = bench(2);
    let (a, b, c) = (bench.active(0, 0x0E00), bench.connect(0), bench.connect(0));
    assert_eq!(bench.asks(b, 0x0E00), entries(&[(a, 1, ALIVE)]));
    assert_eq!(bench.asks(c, 0x0E00), NOTHING);
    bench.quiet(49);
    let said = bench.tick();
    assert_eq!(said, entries(&[(a, 2, ""), (b, 1, &response(0x0E00, 0x10)), (b, 1, ALIVE)]));
    bench.quiet(49);
    assert_eq!(bench.tick(), entries(&[(b, 2, ""), (c, 1, &response(0x0E00, 0x10))]));
}

#[test]
fn a_fresh_row_closes_at_200() {
    let mut bench = bench(1);
    let row = bench.connect(0);
    bench.quiet(199);
    assert_eq!(bench.tick(), entries(&[(row, 2, "")]));
}

#[test]
fn a_tester_of_another_farm_gets_00() {
    let mut bench = bench(1);
    let row = bench.connect(0);
    let said = bench.asks(row, 0x0F00);
    assert_eq!(said, entries(&[(row, 1, &response(0x0F00, 0x00)), (row, 2, "")]));
}

#[test]
fn an_empty_bytes_call() {
    let mut bench = bench(1);
    let (active, fresh) = (bench.active(0, 0x0E00), bench.connect(0));
    assert_eq!(bench.bytes(fresh, ""), NOTHING);
    assert_eq!(bench.bytes(active, ""), NOTHING);
}
