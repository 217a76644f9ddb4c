//! What testers send: messages on TCP, datagrams.

use super::dice::Dice;
use crate::line::{decide, Decision};
use crate::sheet::{Seat, Site};
use crate::table::{Farm, Row, State};
use crate::wire;

pub fn message(pattern: [u8; 2], message_type: u16, length: u32, payload: &[u8]) -> Vec<u8> {
    let mut bytes = pattern.to_vec();
    bytes.extend(message_type.to_be_bytes());
    bytes.extend(length.to_be_bytes());
    bytes.extend_from_slice(payload);
    bytes
}

fn right(message_type: u16, payload: &[u8]) -> Vec<u8> {
    message([0x03, 0xFC], message_type, payload.len() as u32, payload)
}

/// Somebody on a row of a farm, who sends.
pub struct Sender<'a> {
    pub site: Site<'a>,
    pub farm: &'a Farm,
    pub seat: Seat,
    /// Many ask for few addresses, and make few mistakes.
    pub crowd: bool,
}

impl Sender<'_> {
    /// A message that most often does something on this row as it stands.
    pub fn next(&self, dice: &mut Dice) -> Vec<u8> {
        // request, alive, diagnostic, dropped, wrong header
        let weights = match self.farm.rows[self.seat].state {
            State::Active { .. } if self.crowd && self.is_asked() => [2, 30, 65, 2, 1],
            State::Active { .. } if self.crowd => [4, 10, 82, 2, 2],
            State::Fresh { .. } if self.crowd => [90, 2, 1, 3, 4],
            State::Active { .. } if self.is_asked() => [6, 45, 35, 4, 10],
            State::Active { .. } => [10, 10, 60, 8, 12],
            State::Free | State::Fresh { .. } | State::Waiting(_) => [72, 4, 4, 6, 14],
        };
        match dice.weighted(&weights) {
            0 => self.request(dice),
            1 => self.alive(dice),
            2 => self.diagnostic(dice),
            3 => dropped(dice),
            _ => wrong_header(dice),
        }
    }

    fn is_asked(&self) -> bool {
        let Some(&head) = self.farm.line.first() else { return false };
        // a damaged line may name a seat that is not there
        let Some(&Row { state: State::Waiting(request), .. }) = self.farm.rows.get(head) else {
            return false;
        };
        match decide(self.site, self.farm, head, request) {
            Decision::Check(check) => check.asks(self.farm, self.seat),
            Decision::Code(_) => false,
        }
    }

    /// The addresses that are active on the farm, or asked for by its waiters.
    fn used(&self) -> Vec<u16> {
        let used = |state: &State| match *state {
            State::Active { tester, .. } => Some(tester),
            State::Waiting(request) => Some(request.address),
            State::Free | State::Fresh { .. } => None,
        };
        self.farm.rows.iter().filter_map(|row| used(&row.state)).collect()
    }

    fn own(&self) -> Option<u16> {
        self.farm.rows[self.seat].active()
    }

    fn tester(&self, dice: &mut Dice) -> u16 {
        let all = &self.site.sheet.testers;
        let ours = all.iter().filter(|tester| tester.farm == self.site.number);
        let ours: Vec<u16> = ours.map(|tester| tester.address).collect();
        let theirs: Vec<u16> = all.iter().map(|tester| tester.address).collect();
        let found = match dice.weighted(if self.crowd { &[35, 64, 1, 0] } else { &[34, 55, 8, 3] }) {
            0 => dice.one_of(&self.used()).or_else(|| dice.one_of(&ours)),
            1 => dice.one_of(&ours),
            2 => dice.one_of(&theirs),
            _ => None,
        };
        found.unwrap_or_else(|| dice.u16())
    }

    fn request(&self, dice: &mut Dice) -> Vec<u8> {
        let address = match self.own() {
            Some(own) if dice.percent(50) => own,
            _ => self.tester(dice),
        };
        let mut payload = address.to_be_bytes().to_vec();
        payload.push(if dice.percent(5) { dice.pick(&[2, 0xE0]) } else { dice.pick(&[0, 0, 1]) });
        let more = if dice.percent(30) { 8 } else { 4 };
        payload.extend(if dice.percent(70) { vec![0; more] } else { dice.bytes(more) });
        right(wire::ACTIVATION_REQUEST, &payload)
    }

    fn alive(&self, dice: &mut Dice) -> Vec<u8> {
        let address = match self.own() {
            Some(own) if dice.percent(80) => own,
            _ => self.tester(dice),
        };
        right(wire::ALIVE_RESPONSE, &address.to_be_bytes())
    }

    fn diagnostic(&self, dice: &mut Dice) -> Vec<u8> {
        let source = match self.own() {
            Some(own) if self.crowd || dice.percent(96) => own,
            _ => self.tester(dice),
        };
        let mut payload = source.to_be_bytes().to_vec();
        payload.extend(self.target(dice).to_be_bytes());
        let length = match dice.below(100) {
            0..=2 => 2_044,
            3 => dice.between(1_000, 2_044),
            4..=9 => dice.between(20, 300),
            _ => dice.between(1, 12),
        };
        payload.extend(dice.bytes(length));
        right(wire::DIAGNOSTIC, &payload)
    }

    /// A target of this farm, of any farm, or nobody's address.
    pub fn target(&self, dice: &mut Dice) -> u16 {
        let all = &self.site.sheet.targets;
        let ours = all.iter().filter(|target| target.farm == self.site.number);
        let ours: Vec<u16> = ours.map(|target| target.address).collect();
        let theirs: Vec<u16> = all.iter().map(|target| target.address).collect();
        let found = match dice.weighted(&[80, 10, 5, 5]) {
            0 => dice.one_of(&ours),
            1 => dice.one_of(&theirs),
            2 => Some(self.site.record.entity),
            _ => None,
        };
        found.unwrap_or_else(|| dice.u16())
    }

    /// The tester that a controller speaks to.
    pub fn listener(&self, dice: &mut Dice) -> u16 {
        match dice.one_of(&self.used()) {
            Some(address) if dice.percent(80) => address,
            _ => self.tester(dice),
        }
    }
}

/// "0000, 0004, 8002 and 8003 are read and dropped."
fn dropped(dice: &mut Dice) -> Vec<u8> {
    let long = if dice.percent(5) { 2_048 } else { dice.between(5, 40) };
    match dice.below(3) {
        0 => right(wire::NACK, &dice.bytes(1)),
        1 => right(wire::DIAGNOSTIC_ACK, &dice.bytes(long)),
        _ => right(wire::DIAGNOSTIC_NACK, &dice.bytes(long)),
    }
}

/// A header of each kind of fault, with the payload behind it where that is to be skipped.
fn wrong_header(dice: &mut Dice) -> Vec<u8> {
    const TCP: [u16; 6] = [0x0000, 0x0005, 0x0008, 0x8001, 0x8002, 0x8003];
    const STRANGE: [u16; 9] = [0x0001, 0x0002, 0x0004, 0x0006, 0x0007, 0x0007, 0x4001, 0x8000, 0xFFFF];
    const SHORT: [u32; 7] = [0, 0, 1, 2, 7, 30, 300];
    match dice.below(8) {
        // the pattern, with whatever behind it
        0 => {
            let pattern = dice.pick(&[[0x03, 0xFD], [0x02, 0xFD], [0xFF, 0x00], [0xFC, 0x03], [0x00, 0x00]]);
            let (kind, length) = (dice.pick(&TCP), dice.pick(&[7, 11, 2, 5, 3_000]));
            message(pattern, kind, length, &[])
        }
        // an unknown type, of a length that is soon skipped, too long, or never skipped
        1..=4 => {
            let kind = if dice.percent(80) { dice.pick(&STRANGE) } else { dice.u16() };
            let length = match dice.below(10) {
                0 => dice.pick(&[2_048, 2_049, 5_000]),
                1 => dice.pick(&[100_000, 0x7FFF_FFFF, 0xFFFF_FFFE, 0xFFFF_FFFF]),
                _ => dice.pick(&SHORT),
            };
            skipped(dice, kind, length)
        }
        // a known type that is too long
        5 => {
            let kind = dice.pick(&TCP);
            let length = dice.pick(&[2_049, 2_049, 2_050, 4_000, 0x0001_0000, 0xFFFF_FFFF]);
            skipped(dice, kind, length)
        }
        // a length that is wrong for the type
        _ => {
            let kind = dice.pick(&TCP);
            let length = dice.pick(&[0, 1, 2, 3, 4, 6, 7, 8, 9, 10, 11, 12, 2_048]);
            message([0x03, 0xFC], kind, length, &[])
        }
    }
}

fn skipped(dice: &mut Dice, kind: u16, length: u32) -> Vec<u8> {
    let here = if length <= 6_000 { length as usize } else { dice.below(200) };
    message([0x03, 0xFC], kind, length, &vec![dice.byte(); here])
}

/// A datagram to a farm, of each type and with each fault.
pub fn datagram(dice: &mut Dice, site: Option<Site>) -> Vec<u8> {
    const UDP: [u16; 8] = [0x0000, 0x0001, 0x0002, 0x0002, 0x0003, 0x0003, 0x0004, 0x4001];
    const OTHERS: [u16; 6] = [0x4003, 0x4003, 0x4002, 0x0005, 0x0007, 0x8001];
    let kind = match dice.below(10) {
        0..=5 => dice.pick(&UDP),
        6..=8 => dice.pick(&OTHERS),
        _ => dice.u16(),
    };
    let mut payload = match (kind, site) {
        (wire::BY_EID, Some(site)) => site.record.eid.to_vec(),
        (wire::BY_VIN, Some(site)) => site.record.vin.to_vec(),
        (wire::ANNOUNCEMENT, _) => vec![0x31; dice.between(31, 34)],
        (wire::DIAGNOSTIC, _) => vec![0; dice.pick(&[5, 3_000])],
        _ => Vec::new(),
    };
    if !payload.is_empty() && dice.percent(25) {
        let place = dice.below(payload.len());
        payload[place] ^= 1;
    }
    let mut length = payload.len() as u32;
    match dice.below(20) {
        0 => payload.push(0),
        1 => drop(payload.pop()),
        2 => length = dice.pick(&[0, 1, 6, 17, 32, 2_048, 2_049, 0xFFFF_FFFF]),
        // announced and there, and wrong for the type
        3 => {
            payload.push(0);
            length += 1;
        }
        _ => {}
    }
    let pattern = match dice.below(20) {
        0..=13 => [0x03, 0xFC],
        14..=17 => [0xFF, 0x00],
        18 => [0x02, 0xFD],
        _ => [dice.byte(), dice.byte()],
    };
    let mut bytes = message(pattern, kind, length, &payload);
    if dice.percent(4) {
        bytes.truncate(dice.below(9));
    }
    bytes
}
