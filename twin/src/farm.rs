//! The moves of one farm: what each call does to its part of the table, and the call's own entries.

use crate::line::Work;
use crate::out::NO_ROW;
use crate::sheet::Seat;
use crate::stream::{take, Event};
use crate::table::{Request, Row, State, BETWEEN, GENERAL, INITIAL};
use crate::wire::{self, judge_datagram, DatagramVerdict, Fault};

/// The codes of 8003 and 8002.
const NOT_ACTIVE: u8 = 0x02;
const UNKNOWN_TARGET: u8 = 0x03;
const NOT_REACHABLE: u8 = 0x06;
const ACCEPTED: u8 = 0x00;

/// "4001: answer 4002 with 00": the box is a gateway.
const GATEWAY: u8 = 0x00;
/// A 0004 ends with "00": no further action is asked of the tester.
const NO_FURTHER_ACTION: u8 = 0x00;

fn u16_at(bytes: &[u8], at: usize) -> u16 {
    u16::from_be_bytes([bytes[at], bytes[at + 1]])
}

impl Work<'_> {
    fn seats(&self) -> usize {
        self.site.record.quota + 1
    }

    /// "Connect opens the lowest free row of the farm, so freed rows are used again."
    pub fn connect(&mut self) -> Option<u8> {
        let seat = (0..self.seats()).find(|&seat| !self.farm.rows[seat].is_open())?;
        self.farm.rows[seat] = Row { state: State::Fresh { age: 0 }, place: BETWEEN, header: [0; 8] };
        Some(self.row_at(seat))
    }

    /// Bytes from a fresh or active row; how many were taken.
    pub fn bytes(&mut self, seat: Seat, input: &[u8], room: &mut [u8]) -> usize {
        let taken = take(&mut self.farm.rows[seat], input, room);
        self.farm.meters.take(taken.bytes);
        self.farm.meters.finish(taken.finished);
        // "An active row's idle count goes to 0 with each call that takes a byte from it"
        if taken.bytes > 0 {
            if let State::Active { idle, .. } = &mut self.farm.rows[seat].state {
                *idle = 0;
            }
        }
        match taken.event {
            Event::Nothing | Event::Skipped => {}
            Event::Wrong(fault) => self.turn_away(seat, fault),
            Event::Read(message_type, length) => self.message(seat, message_type, &room[..length]),
        }
        taken.bytes
    }

    /// "A NACK is type 0000 with the code as its one byte."
    fn turn_away(&mut self, seat: Seat, fault: Fault) {
        self.out.send(self.row_at(seat), wire::NACK, &[&[fault as u8]]);
        if fault.closes() {
            self.close(seat);
            self.settle();
        }
    }

    fn message(&mut self, seat: Seat, message_type: u16, payload: &[u8]) {
        match message_type {
            // "Request: address u16, type u8, four reserved bytes, perhaps four more; all after the
            // type are ignored."
            wire::ACTIVATION_REQUEST => {
                self.request(seat, Request { address: u16_at(payload, 0), kind: payload[2] });
            }
            wire::ALIVE_RESPONSE => self.alive(seat, u16_at(payload, 0)),
            wire::DIAGNOSTIC => self.diagnostic(seat, payload),
            // "0000, 0004, 8002 and 8003 are read and dropped."
            _ => {}
        }
    }

    /// "Payload: source u16, target u16, user data. In order:"
    fn diagnostic(&mut self, seat: Seat, payload: &[u8]) {
        let (source, target) = (u16_at(payload, 0), u16_at(payload, 2));
        // "row not active or source not its address: 8003 with 02, close (ours)"
        if self.farm.rows[seat].active() != Some(source) {
            self.acknowledge(seat, wire::DIAGNOSTIC_NACK, payload, NOT_ACTIVE);
            self.close(seat);
            self.settle();
            return;
        }
        // "target not one of this farm's: 03"
        let Some(found) = self.site.target(target) else {
            return self.acknowledge(seat, wire::DIAGNOSTIC_NACK, payload, UNKNOWN_TARGET);
        };
        // "not reachable: 06"
        if !found.reachable {
            return self.acknowledge(seat, wire::DIAGNOSTIC_NACK, payload, NOT_REACHABLE);
        }
        // "else 8002 with 00 and the payload is handed on."
        self.acknowledge(seat, wire::DIAGNOSTIC_ACK, payload, ACCEPTED);
        self.out.hand_on(self.row_at(seat), payload);
    }

    /// "Both replies: target, source, code."
    fn acknowledge(&mut self, seat: Seat, message_type: u16, payload: &[u8], code: u8) {
        let parts: [&[u8]; 3] = [&payload[2..4], &payload[0..2], &[code]];
        self.out.send(self.row_at(seat), message_type, &parts);
    }

    /// "Peer closed gives one close for that row."
    pub fn peer_closed(&mut self, seat: Seat) {
        self.close(seat);
        self.leave(seat);
    }

    /// "Link lost: one close per open row, lowest first."
    pub fn link_lost(&mut self) {
        for seat in 0..self.seats() {
            if self.farm.rows[seat].is_open() {
                self.close(seat);
            }
        }
        self.farm.line.clear();
        self.farm.clock = 0;
        self.farm.marks = Default::default();
    }

    /// "a running check clock goes up, ages and idle counts go up, rows at their limit close in row
    /// order, the line is settled."
    pub fn tick(&mut self) {
        if !self.farm.line.is_empty() {
            self.farm.clock += 1;
        }
        for row in &mut self.farm.rows {
            match &mut row.state {
                State::Fresh { age } => *age += 1,
                State::Active { idle, .. } => *idle += 1,
                // "a waiting row has no age"
                State::Free | State::Waiting(_) => {}
            }
        }
        for seat in 0..self.seats() {
            match self.farm.rows[seat].state {
                // "A fresh row's age counts from connect and closes it at 200"
                State::Fresh { age } if age >= INITIAL => self.close(seat),
                // "closes it at 30,000"
                State::Active { idle, .. } if idle >= GENERAL => self.close(seat),
                _ => {}
            }
        }
        self.settle();
    }

    pub fn datagram(&mut self, datagram: &[u8]) {
        let message_type = match judge_datagram(datagram) {
            DatagramVerdict::NeverAnswered => return,
            DatagramVerdict::Wrong(fault) => return self.out.send(NO_ROW, wire::NACK, &[&[fault as u8]]),
            DatagramVerdict::Passes(message_type) => message_type,
        };
        let (record, payload) = (self.site.record, &datagram[8..]);
        match message_type {
            // "0001 always, 0002 if the EID and 0003 if the VIN matches"
            wire::BY_ANYBODY => self.announce(),
            wire::BY_EID if payload == record.eid => self.announce(),
            wire::BY_VIN if payload == record.vin => self.announce(),
            // "4001: answer 4002 with 00, q, open rows of the farm, u32 2,048."
            wire::STATUS_REQUEST => {
                let counts = [GATEWAY, record.quota as u8, self.farm.open_rows() as u8];
                self.out.send(NO_ROW, wire::STATUS_RESPONSE, &[&counts, &wire::LONGEST.to_be_bytes()]);
            }
            // "4003: 4004 with the mode."
            wire::MODE_REQUEST => self.out.send(NO_ROW, wire::MODE_RESPONSE, &[&[record.mode]]),
            // no match, or a 0004: "read and dropped"
            _ => {}
        }
    }

    /// "answer 0004 with VIN, entity address, EID, GID, 00."
    fn announce(&mut self) {
        let record = self.site.record;
        let entity = record.entity.to_be_bytes();
        let parts: [&[u8]; 5] = [&record.vin, &entity, &record.eid, &record.gid, &[NO_FURTHER_ACTION]];
        self.out.send(NO_ROW, wire::ANNOUNCEMENT, &parts);
    }

    /// "A controller message goes out as 8001: controller, tester, user data."
    /// Nothing where refusal 10 holds: "controller address not a target of that farm, or the tester
    /// not active on a row of it".
    pub fn controller_message(&mut self, controller: u16, tester: u16, data: &[u8]) -> Option<()> {
        self.site.target(controller)?;
        let seat = self.farm.seat_of(tester)?;
        let parts: [&[u8]; 3] = [&controller.to_be_bytes(), &tester.to_be_bytes(), data];
        self.out.send(self.row_at(seat), wire::DIAGNOSTIC, &parts);
        Some(())
    }
}
