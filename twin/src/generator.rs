//! Random days. The generator runs the twin beside what it writes, and so knows which rows are open,
//! active, waiting or asked: most of its calls do something.

mod damages;
mod dice;
mod messages;
mod sheets;

use crate::day::{carry_out, read_record};
use crate::gateway::{Answer, Rig};
use crate::image::{Lent, TABLE};
use crate::rule4::keeps_rules;
use crate::sheet::FarmNo;
use crate::table::{Place, Table};
use crate::wire;
use dice::Dice;
use messages::Sender;

/// A day file of about so many records.
pub fn day(seed: u64, records: usize) -> Vec<u8> {
    let mut day = Day::new(Dice::new(seed), records);
    while day.written < records {
        day.step();
    }
    day.end();
    day.bytes
}

struct Day {
    dice: Dice,
    rig: Rig,
    bytes: Vec<u8>,
    written: usize,
    wanted: usize,
    sheet: Vec<u8>,
    /// What the peer of each row has sent and the core has not yet taken.
    sent: [Vec<u8>; 16],
    /// For a while many ask for few addresses.
    crowd: bool,
}

impl Day {
    fn new(mut dice: Dice, wanted: usize) -> Day {
        let sheet = sheets::good_sheet(&mut dice);
        let (rig, bytes, sent) = (Rig::new(), Vec::new(), Default::default());
        let mut day = Day { dice, rig, bytes, written: 0, wanted, sheet, sent, crowd: false };
        if day.dice.percent(10) {
            day.any_call();
        }
        day.lend_sheet();
        if day.dice.percent(90) {
            day.put(1, &[]);
        }
        day
    }

    /// Write a record, and carry it out.
    fn put(&mut self, kind: u8, fields: &[u8]) -> Option<Answer> {
        self.bytes.extend((1 + fields.len() as u16).to_be_bytes());
        self.bytes.push(kind);
        self.bytes.extend_from_slice(fields);
        self.written += 1;
        let answer = carry_out(&mut self.rig, read_record(kind, fields)?);
        for row in 0..16 {
            if self.at_row(row).is_none() {
                self.sent[row as usize].clear();
            }
        }
        answer
    }

    fn lend_sheet(&mut self) {
        let sheet = self.sheet.clone();
        self.put(0, &sheet);
    }

    fn table(&self) -> Option<&Table> {
        match &self.rig.table {
            Lent::Table(table) => Some(table),
            Lent::NoTable(_) => None,
        }
    }

    fn is_sound(&self) -> bool {
        match (&self.rig.sheet, self.table()) {
            (Some(sheet), Some(table)) => keeps_rules(sheet, table),
            _ => false,
        }
    }

    /// Who is on an open row.
    fn at_row(&self, row: u8) -> Option<Sender<'_>> {
        let sheet = self.rig.sheet.as_ref()?;
        let (number, seat) = sheet.owner(crate::sheet::RowNo(row))?;
        let farm = &self.table()?.farms[usize::from(number.0)];
        let open = farm.rows[seat].is_open();
        open.then_some(Sender { site: sheet.site(number)?, farm, seat, crowd: self.crowd })
    }

    fn open_rows(&self) -> Vec<u8> {
        (0..16).filter(|&row| self.at_row(row).is_some()).collect()
    }

    /// Rows from which bytes are taken: not those that wait.
    fn speaking_rows(&self) -> Vec<u8> {
        let speaks = |sender: Sender| !sender.farm.line.contains(&sender.seat);
        (0..16).filter(|&row| self.at_row(row).is_some_and(speaks)).collect()
    }

    fn farms(&self) -> usize {
        self.rig.sheet.as_ref().map_or(1, |sheet| sheet.farms.len())
    }

    /// A farm of the sheet; seldom one that does not exist.
    fn farm(&mut self) -> u8 {
        if self.dice.percent(2) {
            return self.dice.pick(&[4, 5, 255, self.farms() as u8]);
        }
        let farms = self.farms();
        self.dice.below(farms) as u8
    }

    /// An open row; seldom one that is not, or does not exist.
    fn row(&mut self) -> u8 {
        if self.dice.percent(2) {
            return self.dice.pick(&[0, 1, 7, 15, 16, 17, 128, 255]);
        }
        let open = self.open_rows();
        self.dice.one_of(&open).unwrap_or(0)
    }

    fn step(&mut self) {
        self.crowd ^= self.dice.percent(1);
        let left = self.wanted - self.written;
        if left > 40_000 && self.dice.below(40_000) == 0 {
            let ticks = self.dice.between(29_999, 30_001);
            return self.ticks(ticks);
        }
        match self.dice.below(1000) {
            0..=9 => self.changed_at_an_edge(),
            10..=14 => self.damaged(),
            15..=18 => self.bad_sheet(),
            19..=22 => self.wrong_rooms(),
            23 => drop(self.put(1, &[])),
            24..=26 => self.half_read(),
            _ => self.any_call(),
        }
    }

    fn any_call(&mut self) {
        let weights = if self.crowd { [60, 20, 4, 1, 0, 2, 2] } else { [560, 140, 50, 40, 5, 100, 70] };
        match self.dice.weighted(&weights) {
            0 => self.feed(),
            1 => {
                let farm = self.farm();
                self.put(2, &[farm]);
            }
            2 => {
                let ticks = self.burst();
                self.ticks(ticks);
            }
            3 => {
                let row = self.row();
                self.put(4, &[row]);
            }
            4 => {
                let farm = self.farm();
                self.put(5, &[farm]);
            }
            5 => self.datagram(),
            _ => self.controller(),
        }
    }

    fn burst(&mut self) -> usize {
        match self.dice.below(100) {
            0..=79 => self.dice.between(1, 6),
            80..=95 => self.dice.between(47, 52),
            96..=98 => self.dice.between(100, 160),
            _ => self.dice.between(198, 202),
        }
    }

    fn ticks(&mut self, count: usize) {
        for _ in 0..count {
            self.put(6, &[]);
        }
    }

    /// The peer of a row sends; the core is offered all of it, or a piece.
    fn feed(&mut self) {
        let speaking = self.speaking_rows();
        if speaking.is_empty() && self.dice.percent(90) {
            let farm = self.farm();
            self.put(2, &[farm]);
            return;
        }
        let row = match self.dice.one_of(&speaking) {
            Some(row) if self.dice.percent(96) => row,
            _ => self.row(),
        };
        let more = self.dice.pick(&[1, 1, 1, 2, 3]);
        let held = self.sent.get(usize::from(row)).map_or(0, Vec::len);
        if held == 0 || held < 100 && self.dice.percent(20) {
            for _ in 0..more {
                let mut dice = Dice::new(u64::from(self.dice.u32()));
                let Some(sender) = self.at_row(row) else { break };
                let message = sender.next(&mut dice);
                self.sent[usize::from(row)].extend(message);
            }
        }
        let sent = self.sent.get(usize::from(row)).cloned().unwrap_or_default();
        let offered = match self.dice.below(20) {
            0 => 0,
            1 => sent.len().min(1),
            2..=6 => self.dice.below(sent.len() + 1),
            7 => sent.len().min(8),
            _ => sent.len(),
        };
        let fields = [&[row], &sent[..offered]].concat();
        let taken = self.put(3, &fields).map_or(0, |answer| answer.taken);
        if let Some(sent) = self.sent.get_mut(usize::from(row)) {
            sent.drain(..taken.min(sent.len()));
        }
        if self.skips_for_long(row) && self.dice.percent(30) {
            self.put(4, &[row]);
        }
    }

    fn skips_for_long(&self, row: u8) -> bool {
        let Some(sender) = self.at_row(row) else { return false };
        let row = &sender.farm.rows[sender.seat];
        matches!(row.place, Place::Skipping(count) if row.length().saturating_sub(count) > 10_000)
    }

    fn datagram(&mut self) {
        let farm = self.farm();
        let site = self.rig.sheet.as_ref().and_then(|sheet| sheet.site(FarmNo(farm)));
        let datagram = messages::datagram(&mut self.dice, site);
        self.put(7, &[&[farm], &datagram[..]].concat());
    }

    fn controller(&mut self) {
        let mut dice = Dice::new(u64::from(self.dice.u32()));
        let row = self.row();
        let mut fields = match self.at_row(row) {
            Some(sender) => {
                let mut fields = vec![sender.site.number.0];
                fields.extend(sender.target(&mut dice).to_be_bytes());
                fields.extend(sender.listener(&mut dice).to_be_bytes());
                fields
            }
            None => dice.bytes(5),
        };
        if dice.percent(4) {
            fields[0] = self.farm();
        }
        let length = match dice.below(40) {
            0 => 0,
            1 => 2_044,
            2 => 2_045,
            3 => dice.between(2_046, 5_000),
            _ => dice.between(1, 12),
        };
        fields.extend(dice.bytes(length));
        self.put(8, &fields);
    }

    fn some_calls(&mut self) {
        for _ in 0..self.dice.between(1, 4) {
            self.any_call();
        }
    }

    fn damage(&mut self, place: usize, bytes: &[u8]) {
        self.put(10, &[&(place as u16).to_be_bytes(), bytes].concat());
    }

    /// One thing in the table is changed, so that a rule is just kept or just broken.
    fn changed_at_an_edge(&mut self) {
        let Some(table) = self.table().cloned() else { return self.damaged() };
        let testers: Vec<u16> = match &self.rig.sheet {
            Some(sheet) => sheet.testers.iter().map(|tester| tester.address).collect(),
            None => Vec::new(),
        };
        let old = self.rig.table.bytes();
        let new = damages::at_an_edge(&mut self.dice, &table, &testers);
        if let Some((place, bytes)) = damages::difference(&old, &new) {
            self.damage(place, &bytes);
            self.recover(old);
        }
    }

    /// A payload of which the core did not see the beginning: what stands in the row's room counts
    /// (decision A25), and a message that is dropped has left nothing there (A27).
    fn half_read(&mut self) {
        let speaking = self.speaking_rows();
        let Some(row) = self.dice.one_of(&speaking) else { return };
        let dropped = messages::message([0x03, 0xFC], wire::DIAGNOSTIC_ACK, 12, &[0x55; 12]);
        self.put(3, &[&[row], &dropped[..]].concat());
        let (count, length) = (self.dice.between(1, 11) as u32, 12);
        let (Some(sender), Some(table)) = (self.at_row(row), self.table()) else { return };
        let new = damages::half_read(table, usize::from(sender.site.number.0), sender.seat, count, length);
        if let Some((place, bytes)) = damages::difference(&self.rig.table.bytes(), &new) {
            self.damage(place, &bytes);
            let rest = self.dice.bytes((length - count) as usize);
            self.put(3, &[&[row], &rest[..]].concat());
        }
    }

    fn damaged(&mut self) {
        let old = self.rig.table.bytes();
        for _ in 0..self.dice.between(1, 2) {
            let (place, bytes) = damages::anywhere(&mut self.dice);
            self.damage(place, &bytes);
        }
        self.recover(old);
    }

    /// A table that breaks a rule is put right again, or a new one is started.
    fn recover(&mut self, old: [u8; TABLE]) {
        if self.dice.percent(60) {
            self.some_calls();
        }
        if self.dice.percent(20) {
            // a host that offers what it has, which is nothing
            for row in self.speaking_rows() {
                self.put(3, &[row]);
            }
        }
        let ticks = self.dice.between(1, 6);
        self.ticks(ticks);
        if self.is_sound() {
            return;
        }
        if self.dice.percent(60) {
            self.damage(0, &old);
        }
        if !self.is_sound() {
            self.put(1, &[]);
        }
    }

    /// A sheet that breaks a rule, or another good one, for a while.
    fn bad_sheet(&mut self) {
        let other = if self.dice.percent(75) {
            sheets::spoilt(&mut self.dice, &self.sheet)
        } else {
            sheets::good_sheet(&mut self.dice)
        };
        self.put(0, &other);
        self.some_calls();
        if self.rig.sheet.is_some() && self.dice.percent(40) {
            self.sheet = other;
        } else {
            self.lend_sheet();
        }
        if !self.is_sound() {
            self.some_calls();
            self.put(1, &[]);
        }
    }

    fn wrong_rooms(&mut self) {
        let output = self.dice.pick(&[0, 4_095, 4_096, 4_096, 4_096, 4_097, 65_536]);
        let assembling = self.dice.pick(&[0, 2_048, 32_767, 32_768, 32_768, 32_769, 65_536]);
        self.rooms(output, assembling);
        if self.dice.percent(20) {
            self.put(1, &[]);
        }
        self.some_calls();
        let output = self.dice.pick(&[4_096, 4_096, 5_000, 65_536]);
        self.rooms(output, 32_768);
    }

    fn rooms(&mut self, output: u32, assembling: u32) {
        self.put(9, &[output.to_be_bytes(), assembling.to_be_bytes()].concat());
    }

    /// Most days end with a whole record.
    fn end(&mut self) {
        let ends: [&[u8]; 9] = [
            &[0],
            &[0, 2, 3],
            &[0, 9, 3, 0, 3, 0xFC],
            &[0, 0],
            &[0x80, 0, 6],
            &[0, 1, 11],
            &[0, 2, 6, 0],
            &[0, 1, 3],
            &[0, 9, 9, 0, 1, 0, 1, 0, 0, 0x80, 0],
        ];
        if self.dice.percent(15) {
            let end = self.dice.pick(&ends);
            self.bytes.extend_from_slice(end);
        }
    }
}
