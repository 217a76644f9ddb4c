//! Activation: how a request is decided, and the farm's line of waiters.

use crate::out::Out;
use crate::sheet::{Seat, Site};
use crate::table::{Farm, Request, Row, State, ALIVE_CHECK, SEATS};
use crate::wire;

/// The codes of an activation response.
pub const UNKNOWN_TESTER: u8 = 0x00;
pub const NO_PLACE: u8 = 0x01;
pub const OTHER_ADDRESS: u8 = 0x02;
pub const TAKEN_ADDRESS: u8 = 0x03;
pub const WRONG_TYPE: u8 = 0x06;
pub const ACTIVATED: u8 = 0x10;

#[derive(Clone, Copy, Debug, PartialEq, Eq)]
pub enum Check {
    /// "a check of that row"
    OfRow(Seat),
    /// "a check of all active rows of the farm"
    OfAll,
}

impl Check {
    pub fn asks(self, farm: &Farm, seat: Seat) -> bool {
        match self {
            Check::OfRow(asked) => seat == asked,
            Check::OfAll => farm.rows[seat].active().is_some(),
        }
    }

    pub fn all_answered(self, farm: &Farm) -> bool {
        (0..SEATS).all(|seat| farm.marks[seat] || !self.asks(farm, seat))
    }

    /// "If all asked rows answered: 03 (check of that row) or 01 (check of all)."
    fn code_if_answered(self) -> u8 {
        match self {
            Check::OfRow(_) => TAKEN_ADDRESS,
            Check::OfAll => NO_PLACE,
        }
    }
}

#[derive(Clone, Copy, Debug, PartialEq, Eq)]
pub enum Decision {
    Code(u8),
    Check(Check),
}

/// "00: not a tester of this farm. 06: type other than 00 or 01."
pub fn refused_at_once(site: Site, request: Request) -> Option<u8> {
    let Some(_) = site.tester(request.address) else { return Some(UNKNOWN_TESTER) };
    (request.kind > 0x01).then_some(WRONG_TYPE)
}

/// "Decided in this order"
pub fn decide(site: Site, farm: &Farm, seat: Seat, request: Request) -> Decision {
    if let Some(code) = refused_at_once(site, request) {
        return Decision::Code(code);
    }
    // "row already active: 10 if the same address, else 02."
    if let Some(tester) = farm.rows[seat].active() {
        return Decision::Code(if tester == request.address { ACTIVATED } else { OTHER_ADDRESS });
    }
    // "address active on another row of the farm: a check of that row."
    if let Some(other) = farm.seat_of(request.address) {
        return Decision::Check(Check::OfRow(other));
    }
    // "q rows active: a check of all active rows of the farm."
    if farm.active_rows() >= site.record.quota {
        return Decision::Check(Check::OfAll);
    }
    // "else 10, and the row is active with idle 0."
    Decision::Code(ACTIVATED)
}

/// One farm at work: what the sheet says of it, its part of the table, and the call's entries.
pub struct Work<'a> {
    pub site: Site<'a>,
    pub farm: &'a mut Farm,
    pub out: &'a mut Out,
}

impl Work<'_> {
    pub fn row_at(&self, seat: Seat) -> u8 {
        self.site.record.row_at(seat)
    }

    /// A row is closed, by whatever cause. "lost (bytes of an unfinished message when its row closes)"
    pub fn close(&mut self, seat: Seat) {
        self.farm.meters.lose(self.farm.rows[seat].in_hand());
        self.farm.rows[seat] = Row::FREE;
        self.out.close(self.row_at(seat));
    }

    /// "Response 0006: address, entity address, code, four zeros."
    /// "All codes but 10 close the row."
    pub fn answer(&mut self, seat: Seat, address: u16, code: u8) {
        let entity = self.site.record.entity.to_be_bytes();
        let parts: [&[u8]; 4] = [&address.to_be_bytes(), &entity, &[code], &[0; 4]];
        self.out.send(self.row_at(seat), wire::ACTIVATION_RESPONSE, &parts);
        if code == ACTIVATED {
            self.farm.rows[seat].state = State::Active { tester: address, idle: 0 };
        } else {
            self.close(seat);
        }
    }

    /// An activation request, wholly read.
    pub fn request(&mut self, seat: Seat, request: Request) {
        match decide(self.site, self.farm, seat, request) {
            Decision::Code(code) => {
                self.answer(seat, request.address, code);
                self.settle();
            }
            Decision::Check(_) => self.join(seat, request),
        }
    }

    /// "A request that needs a check joins the end of its farm's line, the head being place 1"
    fn join(&mut self, seat: Seat, request: Request) {
        self.farm.rows[seat].state = State::Waiting(request);
        self.farm.line.push(seat);
        if self.farm.line.len() == 1 {
            self.bring_up();
        }
    }

    /// "0008 with the row's own address from an asked row marks it; any other 0008 is dropped."
    pub fn alive(&mut self, seat: Seat, address: u16) {
        let Some((_, _, Decision::Check(check))) = self.head() else { return };
        if self.farm.rows[seat].active() == Some(address) && check.asks(self.farm, seat) {
            self.farm.marks[seat] = true;
            self.settle();
        }
    }

    /// "A waiter whose row closes leaves the line; if it was the head, the next is head."
    /// For any other row the line is only settled.
    pub fn leave(&mut self, seat: Seat) {
        let was_head = self.farm.line.first() == Some(&seat);
        self.farm.line.retain(|&other| other != seat);
        if was_head {
            self.bring_up();
        } else {
            self.settle();
        }
    }

    /// "the head is decided afresh"
    fn head(&self) -> Option<(Seat, Request, Decision)> {
        let &seat = self.farm.line.first()?;
        let State::Waiting(request) = self.farm.rows[seat].state else { return None };
        Some((seat, request, decide(self.site, self.farm, seat, request)))
    }

    /// "After any change the line is settled"
    pub fn settle(&mut self) {
        let Some((seat, request, decision)) = self.head() else { return };
        match decision {
            // "if it needs no check, it has its answer."
            Decision::Code(code) => self.settled(seat, request, code),
            // "If all asked rows answered: 03 (check of that row) or 01 (check of all)."
            Decision::Check(check) if check.all_answered(self.farm) => {
                self.settled(seat, request, check.code_if_answered());
            }
            // "If the clock is 50: unanswered asked rows close, then 10."
            Decision::Check(check) if self.farm.clock >= ALIVE_CHECK => {
                for asked in 0..SEATS {
                    if check.asks(self.farm, asked) && !self.farm.marks[asked] {
                        self.close(asked);
                    }
                }
                self.settled(seat, request, ACTIVATED);
            }
            Decision::Check(_) => {}
        }
    }

    /// The head has its answer. "Settling one waiter brings up the next, whose settling may do the same."
    fn settled(&mut self, seat: Seat, request: Request, code: u8) {
        self.farm.line.remove(0);
        self.answer(seat, request.address, code);
        self.bring_up();
    }

    /// The line has a new head, or nobody is left in it. "only the head's check runs. Starting one
    /// sets the clock to 0, clears the marks and sends 0007 (empty) to the asked rows, lowest first."
    /// "An empty line has clock 0 and no marks."
    fn bring_up(&mut self) {
        self.farm.clock = 0;
        self.farm.marks = [false; SEATS];
        let Some((seat, request, decision)) = self.head() else { return };
        match decision {
            Decision::Code(code) => self.settled(seat, request, code),
            Decision::Check(check) => {
                for asked in 0..SEATS {
                    if check.asks(self.farm, asked) {
                        self.out.send(self.row_at(asked), wire::ALIVE_REQUEST, &[]);
                    }
                }
            }
        }
    }
}
