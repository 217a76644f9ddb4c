//! The eight calls, and when a call is turned away.

use crate::image::Lent;
use crate::line::Work;
use crate::out::{Out, NO_ROW};
use crate::rule4::keeps_rules;
use crate::sheet::{FarmNo, RowNo, Seat, Sheet};
use crate::table::{State, Table};

pub const OUTPUT: usize = 4_096;
pub const ROOM: usize = 2_048;
/// "Assembling buffer: exactly 32,768, 2,048 for each of 16 rows."
pub const ASSEMBLING: usize = 16 * ROOM;
/// The longest buffer that a record can lend (the recorded day's own limit).
pub const LONGEST_BUFFER: usize = 65_536;

/// "Calls: start a fresh table; connect; bytes from a row; peer closed; link of a farm lost; tick
/// (10 ms); datagram; message from a controller."
#[derive(Clone, Copy, Debug)]
pub enum Call<'a> {
    Start,
    Connect(FarmNo),
    Bytes(RowNo, &'a [u8]),
    PeerClosed(RowNo),
    LinkLost(FarmNo),
    Tick,
    Datagram(FarmNo, &'a [u8]),
    Controller { farm: FarmNo, controller: u16, tester: u16, data: &'a [u8] },
}

#[derive(Clone, Copy, Debug, PartialEq, Eq)]
pub enum Refusal {
    Sheet = 1,
    Output = 2,
    Assembling = 3,
    Table = 4,
    NoFarm = 5,
    NotOpen = 6,
    Waiting = 7,
    NoFreeRow = 8,
    UserData = 9,
    Nobody = 10,
}

#[derive(Clone, Copy, Debug, PartialEq, Eq)]
pub struct Answer {
    pub number: u8,
    pub row: u8,
    pub taken: usize,
}

/// "Answer 0 is done; its row is the opened one for connect, else 255. Bytes taken is 0 outside
/// bytes calls."
const DONE: Answer = Answer { number: 0, row: NO_ROW, taken: 0 };

/// Everything that is lent to a call, and the entries of the last one.
pub struct Rig {
    /// Nothing where the lent sheet breaks a rule.
    pub sheet: Option<Sheet>,
    pub table: Lent,
    pub output_length: usize,
    pub assembling_length: usize,
    assembling: Vec<u8>,
    pub out: Out,
}

impl Rig {
    pub fn new() -> Rig {
        Rig {
            sheet: None,
            table: Lent::Table(Table::new()),
            output_length: OUTPUT,
            assembling_length: ASSEMBLING,
            assembling: vec![0; LONGEST_BUFFER],
            out: Out::default(),
        }
    }

    /// One call. After a refused one there are no entries, and no sheet is written.
    pub fn call(&mut self, call: Call) -> Answer {
        self.out.clear();
        match self.carry_out(call) {
            Ok(answer) => answer,
            // "A refusal returns its number, output length 0, bytes taken 0, row 255."
            Err(refusal) => Answer { number: refusal as u8, ..DONE },
        }
    }

    /// "Checked in this order; the first that applies is given."
    fn carry_out(&mut self, call: Call) -> Result<Answer, Refusal> {
        let sheet = self.sheet.as_ref().ok_or(Refusal::Sheet)?;
        if self.output_length < OUTPUT {
            return Err(Refusal::Output);
        }
        if self.assembling_length != ASSEMBLING {
            return Err(Refusal::Assembling);
        }
        // "1 to 4 hold for every call, but start skips 4."
        if let Call::Start = call {
            self.table = Lent::Table(Table::new());
            return Ok(DONE);
        }
        let Lent::Table(table) = &mut self.table else { return Err(Refusal::Table) };
        if !keeps_rules(sheet, table) {
            return Err(Refusal::Table);
        }
        serve(sheet, table, &mut self.assembling, &mut self.out, call)
    }
}

/// A call that refusals 1 to 4 let pass.
fn serve(
    sheet: &Sheet,
    table: &mut Table,
    rooms: &mut [u8],
    out: &mut Out,
    call: Call,
) -> Result<Answer, Refusal> {
    match call {
        Call::Start => {}
        Call::Connect(farm) => {
            let row = at_work(sheet, table, out, farm)?.connect().ok_or(Refusal::NoFreeRow)?;
            return Ok(Answer { row, ..DONE });
        }
        Call::Bytes(row, input) => {
            let (farm, seat) = open_row(sheet, table, row)?;
            let mut work = at_work(sheet, table, out, farm)?;
            // "bytes for a waiting row, even none"
            if let State::Waiting(_) = work.farm.rows[seat].state {
                return Err(Refusal::Waiting);
            }
            let room = &mut rooms[ROOM * usize::from(row.0)..][..ROOM];
            return Ok(Answer { taken: work.bytes(seat, input, room), ..DONE });
        }
        Call::PeerClosed(row) => {
            let (farm, seat) = open_row(sheet, table, row)?;
            at_work(sheet, table, out, farm)?.peer_closed(seat);
        }
        Call::LinkLost(farm) => at_work(sheet, table, out, farm)?.link_lost(),
        // "A tick serves the farms in order"
        Call::Tick => {
            for number in 0..sheet.farms.len() {
                at_work(sheet, table, out, FarmNo(number as u8))?.tick();
            }
        }
        Call::Datagram(farm, datagram) => at_work(sheet, table, out, farm)?.datagram(datagram),
        Call::Controller { farm, controller, tester, data } => {
            let mut work = at_work(sheet, table, out, farm)?;
            // "controller message with 0 or over 2,044 bytes of user data"
            if data.is_empty() || data.len() > 2_044 {
                return Err(Refusal::UserData);
            }
            work.controller_message(controller, tester, data).ok_or(Refusal::Nobody)?;
        }
    }
    Ok(DONE)
}

/// "farm number not in the sheet"
fn at_work<'a>(
    sheet: &'a Sheet,
    table: &'a mut Table,
    out: &'a mut Out,
    farm: FarmNo,
) -> Result<Work<'a>, Refusal> {
    let site = sheet.site(farm).ok_or(Refusal::NoFarm)?;
    Ok(Work { site, farm: &mut table.farms[usize::from(farm.0)], out })
}

/// "row not open"
fn open_row(sheet: &Sheet, table: &Table, row: RowNo) -> Result<(FarmNo, Seat), Refusal> {
    let (farm, seat) = sheet.owner(row).ok_or(Refusal::NotOpen)?;
    let is_open = table.farms[usize::from(farm.0)].rows[seat].is_open();
    is_open.then_some((farm, seat)).ok_or(Refusal::NotOpen)
}
