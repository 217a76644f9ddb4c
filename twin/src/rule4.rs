//! "A table breaks the rules if": refusal 4.

use crate::line::{decide, refused_at_once, Decision};
use crate::sheet::{FarmNo, Sheet, Site};
use crate::table::{Farm, Place, Row, State, Table, ALIVE_CHECK, BETWEEN, GENERAL, INITIAL};
use crate::wire::{judge, Fault, Verdict};

pub fn keeps_rules(sheet: &Sheet, table: &Table) -> bool {
    table.farms.iter().enumerate().all(|(number, farm)| match sheet.site(FarmNo(number as u8)) {
        Some(site) => farm_keeps_rules(site, farm),
        None => is_idle(farm),
    })
}

/// The place for a farm that the sheet has not: no open row, an empty line, clock 0, no marks.
/// Its meters may be anything (decision A9).
fn is_idle(farm: &Farm) -> bool {
    farm.line.is_empty() && farm.has_no_check() && farm.rows.iter().all(|row| *row == Row::FREE)
}

fn farm_keeps_rules(site: Site, farm: &Farm) -> bool {
    let seats = site.record.quota + 1;
    // "a row beyond the sheet's rows is open"
    farm.rows[seats..].iter().all(|row| *row == Row::FREE)
        && farm.rows[..seats].iter().all(|row| row_keeps_rules(site, farm, row))
        // "more than q rows of a farm are active"
        && farm.active_rows() <= site.record.quota
        && line_is_right(farm)
        && check_is_right(site, farm)
}

fn row_keeps_rules(site: Site, farm: &Farm, row: &Row) -> bool {
    let state = match row.state {
        // what means nothing has one value (decision A6)
        State::Free => return *row == Row::FREE,
        // "an age is 200 or more"
        State::Fresh { age } => age < INITIAL,
        // "a waiting row has bytes in hand, or its request would get 00 or 06"
        State::Waiting(request) => row.place == BETWEEN && refused_at_once(site, request).is_none(),
        // "an active address isn't that farm's tester, or is active twice", "an idle count 30,000 or more"
        State::Active { tester, idle } => {
            idle < GENERAL
                && site.tester(tester).is_some()
                && farm.rows.iter().filter(|other| other.active() == Some(tester)).count() == 1
        }
    };
    state && place_is_possible(row)
}

/// "a stream place is impossible: eight header bytes or more still unjudged, a payload already
/// complete, a payload being read whose header would be judged wrong, or one being skipped whose
/// header would not get NACK 01 or 02."
fn place_is_possible(row: &Row) -> bool {
    match row.place {
        Place::Header(count) => {
            // header bytes that have not come are 0 (decision A6)
            count < 8 && row.header[usize::from(count)..].iter().all(|&byte| byte == 0)
        }
        Place::Reading(count) => count < row.length() && judge(&row.header) == Verdict::Passes,
        Place::Skipping(count) => {
            count < row.length()
                && matches!(judge(&row.header), Verdict::Wrong(Fault::UnknownType | Fault::TooLong))
        }
    }
}

/// "a farm's line isn't each of its waiting rows exactly once"
fn line_is_right(farm: &Farm) -> bool {
    let waits = |seat: usize| matches!(farm.rows.get(seat), Some(Row { state: State::Waiting(_), .. }));
    let times = |seat: usize| farm.line.iter().filter(|&&other| other == seat).count();
    farm.line.iter().all(|&seat| waits(seat) && times(seat) == 1)
        && farm.rows.iter().filter(|row| matches!(row.state, State::Waiting(_))).count() == farm.line.len()
}

fn check_is_right(site: Site, farm: &Farm) -> bool {
    let Some(&head) = farm.line.first() else {
        // "an empty line has clock or marks set"
        return farm.has_no_check();
    };
    let State::Waiting(request) = farm.rows[head].state else { return false };
    // "a non-empty line's head needs no check or its check is already decided"
    let Decision::Check(check) = decide(site, farm, head, request) else { return false };
    !check.all_answered(farm)
        // "a check clock 50 or more"
        && farm.clock < ALIVE_CHECK
        // "a mark stands on a row not asked"
        && (0..farm.marks.len()).all(|seat| !farm.marks[seat] || check.asks(farm, seat))
}
