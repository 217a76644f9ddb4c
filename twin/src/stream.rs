//! What a bytes call takes of its input on one row.

use crate::table::{Place, Row};
use crate::wire::{is_stored, judge, type_of, Fault, Verdict};

/// What the bytes came to.
#[derive(Clone, Copy, Debug, PartialEq, Eq)]
pub enum Event {
    /// The input ended first.
    Nothing,
    /// A header was judged wrong.
    Wrong(Fault),
    /// A message was wholly skipped.
    Skipped,
    /// A message of this type was wholly read; its payload has this length.
    Read(u16, usize),
}

pub struct Taken {
    pub bytes: usize,
    /// "finished (8 plus payload for each message wholly read or skipped; 8 for a header that closes)"
    pub finished: u64,
    pub event: Event,
}

/// "A bytes call takes bytes until the input ends, a header is judged wrong, or one message is
/// finished, and says how many it took."
pub fn take(row: &mut Row, input: &[u8], room: &mut [u8]) -> Taken {
    let mut bytes = 0;
    if let Place::Header(count) = row.place {
        let had = usize::from(count);
        bytes = input.len().min(8 - had);
        row.header[had..had + bytes].copy_from_slice(&input[..bytes]);
        if had + bytes < 8 {
            row.place = Place::Header((had + bytes) as u8);
            return Taken { bytes, finished: 0, event: Event::Nothing };
        }
        if let Verdict::Wrong(fault) = judge(&row.header) {
            let finished = turn_away(row, fault);
            return Taken { bytes, finished, event: Event::Wrong(fault) };
        }
        row.place = Place::Reading(0);
    }
    let (finished, event) = take_payload(row, &input[bytes..], room, &mut bytes);
    Taken { bytes, finished, event }
}

/// "NACK 00, close", "NACK 01, skip the payload", "NACK 02, skip the payload", "NACK 04, close":
/// where the row stands afterwards, and what is finished. Where there is nothing to skip, the message
/// ends with its header (decision A16).
fn turn_away(row: &mut Row, fault: Fault) -> u64 {
    if fault.closes() || row.length() == 0 {
        row.stand_between();
        8
    } else {
        row.place = Place::Skipping(0);
        0
    }
}

fn take_payload(row: &mut Row, input: &[u8], room: &mut [u8], bytes: &mut usize) -> (u64, Event) {
    let length = row.length();
    let (had, reads) = match row.place {
        Place::Reading(count) => (count, true),
        Place::Skipping(count) => (count, false),
        Place::Header(_) => return (0, Event::Nothing),
    };
    let more = input.len().min((length - had) as usize);
    let message_type = type_of(&row.header);
    // "Each taken payload byte of a 0005, 0008 or 8001 whose header passed is stored at its place in
    // its row's 2,048; nothing else there ever changes."
    if reads && is_stored(message_type) {
        room[had as usize..had as usize + more].copy_from_slice(&input[..more]);
    }
    *bytes += more;
    let count = had + more as u32;
    if count < length {
        row.place = if reads { Place::Reading(count) } else { Place::Skipping(count) };
        return (0, Event::Nothing);
    }
    row.stand_between();
    let event = if reads { Event::Read(message_type, length as usize) } else { Event::Skipped };
    (8 + u64::from(length), event)
}
