//! A day of recorded calls: the file's records, and the lines that are printed.

use crate::gateway::{Answer, Call, Rig, LONGEST_BUFFER};
use crate::sheet::{FarmNo, RowNo, Sheet};

/// One record: something that is lent, or a call.
#[derive(Clone, Copy, Debug)]
pub enum Record<'a> {
    Sheet(&'a [u8]),
    Rooms { output: usize, assembling: usize },
    Damage { place: usize, bytes: &'a [u8] },
    Call(Call<'a>),
}

/// What stands next in the file.
enum Next<'a> {
    End,
    Record(Record<'a>, usize),
    /// "A file that stops inside a record"
    Cut,
    /// "A record with a bad length, an unknown kind or a wrong number of fields"
    Bad,
}

/// "A record is a u16 n (1 to 32,767) and n bytes"
fn next(day: &[u8], at: usize) -> Next<'_> {
    let rest = &day[at..];
    if rest.is_empty() {
        return Next::End;
    }
    let Some((length, rest)) = rest.split_first_chunk::<2>() else { return Next::Cut };
    let length = usize::from(u16::from_be_bytes(*length));
    if !(1..=32_767).contains(&length) {
        return Next::Bad;
    }
    let Some(bytes) = rest.get(..length) else { return Next::Cut };
    match read_record(bytes[0], &bytes[1..]) {
        Some(record) => Next::Record(record, at + 2 + length),
        None => Next::Bad,
    }
}

/// "a kind byte, then its fields, and no byte more."
pub fn read_record(kind: u8, fields: &[u8]) -> Option<Record<'_>> {
    let record = match (kind, fields) {
        (0, sheet) => Record::Sheet(sheet),
        (1, []) => Record::Call(Call::Start),
        (2, &[farm]) => Record::Call(Call::Connect(FarmNo(farm))),
        (3, [row, bytes @ ..]) => Record::Call(Call::Bytes(RowNo(*row), bytes)),
        (4, &[row]) => Record::Call(Call::PeerClosed(RowNo(row))),
        (5, &[farm]) => Record::Call(Call::LinkLost(FarmNo(farm))),
        (6, []) => Record::Call(Call::Tick),
        (7, [farm, datagram @ ..]) => Record::Call(Call::Datagram(FarmNo(*farm), datagram)),
        (8, [farm, c0, c1, t0, t1, data @ ..]) => Record::Call(Call::Controller {
            farm: FarmNo(*farm),
            controller: u16::from_be_bytes([*c0, *c1]),
            tester: u16::from_be_bytes([*t0, *t1]),
            data,
        }),
        (9, &[o0, o1, o2, o3, a0, a1, a2, a3]) => {
            let output = u32::from_be_bytes([o0, o1, o2, o3]) as usize;
            let assembling = u32::from_be_bytes([a0, a1, a2, a3]) as usize;
            // "each at most 65,536"
            if output > LONGEST_BUFFER || assembling > LONGEST_BUFFER {
                return None;
            }
            Record::Rooms { output, assembling }
        }
        (10, [p0, p1, bytes @ ..]) => {
            Record::Damage { place: usize::from(u16::from_be_bytes([*p0, *p1])), bytes }
        }
        _ => return None,
    };
    Some(record)
}

/// A record carried out; the answer, where it is a call.
pub fn carry_out(rig: &mut Rig, record: Record) -> Option<Answer> {
    match record {
        Record::Sheet(bytes) => rig.sheet = Sheet::read(bytes),
        Record::Rooms { output, assembling } => {
            rig.output_length = output;
            rig.assembling_length = assembling;
        }
        Record::Damage { place, bytes } => rig.table.damage(place, bytes),
        Record::Call(call) => return Some(rig.call(call)),
    }
    None
}

/// The lines of a whole day.
pub fn replay(day: &[u8], mut print: impl FnMut(&[u8])) {
    let mut rig = Rig::new();
    let (mut at, mut calls, mut line) = (0, 0u64, Vec::new());
    let last = loop {
        match next(day, at) {
            Next::Record(record, behind) => {
                at = behind;
                if let Some(answer) = carry_out(&mut rig, record) {
                    calls += 1;
                    line.clear();
                    write_line(&mut line, &rig, answer);
                    print(&line);
                }
            }
            Next::End => break format!("end {calls}\n"),
            Next::Cut => break format!("cut at {at}\n"),
            Next::Bad => break format!("bad at {at}\n"),
        }
    };
    // "for each farm of the sheet last lent (if it is a good one)"
    for number in 0..rig.sheet.as_ref().map_or(0, |sheet| sheet.farms.len()) {
        let meters = rig.table.meters(number);
        let (taken, finished, lost) = (meters.taken, meters.finished, meters.lost);
        print(format!("farm {number} taken {taken} finished {finished} lost {lost}\n").as_bytes());
    }
    print(last.as_bytes());
}

/// "the answer's number, its row, the bytes taken, all decimal, then the output sheet in lower-case
/// hexadecimal [..], or `-` for a refused call"
fn write_line(line: &mut Vec<u8>, rig: &Rig, answer: Answer) {
    line.extend_from_slice(format!("{} {} {} ", answer.number, answer.row, answer.taken).as_bytes());
    if answer.number == 0 {
        const DIGITS: &[u8; 16] = b"0123456789abcdef";
        for byte in rig.out.sheet() {
            line.push(DIGITS[usize::from(byte >> 4)]);
            line.push(DIGITS[usize::from(byte & 15)]);
        }
    } else {
        line.push(b'-');
    }
    line.push(b'\n');
}
