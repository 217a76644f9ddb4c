//! Headers: the table of types, and the verdict on a header and on a datagram.

pub const NACK: u16 = 0x0000;
pub const BY_ANYBODY: u16 = 0x0001;
pub const BY_EID: u16 = 0x0002;
pub const BY_VIN: u16 = 0x0003;
pub const ANNOUNCEMENT: u16 = 0x0004;
pub const ACTIVATION_REQUEST: u16 = 0x0005;
pub const ACTIVATION_RESPONSE: u16 = 0x0006;
pub const ALIVE_REQUEST: u16 = 0x0007;
pub const ALIVE_RESPONSE: u16 = 0x0008;
pub const STATUS_REQUEST: u16 = 0x4001;
pub const STATUS_RESPONSE: u16 = 0x4002;
pub const MODE_REQUEST: u16 = 0x4003;
pub const MODE_RESPONSE: u16 = 0x4004;
pub const DIAGNOSTIC: u16 = 0x8001;
pub const DIAGNOSTIC_ACK: u16 = 0x8002;
pub const DIAGNOSTIC_NACK: u16 = 0x8003;

/// The longest payload that is read.
pub const LONGEST: u32 = 2048;

#[derive(Clone, Copy, Debug, PartialEq, Eq)]
pub enum Port {
    Tcp,
    Udp,
}

/// "A table of types says port and lengths."
struct Kind {
    number: u16,
    port: Port,
    least: u32,
    greatest: u32,
}

const fn kind(port: Port, number: u16, least: u32, greatest: u32) -> Kind {
    Kind { number, port, least, greatest }
}

/// "TCP: 0000 (1), 0005 (7 or 11), 0008 (2), 8001 (5 or more; ours), 8002 and 8003 (5 or more).
/// UDP: 0000, 0001 (0), 0002 (6), 0003 (17), 0004 (32 or 33), 4001 (0), 4003 (0)."
/// The UDP 0000 is never judged (see `judge_datagram`), so it has no line.
const KINDS: [Kind; 13] = [
    kind(Port::Tcp, DIAGNOSTIC, 5, u32::MAX),
    kind(Port::Tcp, NACK, 1, 1),
    kind(Port::Tcp, ACTIVATION_REQUEST, 7, 7),
    kind(Port::Tcp, ACTIVATION_REQUEST, 11, 11),
    kind(Port::Tcp, ALIVE_RESPONSE, 2, 2),
    kind(Port::Tcp, DIAGNOSTIC_ACK, 5, u32::MAX),
    kind(Port::Tcp, DIAGNOSTIC_NACK, 5, u32::MAX),
    kind(Port::Udp, BY_ANYBODY, 0, 0),
    kind(Port::Udp, BY_EID, 6, 6),
    kind(Port::Udp, BY_VIN, 17, 17),
    kind(Port::Udp, ANNOUNCEMENT, 32, 33),
    kind(Port::Udp, STATUS_REQUEST, 0, 0),
    kind(Port::Udp, MODE_REQUEST, 0, 0),
];

fn known(port: Port, number: u16) -> bool {
    KINDS.iter().any(|kind| kind.port == port && kind.number == number)
}

fn fits(port: Port, number: u16, length: u32) -> bool {
    KINDS.iter().any(|kind| {
        kind.port == port && kind.number == number && (kind.least..=kind.greatest).contains(&length)
    })
}

/// What is wrong with a header; its number is the NACK's code.
#[derive(Clone, Copy, Debug, PartialEq, Eq)]
pub enum Fault {
    Pattern = 0x00,
    UnknownType = 0x01,
    TooLong = 0x02,
    WrongLength = 0x04,
}

impl Fault {
    pub fn closes(self) -> bool {
        matches!(self, Fault::Pattern | Fault::WrongLength)
    }
}

#[derive(Clone, Copy, Debug, PartialEq, Eq)]
pub enum Verdict {
    Passes,
    Wrong(Fault),
}

/// "Eight bytes: version, inverse, type u16, payload length u32."
pub fn type_of(header: &[u8]) -> u16 {
    u16::from_be_bytes([header[2], header[3]])
}

pub fn length_of(header: &[u8]) -> u32 {
    u32::from_be_bytes([header[4], header[5], header[6], header[7]])
}

/// "Judged when all eight are in, in this order"
pub fn judge(header: &[u8; 8]) -> Verdict {
    let (number, length) = (type_of(header), length_of(header));
    // "1. not 03 FC: NACK 00, close;"
    if header[..2] != [0x03, 0xFC] {
        return Verdict::Wrong(Fault::Pattern);
    }
    // "2. type unknown on this port: NACK 01, skip the payload;"
    if !known(Port::Tcp, number) {
        return Verdict::Wrong(Fault::UnknownType);
    }
    // "3. length over 2,048: NACK 02, skip the payload;"
    if length > LONGEST {
        return Verdict::Wrong(Fault::TooLong);
    }
    // "4. length wrong for the type: NACK 04, close."
    if !fits(Port::Tcp, number, length) {
        return Verdict::Wrong(Fault::WrongLength);
    }
    Verdict::Passes
}

/// "Each taken payload byte of a 0005, 0008 or 8001 whose header passed is stored"
pub fn is_stored(number: u16) -> bool {
    matches!(number, ACTIVATION_REQUEST | ALIVE_RESPONSE | DIAGNOSTIC)
}

#[derive(Clone, Copy, Debug, PartialEq, Eq)]
pub enum DatagramVerdict {
    NeverAnswered,
    Wrong(Fault),
    Passes(u16),
}

pub fn judge_datagram(datagram: &[u8]) -> DatagramVerdict {
    // "Datagrams: under 8 bytes, or of type 0000, never answered."
    if datagram.len() < 8 || type_of(datagram) == NACK {
        return DatagramVerdict::NeverAnswered;
    }
    let (number, length) = (type_of(datagram), length_of(datagram));
    // "Else pattern (FF 00 is also right for 0001 to 0003), type, then length"
    let identifies = matches!(number, BY_ANYBODY | BY_EID | BY_VIN);
    let right = datagram[..2] == [0x03, 0xFC] || identifies && datagram[..2] == [0xFF, 0x00];
    if !right {
        return DatagramVerdict::Wrong(Fault::Pattern);
    }
    if !known(Port::Udp, number) {
        return DatagramVerdict::Wrong(Fault::UnknownType);
    }
    // "which must fit the type and equal the bytes that follow (ours). There is no closing and no code 02."
    if !fits(Port::Udp, number, length) || length as usize != datagram.len() - 8 {
        return DatagramVerdict::Wrong(Fault::WrongLength);
    }
    DatagramVerdict::Passes(number)
}
