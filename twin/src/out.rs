//! The output sheet.

/// "A datagram's reply has row 255."
pub const NO_ROW: u8 = 255;

/// "Kinds: 1 send, 2 close (empty), 3 hand on."
const SEND: u8 = 1;
const CLOSE: u8 = 2;
const HAND_ON: u8 = 3;

/// The entries of one call, in order: where each begins, and their bytes.
#[derive(Default)]
pub struct Out {
    begins: Vec<usize>,
    bytes: Vec<u8>,
}

impl Out {
    pub fn clear(&mut self) {
        self.begins.clear();
        self.bytes.clear();
    }

    /// A message of this type; its payload is the parts, one behind the other.
    pub fn send(&mut self, row: u8, message_type: u16, parts: &[&[u8]]) {
        let length: usize = parts.iter().map(|part| part.len()).sum();
        self.entry(row, SEND, 8 + length);
        self.bytes.extend_from_slice(&[0x03, 0xFC]);
        self.bytes.extend_from_slice(&message_type.to_be_bytes());
        self.bytes.extend_from_slice(&(length as u32).to_be_bytes());
        for part in parts {
            self.bytes.extend_from_slice(part);
        }
    }

    pub fn close(&mut self, row: u8) {
        self.entry(row, CLOSE, 0);
    }

    pub fn hand_on(&mut self, row: u8, payload: &[u8]) {
        self.entry(row, HAND_ON, payload.len());
        self.bytes.extend_from_slice(payload);
    }

    /// "then entries: row, kind, u16 length, bytes."
    fn entry(&mut self, row: u8, kind: u8, length: usize) {
        self.begins.push(self.bytes.len());
        self.bytes.extend_from_slice(&[row, kind]);
        self.bytes.extend_from_slice(&(length as u16).to_be_bytes());
    }

    /// "u16 entry count, u16 total length, a u16 offset per entry, then entries"
    /// "Offsets count from the sheet's start; a sheet with no entry is `00 00 00 04`."
    pub fn sheet(&self) -> Vec<u8> {
        let head = 4 + 2 * self.begins.len();
        let total = head + self.bytes.len();
        let mut sheet = Vec::with_capacity(total);
        sheet.extend_from_slice(&(self.begins.len() as u16).to_be_bytes());
        sheet.extend_from_slice(&(total as u16).to_be_bytes());
        for begin in &self.begins {
            sheet.extend_from_slice(&((head + begin) as u16).to_be_bytes());
        }
        sheet.extend_from_slice(&self.bytes);
        sheet
    }
}
