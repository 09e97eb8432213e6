//! Register logs: header, reader and recorder.

use crate::chip::Kind;
use crate::refusal::Refusal;

pub const LEAST_LOG: usize = 4;
pub const MOST_LOG: usize = 16_777_216;

/// The first bit after the header.
pub const FIRST_RECORD: usize = 32;

#[derive(Clone, Copy, Debug, PartialEq, Eq)]
pub struct Header {
    pub kind: Kind,
    /// In hertz.
    pub clock: u32,
}

impl Header {
    pub fn is_right(&self) -> bool {
        let most = match self.kind {
            Kind::Rf5c68a => 10_000_000,
            Kind::Rf5c164 => 12_520_000,
        };
        (1..=most).contains(&self.clock)
    }

    /// The header of a log.
    pub fn read(log: &[u8]) -> Result<Header, Refusal> {
        if log.len() < LEAST_LOG || log.len() > MOST_LOG {
            return Err(Refusal::LogLength);
        }
        let version = field(log, 0, 4);
        let kind = match field(log, 4, 1) {
            0 => Kind::Rf5c68a,
            _ => Kind::Rf5c164,
        };
        let spare = field(log, 5, 3);
        let clock = field(log, 8, 24);
        let header = Header { kind, clock };
        if version != 1 || spare != 0 || !header.is_right() {
            return Err(Refusal::Header);
        }
        Ok(header)
    }

    fn bytes(&self) -> [u8; 4] {
        let first = match self.kind {
            Kind::Rf5c68a => 0x10,
            Kind::Rf5c164 => 0x18,
        };
        let [_, high, middle, low] = self.clock.to_be_bytes();
        [first, high, middle, low]
    }
}

#[derive(Clone, Debug, PartialEq, Eq)]
pub enum Record {
    Register { address: u8, byte: u8 },
    Window { offset: u16, byte: u8 },
    Wait { ticks: u16 },
    Block { offset: u16, bytes: Vec<u8> },
}

impl Record {
    /// Whether all fields are in their ranges.
    pub fn is_right(&self) -> bool {
        match self {
            Record::Register { address, .. } => *address <= 8,
            Record::Window { offset, .. } => *offset <= 4_095,
            Record::Wait { ticks } => *ticks >= 1,
            Record::Block { offset, bytes } => {
                *offset <= 4_095 && !bytes.is_empty() && usize::from(*offset) + bytes.len() <= 4_096
            }
        }
    }

    /// The bit behind the record, if it begins at `bit`.
    fn end(&self, bit: usize) -> usize {
        match self {
            Record::Register { .. } => bit + 3 + 4 + 8,
            Record::Window { .. } => bit + 3 + 12 + 8,
            Record::Wait { .. } => bit + 3 + 16,
            Record::Block { bytes, .. } => boundary(bit + 3 + 12 + 12) + 8 * bytes.len(),
        }
    }
}

/// The first byte boundary at or behind a bit.
fn boundary(bit: usize) -> usize {
    bit.div_ceil(8) * 8
}

/// The number in `width` bits from `bit` on, the most significant bit first.
/// The log has these bits.
fn field(log: &[u8], bit: usize, width: usize) -> u32 {
    let mut number = 0;
    for place in bit..bit + width {
        let value = log[place / 8] >> (7 - place % 8) & 1;
        number = number * 2 + u32::from(value);
    }
    number
}

/// Puts a number into `width` bits from `bit` on.
fn put_field(buffer: &mut [u8], bit: usize, width: usize, number: u32) {
    for index in 0..width {
        let place = bit + index;
        let mask = 1 << (7 - place % 8);
        if number >> (width - 1 - index) & 1 == 1 {
            buffer[place / 8] |= mask;
        } else {
            buffer[place / 8] &= !mask;
        }
    }
}

/// What stands at a place of a log.
#[derive(Clone, Debug, PartialEq, Eq)]
pub enum Found {
    /// A record, and the bit behind it.
    Record(Record, usize),
    End,
}

/// What stands at a bit of a log, or what is wrong there.
pub fn decode(log: &[u8], bit: usize) -> Result<Found, Refusal> {
    let bits = log.len() * 8;
    let has = |from: usize, width: usize| from <= bits && width <= bits - from;

    if !has(bit, 3) {
        return Err(Refusal::Cut);
    }
    let tag = field(log, bit, 3);
    let fields = bit + 3;
    match tag {
        0 => {
            let padding_end = boundary(fields);
            if field(log, fields, padding_end - fields) != 0 || bits != padding_end {
                return Err(Refusal::Padding);
            }
            Ok(Found::End)
        }
        1 => {
            if !has(fields, 4 + 8) {
                return Err(Refusal::Cut);
            }
            let address = field(log, fields, 4) as u8;
            let byte = field(log, fields + 4, 8) as u8;
            checked(Record::Register { address, byte }, bit)
        }
        2 => {
            if !has(fields, 12 + 8) {
                return Err(Refusal::Cut);
            }
            let offset = field(log, fields, 12) as u16;
            let byte = field(log, fields + 12, 8) as u8;
            checked(Record::Window { offset, byte }, bit)
        }
        3 => {
            if !has(fields, 16) {
                return Err(Refusal::Cut);
            }
            let ticks = field(log, fields, 16) as u16;
            checked(Record::Wait { ticks }, bit)
        }
        4 => {
            if !has(fields, 12 + 12) {
                return Err(Refusal::Cut);
            }
            let offset = field(log, fields, 12) as usize;
            let length = field(log, fields + 12, 12) as usize + 1;
            if offset + length > 4_096 {
                return Err(Refusal::Field);
            }
            let padding = fields + 24;
            let start = boundary(padding);
            if field(log, padding, start - padding) != 0 {
                return Err(Refusal::Padding);
            }
            if !has(start, 8 * length) {
                return Err(Refusal::Cut);
            }
            let bytes = log[start / 8..start / 8 + length].to_vec();
            let record = Record::Block {
                offset: offset as u16,
                bytes,
            };
            checked(record, bit)
        }
        _ => Err(Refusal::Tag),
    }
}

fn checked(record: Record, bit: usize) -> Result<Found, Refusal> {
    if !record.is_right() {
        return Err(Refusal::Field);
    }
    let next = record.end(bit);
    Ok(Found::Record(record, next))
}

/// A log and a place in bits.
#[derive(Clone, Debug, PartialEq, Eq)]
pub struct Reader<'a> {
    pub log: &'a [u8],
    pub bit: usize,
}

impl<'a> Reader<'a> {
    /// A reader at the first record of a log with a right header.
    pub fn new(log: &'a [u8]) -> Result<(Header, Reader<'a>), Refusal> {
        let header = Header::read(log)?;
        Ok((header, Reader::at(log, FIRST_RECORD)))
    }

    pub fn at(log: &'a [u8], bit: usize) -> Reader<'a> {
        Reader { log, bit }
    }

    /// The record at the place, or none at the end. The place moves past a
    /// record, and stays at the end and at a fault.
    pub fn next_record(&mut self) -> Result<Option<Record>, Refusal> {
        match decode(self.log, self.bit)? {
            Found::Record(record, next) => {
                self.bit = next;
                Ok(Some(record))
            }
            Found::End => Ok(None),
        }
    }
}

/// A log that is being written into a lent buffer.
#[derive(Debug, PartialEq, Eq)]
pub struct Recording<'a> {
    buffer: &'a mut [u8],
    bit: usize,
}

impl<'a> Recording<'a> {
    pub fn begin(header: Header, buffer: &'a mut [u8]) -> Result<Recording<'a>, Refusal> {
        if !header.is_right() {
            return Err(Refusal::Header);
        }
        check_room(buffer, FIRST_RECORD)?;
        buffer[..4].copy_from_slice(&header.bytes());
        let mut recording = Recording {
            buffer,
            bit: FIRST_RECORD,
        };
        recording.put_end();
        Ok(recording)
    }

    pub fn add(&mut self, record: &Record) -> Result<(), Refusal> {
        if !record.is_right() {
            return Err(Refusal::Field);
        }
        let next = record.end(self.bit);
        check_room(self.buffer, next)?;
        match record {
            Record::Register { address, byte } => {
                self.put(3, 1);
                self.put(4, u32::from(*address));
                self.put(8, u32::from(*byte));
            }
            Record::Window { offset, byte } => {
                self.put(3, 2);
                self.put(12, u32::from(*offset));
                self.put(8, u32::from(*byte));
            }
            Record::Wait { ticks } => {
                self.put(3, 3);
                self.put(16, u32::from(*ticks));
            }
            Record::Block { offset, bytes } => {
                self.put(3, 4);
                self.put(12, u32::from(*offset));
                self.put(12, bytes.len() as u32 - 1);
                self.put(boundary(self.bit) - self.bit, 0);
                for byte in bytes {
                    self.put(8, u32::from(*byte));
                }
            }
        }
        self.put_end();
        Ok(())
    }

    /// The bit at which the end stands.
    pub fn bit(&self) -> usize {
        self.bit
    }

    /// The length in bytes of the log so far.
    pub fn length(&self) -> usize {
        log_length(self.bit)
    }

    /// Ends the recording and answers the log's length.
    pub fn close(self) -> usize {
        self.length()
    }

    /// Ends the recording.
    pub fn abandon(self) {}

    fn put(&mut self, width: usize, number: u32) {
        put_field(self.buffer, self.bit, width, number);
        self.bit += width;
    }

    fn put_end(&mut self) {
        let width = boundary(self.bit + 3) - self.bit;
        put_field(self.buffer, self.bit, width, 0);
    }
}

/// The length in bytes of a log whose end stands at a bit.
fn log_length(bit: usize) -> usize {
    (bit + 3).div_ceil(8)
}

fn check_room(buffer: &[u8], bit: usize) -> Result<(), Refusal> {
    if log_length(bit) > buffer.len().min(MOST_LOG) {
        Err(Refusal::NoRoom)
    } else {
        Ok(())
    }
}

#[cfg(test)]
mod tests {
    use super::*;

    const HEADER: [u8; 4] = [0x10, 0x98, 0x96, 0x80];

    fn log(rest: &[u8]) -> Vec<u8> {
        let mut bytes = HEADER.to_vec();
        bytes.extend(rest);
        bytes
    }

    fn first(rest: &[u8]) -> Result<Option<Record>, Refusal> {
        Reader::at(&log(rest), FIRST_RECORD).next_record()
    }

    #[test]
    fn headers() {
        let right = Header {
            kind: Kind::Rf5c68a,
            clock: 10_000_000,
        };
        assert_eq!(Header::read(&HEADER), Ok(right));
        assert_eq!(Header::read(&HEADER[..3]), Err(Refusal::LogLength));
        assert_eq!(Header::read(&[0x20; 3]), Err(Refusal::LogLength));
        assert_eq!(
            Header::read(&vec![0; MOST_LOG + 1]),
            Err(Refusal::LogLength)
        );
        for wrong in [
            [0x00, 0x98, 0x96, 0x80],
            [0x11, 0x98, 0x96, 0x80],
            [0x10, 0x98, 0x96, 0x81],
            [0x10, 0x00, 0x00, 0x00],
            [0x18, 0xBF, 0x0A, 0x41],
        ] {
            assert_eq!(Header::read(&wrong), Err(Refusal::Header));
        }
        let fast = Header {
            kind: Kind::Rf5c164,
            clock: 12_520_000,
        };
        assert_eq!(Header::read(&[0x18, 0xBF, 0x0A, 0x40]), Ok(fast));
        assert_eq!(fast.bytes(), [0x18, 0xBF, 0x0A, 0x40]);
    }

    #[test]
    fn known_logs() {
        assert_eq!(first(&[0x00]), Ok(None));
        let bytes = log(&[0x2F, 0x80, 0x00]);
        let (_, mut reader) = Reader::new(&bytes).unwrap();
        let register = Record::Register {
            address: 7,
            byte: 0xC0,
        };
        assert_eq!(reader.next_record(), Ok(Some(register)));
        assert_eq!(reader.bit, 47);
        assert_eq!(reader.next_record(), Ok(None));
        assert_eq!(reader.bit, 47);
    }

    #[test]
    fn what_is_wrong_with_a_record() {
        // A cut tag, wrong tags, cut fields.
        assert_eq!(first(&[]), Err(Refusal::Cut));
        for tag in [5, 6, 7] {
            assert_eq!(first(&[tag << 5]), Err(Refusal::Tag));
        }
        for tag in [1, 2, 3, 4] {
            assert_eq!(first(&[tag << 5]), Err(Refusal::Cut));
        }
        // Fields out of their ranges, with a padding bit set and no bytes.
        assert_eq!(first(&[0x32, 0x00]), Err(Refusal::Field));
        assert_eq!(first(&[0x60, 0x00, 0x00]), Err(Refusal::Field));
        assert_eq!(first(&[0x9F, 0xFE, 0x00, 0x3F]), Err(Refusal::Field));
        // A set padding bit before cut block bytes.
        assert_eq!(first(&[0x80, 0x00, 0x00, 0x01]), Err(Refusal::Padding));
        assert_eq!(first(&[0x80, 0x00, 0x00, 0x00]), Err(Refusal::Cut));
        // The end.
        assert_eq!(first(&[0x01]), Err(Refusal::Padding));
        assert_eq!(first(&[0x00, 0x00]), Err(Refusal::Padding));
    }

    #[test]
    fn a_tag_may_be_cut_after_some_bits() {
        // A register ends at bit 47, a second one at bit 62: two bits are left.
        let bytes = log(&[0x20, 0x00, 0x40, 0x00]);
        let mut reader = Reader::at(&bytes, FIRST_RECORD);
        assert!(reader.next_record().is_ok());
        assert!(reader.next_record().is_ok());
        assert_eq!(reader.bit, 62);
        assert_eq!(reader.next_record(), Err(Refusal::Cut));
        assert_eq!(reader.bit, 62);
    }

    #[test]
    fn a_recording_is_always_a_whole_log() {
        let mut buffer = [0xEE; 16];
        let header = Header::read(&HEADER).unwrap();
        let mut recording = Recording::begin(header, &mut buffer).unwrap();
        assert_eq!(recording.length(), 5);
        recording
            .add(&Record::Register {
                address: 7,
                byte: 0xC0,
            })
            .unwrap();
        assert_eq!(recording.length(), 7);
        let wrong = Record::Wait { ticks: 0 };
        assert_eq!(recording.add(&wrong), Err(Refusal::Field));
        let long = Record::Block {
            offset: 0,
            bytes: vec![1; 9],
        };
        assert_eq!(recording.add(&long), Err(Refusal::NoRoom));
        assert_eq!(recording.close(), 7);
        assert_eq!(buffer[..7], log(&[0x2F, 0x80, 0x00]));
        assert_eq!(buffer[7..], [0xEE; 9]);
    }

    #[test]
    fn a_header_needs_five_bytes() {
        let header = Header::read(&HEADER).unwrap();
        let mut buffer = [0xEE; 4];
        assert_eq!(
            Recording::begin(header, &mut buffer).err(),
            Some(Refusal::NoRoom)
        );
        let wrong = Header {
            clock: 10_000_001,
            ..header
        };
        assert_eq!(
            Recording::begin(wrong, &mut buffer).err(),
            Some(Refusal::Header)
        );
        assert_eq!(buffer, [0xEE; 4]);
    }

    #[test]
    fn a_recording_ends_at_the_longest_log() {
        let header = Header::read(&HEADER).unwrap();
        let mut buffer = vec![0xEE; MOST_LOG + 100];
        let mut recording = Recording::begin(header, &mut buffer).unwrap();
        let block = Record::Block {
            offset: 0,
            bytes: vec![1; 4_096],
        };
        while recording.add(&block).is_ok() {}
        let byte = Record::Window { offset: 0, byte: 1 };
        while recording.add(&byte).is_ok() {}
        let length = recording.close();
        assert!(length <= MOST_LOG && length > MOST_LOG - 4);
        assert!(buffer[length..].iter().all(|&byte| byte == 0xEE));
    }
}
