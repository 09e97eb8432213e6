//! Whole logs: recording a list of records, and copying a log.

use crate::log::{Header, Reader, Record, Recording};
use crate::refusal::Refusal;

/// Records a list under a header and answers the log's length. A refusal
/// leaves the buffer.
pub fn record(header: Header, records: &[Record], buffer: &mut [u8]) -> Result<usize, Refusal> {
    aside(buffer, |room| {
        let mut recording = Recording::begin(header, room)?;
        for record in records {
            recording.add(record)?;
        }
        Ok(recording.close())
    })
}

/// Reads a log and records it again. A refusal leaves the buffer.
pub fn copy(log: &[u8], buffer: &mut [u8]) -> Result<usize, Refusal> {
    aside(buffer, |room| {
        let (header, mut reader) = Reader::new(log)?;
        let mut recording = Recording::begin(header, room)?;
        while let Some(record) = reader.next_record()? {
            recording.add(&record)?;
        }
        Ok(recording.close())
    })
}

/// Records into a copy of the buffer, and puts the log into the buffer itself
/// once all of it is granted.
fn aside(
    buffer: &mut [u8],
    write: impl FnOnce(&mut [u8]) -> Result<usize, Refusal>,
) -> Result<usize, Refusal> {
    let mut room = buffer.to_vec();
    let length = write(&mut room)?;
    buffer[..length].copy_from_slice(&room[..length]);
    Ok(length)
}

/// The header and the list of records of an accepted log.
pub fn read(log: &[u8]) -> Result<(Header, Vec<Record>), Refusal> {
    let (header, mut reader) = Reader::new(log)?;
    let mut records = Vec::new();
    while let Some(record) = reader.next_record()? {
        records.push(record);
    }
    Ok((header, records))
}

#[cfg(test)]
mod tests {
    use super::*;
    use crate::chip::Kind;

    const HEADER: Header = Header {
        kind: Kind::Rf5c164,
        clock: 12_500_000,
    };

    fn some_records() -> Vec<Record> {
        vec![
            Record::Register {
                address: 8,
                byte: 0xFE,
            },
            Record::Block {
                offset: 4_094,
                bytes: vec![0xAB, 0xCD],
            },
            Record::Window {
                offset: 4_095,
                byte: 0x55,
            },
            Record::Wait { ticks: 65_535 },
            Record::Block {
                offset: 0,
                bytes: vec![0x12; 4_096],
            },
        ]
    }

    #[test]
    fn a_log_reads_back_and_copies() {
        let mut buffer = vec![0xEE; 5_000];
        let length = record(HEADER, &some_records(), &mut buffer).unwrap();
        let log = &buffer[..length];
        assert_eq!(read(log), Ok((HEADER, some_records())));
        let mut copied = vec![0xEE; length];
        assert_eq!(copy(log, &mut copied), Ok(length));
        assert_eq!(copied, log);
    }

    #[test]
    fn a_granted_log_leaves_the_bytes_behind_it() {
        let mut buffer = vec![0xEE; 5_000];
        let length = record(HEADER, &some_records(), &mut buffer).unwrap();
        let log = buffer[..length].to_vec();
        assert_eq!(buffer[length..], vec![0xEE; 5_000 - length]);
        let mut copied = vec![0xEE; 5_000];
        assert_eq!(copy(&log, &mut copied), Ok(length));
        assert_eq!(copied, buffer);
    }

    #[test]
    fn a_refused_list_leaves_the_buffer() {
        let wrong = Record::Block {
            offset: 4_095,
            bytes: vec![1, 2],
        };
        let mut room = vec![0xEE; 10_000];
        for place in 0..=some_records().len() {
            let mut records = some_records();
            records.insert(place, wrong.clone());
            let length = record(HEADER, &records[..place], &mut room).unwrap();

            // room for all that comes before
            let mut buffer = vec![0xEE; length];
            assert_eq!(record(HEADER, &records, &mut buffer), Err(Refusal::Field));
            assert_eq!(buffer, vec![0xEE; length]);

            // a byte less, with the wrong record and without
            for list in [&records[..], &records[..place]] {
                let mut short = vec![0xEE; length - 1];
                assert_eq!(record(HEADER, list, &mut short), Err(Refusal::NoRoom));
                assert_eq!(short, vec![0xEE; length - 1]);
            }
        }
    }

    #[test]
    fn a_wrong_header_comes_before_the_records() {
        let fast = Header {
            clock: 12_520_001,
            ..HEADER
        };
        let wrong = [Record::Wait { ticks: 0 }];
        for length in [0, 4, 5, 100] {
            let mut buffer = vec![0xEE; length];
            assert_eq!(record(fast, &wrong, &mut buffer), Err(Refusal::Header));
            let refusal = if length < 5 {
                Refusal::NoRoom
            } else {
                Refusal::Field
            };
            assert_eq!(record(HEADER, &wrong, &mut buffer), Err(refusal));
            assert_eq!(buffer, vec![0xEE; length]);
        }
    }

    #[test]
    fn a_refused_copy_leaves_the_buffer() {
        let mut buffer = vec![0xEE; 5_000];
        let length = record(HEADER, &some_records(), &mut buffer).unwrap();
        let log = &buffer[..length];
        let cut = &log[..length - 2];
        let mut copied = vec![0xEE; 5_000];
        assert_eq!(copy(cut, &mut copied), Err(Refusal::Cut));
        assert_eq!(copied, vec![0xEE; 5_000]);

        for short in 0..length {
            let mut buffer = vec![0xEE; short];
            assert_eq!(copy(log, &mut buffer), Err(Refusal::NoRoom));
            assert_eq!(buffer, vec![0xEE; short]);
        }
    }

    #[test]
    fn a_copy_is_refused_by_what_comes_first() {
        let mut buffer = vec![0xEE; 5_000];
        let length = record(HEADER, &some_records(), &mut buffer).unwrap();
        // no room for the last record, whose bytes are cut
        let cut = &buffer[..length - 2];
        let before = record(HEADER, &some_records()[..4], &mut [0; 100]).unwrap();
        assert_eq!(copy(cut, &mut vec![0; before]), Err(Refusal::Cut));
        assert_eq!(copy(cut, &mut vec![0; before - 1]), Err(Refusal::NoRoom));

        let mut short = [0xEE; 4];
        assert_eq!(copy(cut, &mut short), Err(Refusal::NoRoom));
        assert_eq!(copy(&[0; 3], &mut short), Err(Refusal::LogLength));
        assert_eq!(copy(&[0; 4], &mut short), Err(Refusal::Header));
        assert_eq!(short, [0xEE; 4]);
    }
}
