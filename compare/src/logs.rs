//! Recordings, copies and headers.

use second::generate::{
    any_header, copy_case, damage, log, recorder_case, right_header, right_log, right_records,
    wrong_record, CopyCase, Dice, RecorderCase,
};
use second::log::{Header, Record, MOST_LOG};
use second::refusal::Refusal;
use second::whole_log;

use crate::library::{self, HeaderAnswer, Recorded};
use crate::same::{count, kind, number, same, same_items, Tally};

fn recorded(answer: &Result<usize, Refusal>) -> Recorded {
    Recorded {
        refusal: number(answer),
        length: *answer.as_ref().unwrap_or(&0),
    }
}

/// The same records as the library takes them, with the bytes of all blocks.
fn flat(records: &[Record]) -> (Vec<library::Record>, Vec<u8>) {
    let mut bytes = Vec::new();
    let flat = records
        .iter()
        .map(|record| match record {
            Record::Register { address, byte } => library::Record {
                tag: 1,
                value: (*address).into(),
                byte: *byte,
                ..library::Record::default()
            },
            Record::Window { offset, byte } => library::Record {
                tag: 2,
                value: *offset,
                byte: *byte,
                ..library::Record::default()
            },
            Record::Wait { ticks } => library::Record {
                tag: 3,
                value: *ticks,
                ..library::Record::default()
            },
            Record::Block {
                offset,
                bytes: block,
            } => {
                let start = bytes.len();
                bytes.extend_from_slice(block);
                library::Record {
                    tag: 4,
                    value: *offset,
                    start,
                    count: block.len(),
                    ..library::Record::default()
                }
            }
        })
        .collect();
    (flat, bytes)
}

/// Puts a record that the library alone can be given, and that is wrong like a wait of no ticks.
fn spoil(
    dice: &mut Dice,
    records: &mut Vec<Record>,
    flat: &mut Vec<library::Record>,
    bytes: usize,
) {
    let k = dice.within(0, records.len());
    let (start, count) = dice.pick(&[
        (bytes, 1),
        (bytes + 1, 0),
        (0, bytes + 1),
        (usize::MAX, 1),
        (1, usize::MAX),
    ]);
    let wrong = library::Record {
        tag: dice.pick(&[0, 5, 255, 4]),
        byte: dice.byte(),
        value: dice.within(0, 4_095) as u16,
        start,
        count,
    };
    records.insert(k, Record::Wait { ticks: 0 });
    flat.insert(k, wrong);
}

fn compare_recording(
    mut case: RecorderCase,
    spoilt: bool,
    dice: &mut Dice,
    tally: &mut Tally,
) -> Result<(), String> {
    let (mut records, bytes) = flat(&case.records);
    if spoilt {
        spoil(dice, &mut case.records, &mut records, bytes.len());
    }
    let mut buffer = case.buffer.clone();
    let answer = whole_log::record(case.header, &case.records, &mut case.buffer);
    let kind = match kind(case.header.kind) {
        0 => 0,
        _ => dice.pick(&[1, 2, 255]),
    };
    let found = library::record_log(kind, case.header.clock, &records, &bytes, &mut buffer);
    same("a recording's answer", recorded(&answer), found)?;
    same_items("recorded bytes", &case.buffer, &buffer)?;
    count(tally, format!("recording {}", found.refusal));
    Ok(())
}

fn compare_copy(mut case: CopyCase, tally: &mut Tally) -> Result<(), String> {
    let mut buffer = case.buffer.clone();
    let answer = whole_log::copy(&case.log, &mut case.buffer);
    let found = library::copy_log(&case.log, &mut buffer);
    same("a copy's answer", recorded(&answer), found)?;
    same_items("copied bytes", &case.buffer, &buffer)?;
    count(tally, format!("copy {}", found.refusal));
    Ok(())
}

fn drawn(dice: &mut Dice, length: usize) -> Vec<u8> {
    (0..length).map(|_| dice.byte()).collect()
}

/// For each record of a list, the length of the log up to it, and first that of the header alone.
fn lengths(header: Header, records: &[Record]) -> Result<Vec<usize>, String> {
    let mut room = vec![0; 8_192 * (records.len() + 1)];
    (0..=records.len())
        .map(|count| whole_log::record(header, &records[..count], &mut room))
        .collect::<Result<_, _>>()
        .map_err(|refusal| format!("a right list is refused: {refusal:?}"))
}

/// A list with a wrong record at each place, and with none, into buffers that have just room up to each record, and
/// into those that are a byte shorter.
fn compare_each_place(dice: &mut Dice, tally: &mut Tally) -> Result<(), String> {
    let count = dice.within(0, 5);
    let right = right_records(dice, count, u16::MAX);
    let lengths = lengths(right_header(dice), &right)?;
    let header = any_header(dice);
    for place in 0..=count + 1 {
        let mut records = right.clone();
        if place <= count {
            records.insert(place, wrong_record(dice));
        }
        for length in lengths.iter().flat_map(|&length| [length - 1, length]) {
            let case = RecorderCase {
                header,
                records: records.clone(),
                buffer: drawn(dice, length),
            };
            compare_recording(case, dice.one_in(4), dice, tally)?;
        }
    }
    Ok(())
}

/// Short logs: as they are, with one bit turned, cut, and damaged otherwise.
fn damaged_logs(dice: &mut Dice) -> Vec<Vec<u8>> {
    let count = dice.within(0, 5);
    let mut log = right_log(dice, count, u16::MAX);
    if log.len() > 200 {
        log = right_log(dice, 0, 0);
    }
    let mut logs: Vec<_> = (0..=log.len()).map(|cut| log[..cut].to_vec()).collect();
    for bit in 0..8 * log.len() {
        let mut turned = log.clone();
        turned[bit / 8] ^= 0x80 >> (bit % 8);
        logs.push(turned);
    }
    for _ in 0..20 {
        let mut damaged = log.clone();
        damage(dice, &mut damaged);
        logs.push(damaged);
    }
    logs
}

/// Each of these logs into a buffer of its length, into one that is a byte shorter, and into a short one.
fn compare_each_damage(dice: &mut Dice, tally: &mut Tally) -> Result<(), String> {
    for log in damaged_logs(dice) {
        let short = dice.within(0, log.len());
        for length in [log.len(), log.len().saturating_sub(1), short] {
            let case = CopyCase {
                log: log.clone(),
                buffer: drawn(dice, length),
            };
            compare_copy(case, tally)?;
        }
    }
    Ok(())
}

fn compare_header(log: &[u8], tally: &mut Tally) -> Result<(), String> {
    let expected = match Header::read(log) {
        Ok(header) => HeaderAnswer {
            refusal: 0,
            kind: kind(header.kind),
            clock: header.clock,
        },
        Err(refusal) => HeaderAnswer {
            refusal: refusal.number(),
            kind: 0,
            clock: 0,
        },
    };
    let found = library::check_header(log);
    same("a header", expected, found)?;
    count(tally, format!("header {}", found.refusal));
    Ok(())
}

/// Draws lists of records, logs to be copied, and headers.
pub fn compare(dice: &mut Dice, tally: &mut Tally) -> Result<(), String> {
    let case = recorder_case(dice);
    compare_recording(case, dice.one_in(4), dice, tally)?;
    let case = copy_case(dice);
    compare_copy(case, tally)?;
    if dice.one_in(4) {
        compare_each_place(dice, tally)?;
        compare_each_damage(dice, tally)?;
    }
    compare_headers(dice, tally)
}

fn compare_headers(dice: &mut Dice, tally: &mut Tally) -> Result<(), String> {
    let mut drawn = log(dice, 20);
    compare_header(&drawn, tally)?;
    // the same log with other fields in its header
    let header = any_header(dice);
    let fields = [dice.pick(&[0x10, 0x18, 0x11, 0x20]), 0, 0, 0];
    for (byte, field) in drawn.iter_mut().zip(fields) {
        *byte = field;
    }
    for (byte, field) in drawn.iter_mut().zip(header.clock.to_be_bytes()).skip(1) {
        *byte = field;
    }
    compare_header(&drawn, tally)
}

/// Records whose log is as long as one may be, and so many bytes more.
fn longest(dice: &mut Dice, more: usize) -> Vec<Record> {
    let block = |bytes| Record::Block { offset: 0, bytes };
    let mut records = vec![block(drawn(dice, 4_096)); 4_090];
    records.extend(vec![Record::Wait { ticks: 65_535 }; 2_000]);
    // a block's tag and fields have 27 bits, and the end behind the last block has a byte
    let bits = 32 + 4_090 * 8 * (4 + 4_096) + 2_000 * 19;
    let start = (bits + 27usize).div_ceil(8);
    records.push(block(drawn(dice, MOST_LOG - start - 1 + more)));
    records
}

/// Logs about as long as one may be: headers, lists, and copies.
pub fn compare_longest(dice: &mut Dice, tally: &mut Tally) -> Result<(), String> {
    let header = Header {
        kind: second::chip::Kind::Rf5c164,
        clock: 12_520_000,
    };
    let buffer = drawn(dice, MOST_LOG + 100);
    for more in [1, 0] {
        for length in [MOST_LOG - 1, MOST_LOG, MOST_LOG + 100] {
            let case = RecorderCase {
                header,
                records: longest(dice, more),
                buffer: buffer[..length].to_vec(),
            };
            compare_recording(case, false, dice, tally)?;
        }
    }
    let mut log = vec![0; MOST_LOG];
    let length = whole_log::record(header, &longest(dice, 0), &mut log);
    same("the longest log", Ok(MOST_LOG), length)?;
    let mut longer = log.clone();
    longer.push(0);
    let mut wrong = log.clone();
    wrong[MOST_LOG - 1] = 1;
    for (log, length) in [
        (&log, MOST_LOG),
        (&log, MOST_LOG - 1),
        (&wrong, MOST_LOG + 1),
        (&longer, MOST_LOG + 1),
    ] {
        compare_header(log, tally)?;
        let case = CopyCase {
            log: log.clone(),
            buffer: buffer[..length].to_vec(),
        };
        compare_copy(case, tally)?;
    }
    Ok(())
}
