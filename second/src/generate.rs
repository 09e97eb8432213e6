//! Inputs by chance: the same seed gives the same inputs.

use crate::calls::Call;
use crate::chip::{Converter, Kind, Setup, WAVE_SIZE};
use crate::log::{Header, Record};
use crate::memory::{contents, Access, AnyMemory, Memory, MOST_PLACES, STOP};
use crate::pitch::Tone;
use crate::station;
use crate::stem;
use crate::voice::Pair;
use crate::whole_log;

/// Numbers by chance.
#[derive(Clone, Debug)]
pub struct Dice {
    state: u64,
}

impl Dice {
    pub fn new(seed: u64) -> Dice {
        Dice { state: seed }
    }

    /// The next number of 64 bits (splitmix64).
    pub fn number(&mut self) -> u64 {
        self.state = self.state.wrapping_add(0x9E37_79B9_7F4A_7C15);
        let mut z = self.state;
        z = (z ^ (z >> 30)).wrapping_mul(0xBF58_476D_1CE4_E5B9);
        z = (z ^ (z >> 27)).wrapping_mul(0x94D0_49BB_1331_11EB);
        z ^ (z >> 31)
    }

    /// A number from `low` to `high`, both included.
    pub fn within(&mut self, low: usize, high: usize) -> usize {
        low + (self.number() % (high - low + 1) as u64) as usize
    }

    /// True once in `count` times.
    pub fn one_in(&mut self, count: usize) -> bool {
        self.within(1, count) == 1
    }

    pub fn byte(&mut self) -> u8 {
        self.number() as u8
    }

    pub fn pick<T: Clone>(&mut self, list: &[T]) -> T {
        list[self.within(0, list.len() - 1)].clone()
    }
}

// Setups and memories.

pub fn kind(dice: &mut Dice) -> Kind {
    dice.pick(&[Kind::Rf5c68a, Kind::Rf5c164])
}

/// A mute set, or a group of voices. Most often there is little in it.
pub fn mute(dice: &mut Dice) -> u8 {
    match dice.within(0, 7) {
        0..=3 => 0,
        4 | 5 => 1 << dice.within(0, 7),
        6 => dice.byte(),
        _ => dice.pick(&[0xFF, 0x0F, 0xF0, 0x55, 0xAA]),
    }
}

pub fn setup(dice: &mut Dice) -> Setup {
    Setup {
        kind: kind(dice),
        converter: dice.pick(&Converter::ALL),
        mute: mute(dice),
    }
}

/// Places at which loops of one case start.
pub type Loops = [u16; 4];

pub fn loops(dice: &mut Dice) -> Loops {
    std::array::from_fn(|_| match dice.within(0, 5) {
        0 => dice.pick(&[0, 0xFFFF, 0xFFFE, 0x8000, 0x7FFF]),
        1 => dice.within(0, 0x0FFF) as u16,
        _ => dice.within(0, 0xFFFF) as u16,
    })
}

/// Wave bytes with stop bytes, few or many. Some loops start at a stop byte.
pub fn wave(dice: &mut Dice, size: usize, loops: &Loops) -> Vec<u8> {
    let sparsity = dice.pick(&[3, 16, 64, 500, 5_000]);
    let style = dice.within(0, 3);
    let mut bytes: Vec<u8> = (0..size)
        .map(|place| match style {
            // Loud on one side of zero, so that totals clip.
            0 => 0x70 + (place % 16) as u8,
            1 => 0xF0 + (place % 15) as u8,
            _ => dice.byte() % 0xFF,
        })
        .collect();
    for byte in bytes.iter_mut() {
        if dice.one_in(sparsity) {
            *byte = STOP;
        }
    }
    for &start in loops {
        if let Some(byte) = bytes.get_mut(usize::from(start)) {
            if dice.one_in(3) {
                *byte = STOP;
            } else if *byte == STOP {
                *byte = 0xC5;
            }
        }
    }
    bytes
}

/// A memory that holds these bytes: a RAM, a ROM, or a board of such.
pub fn memory_of(dice: &mut Dice, bytes: Vec<u8>) -> AnyMemory {
    match dice.within(0, 9) {
        0..=4 => AnyMemory::ram(bytes),
        5 => AnyMemory::rom(bytes),
        _ => {
            let size = bytes.len();
            let split = match dice.within(0, 4) {
                0 => size / 2,
                1 => dice.pick(&[0, size]),
                2 => size / 16 * dice.within(0, 16),
                _ => dice.within(0, size),
            };
            let second = bytes[split..].to_vec();
            let mut first = bytes;
            first.truncate(split);
            let first = memory_of(dice, first);
            let second = memory_of(dice, second);
            AnyMemory::board(first, second)
        }
    }
}

/// A memory that a chip accepts. Most often it takes writes everywhere.
pub fn right_memory(dice: &mut Dice, loops: &Loops) -> AnyMemory {
    let bytes = wave(dice, WAVE_SIZE, loops);
    if dice.one_in(2) {
        AnyMemory::ram(bytes)
    } else {
        memory_of(dice, bytes)
    }
}

/// A memory that a chip refuses.
pub fn wrong_memory(dice: &mut Dice, loops: &Loops) -> AnyMemory {
    let size = match dice.within(0, 2) {
        0 => dice.pick(&[0, 1, 32_768, 65_535, 65_537]),
        1 => dice.pick(&[131_071, 131_072, 131_073, 140_000, 196_608]),
        _ => {
            let size = dice.within(0, 140_000);
            if size == WAVE_SIZE {
                0
            } else {
                size
            }
        }
    };
    let bytes = wave(dice, size, loops);
    memory_of(dice, bytes)
}

pub fn memory(dice: &mut Dice, loops: &Loops) -> AnyMemory {
    if dice.one_in(12) {
        wrong_memory(dice, loops)
    } else {
        right_memory(dice, loops)
    }
}

/// A memory of any size, most often a small one.
pub fn any_size_memory(dice: &mut Dice) -> AnyMemory {
    let loops = loops(dice);
    match dice.within(0, 9) {
        0 => wrong_memory(dice, &loops),
        1 => right_memory(dice, &loops),
        2 => {
            // A board of which the second part is partly or never reached.
            let first_size = MOST_PLACES - dice.within(0, 20);
            let second_size = dice.within(0, 40);
            let first = wave(dice, first_size, &loops);
            let second = wave(dice, second_size, &loops);
            let first = memory_of(dice, first);
            let second = memory_of(dice, second);
            AnyMemory::board(first, second)
        }
        _ => {
            let size = dice.within(0, 100);
            let bytes = wave(dice, size, &loops);
            memory_of(dice, bytes)
        }
    }
}

/// Places of a memory, its edges and the edges of its parts among them.
pub fn place(dice: &mut Dice, memory: &AnyMemory) -> usize {
    let size = memory.size();
    match dice.within(0, 7) {
        0 => (size + dice.within(0, 2)).saturating_sub(1),
        1 => dice.pick(&[0, 1, 65_535, 65_536, 131_071, 131_072, 131_073]),
        2 | 3 => {
            let parts = memory.parts();
            let count = dice.within(0, parts.len());
            let edge: usize = parts[..count].iter().map(|part| part.len()).sum();
            (edge + dice.within(0, 2)).saturating_sub(1)
        }
        _ => dice.within(0, size + 2),
    }
}

pub fn accesses(dice: &mut Dice, memory: &AnyMemory, count: usize) -> Vec<Access> {
    (0..count)
        .map(|_| {
            let place = place(dice, memory);
            if dice.one_in(2) {
                Access::Read { place }
            } else {
                let byte = dice.byte();
                Access::Write { place, byte }
            }
        })
        .collect()
}

/// A place to search for a stop byte from.
pub fn stop_search(dice: &mut Dice, memory: &AnyMemory) -> usize {
    let stops: Vec<usize> = contents(memory)
        .iter()
        .enumerate()
        .filter(|(_, &byte)| byte == STOP)
        .map(|(place, _)| place)
        .collect();
    if stops.is_empty() || dice.one_in(3) {
        return place(dice, memory);
    }
    let near = dice.pick(&stops);
    (near + dice.within(0, 2)).saturating_sub(1)
}

// Calls on a chip.

/// A step of a voice: none, small, about whole places, or any.
pub fn fd(dice: &mut Dice) -> u16 {
    match dice.within(0, 7) {
        0 => dice.pick(&[0, 1, 0xFFFF, 0xF800, 0x07FF]),
        1 => dice.within(0, 0x0100) as u16,
        2 | 3 => 0x0800 * dice.within(1, 6) as u16,
        4 | 5 => dice.within(0x0400, 0x2000) as u16,
        _ => dice.within(0, 0xFFFF) as u16,
    }
}

fn write(address: u32, byte: u8) -> Call {
    Call::Write { address, byte }
}

/// Selects a voice, the chip ON.
fn select(k: usize) -> Call {
    write(7, 0xC0 | k as u8)
}

fn one_register(dice: &mut Dice, loops: &Loops, calls: &mut Vec<Call>) {
    let loud = dice.one_in(2);
    match dice.within(0, 6) {
        0 => calls.push(write(0, if loud { 0xFF } else { dice.byte() })),
        1 => calls.push(write(1, if loud { 0xFF } else { dice.byte() })),
        2 | 3 => {
            let [high, low] = fd(dice).to_be_bytes();
            calls.push(write(2, low));
            calls.push(write(3, high));
        }
        4 | 5 => {
            let [high, low] = dice.pick(loops).to_be_bytes();
            calls.push(write(4, low));
            calls.push(write(5, high));
        }
        _ => {
            let st = match dice.within(0, 2) {
                0 => dice.pick(&[0x00, 0x01, 0xFF, 0x80]),
                1 => (dice.pick(loops) >> 8) as u8,
                _ => dice.byte(),
            };
            calls.push(write(6, st));
        }
    }
}

/// All registers of a voice.
fn whole_voice(dice: &mut Dice, k: usize, loops: &Loops, calls: &mut Vec<Call>) {
    calls.push(select(k));
    let loud = dice.one_in(2);
    calls.push(write(0, if loud { 0xFF } else { dice.byte() }));
    calls.push(write(1, if loud { 0xFF } else { dice.byte() }));
    let [high, low] = fd(dice).to_be_bytes();
    calls.push(write(2, low));
    calls.push(write(3, high));
    let start = dice.pick(loops);
    let [high, low] = start.to_be_bytes();
    calls.push(write(4, low));
    calls.push(write(5, high));
    let st = if dice.one_in(4) {
        dice.byte()
    } else {
        (dice.pick(loops) >> 8) as u8
    };
    calls.push(write(6, st));
}

/// Bytes near the start of a loop, most of them stop bytes.
fn window_bytes(dice: &mut Dice, loops: &Loops, calls: &mut Vec<Call>) {
    let place = match dice.within(0, 2) {
        0 => dice.within(0, 0xFFFF),
        _ => (usize::from(dice.pick(loops)) + dice.within(0, 4)).saturating_sub(1) % WAVE_SIZE,
    };
    let on = if dice.one_in(8) { 0x00 } else { 0x80 };
    calls.push(write(7, on | (place / 4_096) as u8));
    let byte = match dice.within(0, 3) {
        0 | 1 => STOP,
        2 => dice.byte(),
        _ => dice.pick(&[0x00, 0x7F, 0x80, 0xFE]),
    };
    calls.push(write(0x1000 + (place % 4_096) as u32, byte));
}

/// An address of any sort.
fn address(dice: &mut Dice) -> u32 {
    match dice.within(0, 7) {
        0 => dice.within(0, 0x0F) as u32,
        1 | 2 => dice.within(0x10, 0x1F) as u32,
        3 => dice.pick(&[0x20, 0x0FFF, 0x1000, 0x1FFF, 0x2000, 0xFFFF]),
        4 | 5 => dice.within(0x1000, 0x1FFF) as u32,
        6 => dice.within(0, 0x1FFF) as u32,
        _ => dice.within(0, 0xFFFF) as u32,
    }
}

fn inspection(dice: &mut Dice) -> (usize, usize) {
    match dice.within(0, 4) {
        0 => {
            let offset = dice.within(0, 4_096);
            (offset, 4_096 - offset)
        }
        1 => {
            let offset = dice.within(4_080, 4_100);
            (offset, dice.within(0, 20))
        }
        2 => dice.pick(&[
            (0, 4_096),
            (0, 4_097),
            (1, 4_096),
            (4_096, 0),
            (4_097, 0),
            (65_535, 0),
        ]),
        _ => (dice.within(0, 4_095), dice.within(0, 16)),
    }
}

/// About `count` calls, of which many let voices sound and loop.
pub fn chip_calls(dice: &mut Dice, loops: &Loops, count: usize) -> Vec<Call> {
    let mut calls = Vec::new();
    if !dice.one_in(4) {
        for k in 0..8 {
            whole_voice(dice, k, loops, &mut calls);
        }
        calls.push(write(8, 0x00));
    }
    while calls.len() < count {
        match dice.within(0, 31) {
            0..=4 => {
                calls.push(select(dice.within(0, 7)));
                one_register(dice, loops, &mut calls);
            }
            5 => {
                let k = dice.within(0, 7);
                whole_voice(dice, k, loops, &mut calls);
            }
            6..=8 => window_bytes(dice, loops, &mut calls),
            9 => {
                let bytes = [0x00, dice.byte(), 1 << dice.within(0, 7)];
                calls.push(write(8, dice.pick(&bytes)));
            }
            10 => calls.push(write(7, dice.byte())),
            11 => {
                // Off and on again, with or without a tick between.
                calls.push(write(7, dice.byte() & 0x7F));
                if dice.one_in(2) {
                    calls.push(Call::Tick);
                }
                calls.push(write(7, dice.byte() | 0x80));
            }
            12 => {
                // A voice off and on again, with or without a tick between.
                calls.push(write(8, 1 << dice.within(0, 7)));
                if dice.one_in(2) {
                    calls.push(Call::Tick);
                }
                calls.push(write(8, 0x00));
            }
            13 => calls.push(write(address(dice), dice.byte())),
            14 => calls.push(write(dice.within(0, 8) as u32, dice.byte())),
            15 | 16 => calls.push(Call::Read {
                address: address(dice),
            }),
            17 => calls.push(Call::Read {
                address: dice.within(0x10, 0x1F) as u32,
            }),
            18 => {
                calls.push(write(7, dice.byte() & 0x0F));
                let address = dice.within(0x1000, 0x1FFF) as u32;
                calls.push(Call::Read { address });
            }
            19 => {
                let (offset, length) = inspection(dice);
                calls.push(Call::Inspect { offset, length });
            }
            20 => calls.push(Call::Tell),
            21 if dice.one_in(8) => calls.push(Call::Reset),
            22 => calls.push(write(7, 0x80 | dice.within(0, 15) as u8)),
            _ => {
                for _ in 0..dice.within(1, 12) {
                    calls.push(Call::Tick);
                }
            }
        }
    }
    calls
}

#[derive(Clone, Debug)]
pub struct ChipCase {
    pub setup: Setup,
    pub memory: AnyMemory,
    pub calls: Vec<Call>,
}

pub fn chip_case(dice: &mut Dice, count: usize) -> ChipCase {
    let loops = loops(dice);
    ChipCase {
        setup: setup(dice),
        memory: memory(dice, &loops),
        calls: chip_calls(dice, &loops, count),
    }
}

// Headers, records and logs.

fn most_clock(kind: Kind) -> u32 {
    match kind {
        Kind::Rf5c68a => 10_000_000,
        Kind::Rf5c164 => 12_520_000,
    }
}

pub fn right_header(dice: &mut Dice) -> Header {
    let kind = kind(dice);
    let most = most_clock(kind);
    let clock = match dice.within(0, 2) {
        0 => dice.pick(&[1, most, most - 1]),
        _ => dice.within(1, most as usize) as u32,
    };
    Header { kind, clock }
}

/// A header, now and then one that no log may have.
pub fn any_header(dice: &mut Dice) -> Header {
    if !dice.one_in(8) {
        return right_header(dice);
    }
    let clock = dice.pick(&[
        0,
        1,
        10_000_000,
        10_000_001,
        12_520_000,
        12_520_001,
        0x00FF_FFFF,
        0x0100_0000,
        0x0100_0001,
        u32::MAX,
    ]);
    Header {
        kind: kind(dice),
        clock,
    }
}

fn wait(dice: &mut Dice, longest: u16) -> Record {
    let longest = usize::from(longest.max(1));
    let ticks = match dice.within(0, 5) {
        0 => longest,
        1 => 1,
        _ => dice.within(1, longest),
    };
    Record::Wait {
        ticks: ticks as u16,
    }
}

fn block(dice: &mut Dice, longest: usize) -> Record {
    let length = match dice.within(0, 5) {
        0 => longest,
        1 => 1,
        _ => dice.within(1, longest),
    };
    let room = 4_096 - length;
    let offset = match dice.within(0, 3) {
        0 => room,
        1 => 0,
        _ => dice.within(0, room),
    };
    let loops = [0; 4];
    Record::Block {
        offset: offset as u16,
        bytes: wave(dice, length, &loops),
    }
}

/// A record that a log may have.
pub fn right_record(dice: &mut Dice, longest_wait: u16) -> Record {
    match dice.within(0, 7) {
        0..=2 => Record::Register {
            address: dice.within(0, 8) as u8,
            byte: dice.byte(),
        },
        3 | 4 => Record::Window {
            offset: dice.within(0, 4_095) as u16,
            byte: dice.byte(),
        },
        5 | 6 => wait(dice, longest_wait),
        _ => {
            let longest = if dice.one_in(20) { 4_096 } else { 40 };
            block(dice, longest)
        }
    }
}

/// A record that no log may have.
pub fn wrong_record(dice: &mut Dice) -> Record {
    match dice.within(0, 5) {
        0 => Record::Register {
            address: dice.pick(&[9, 10, 15, 16, 17, 24, 255]),
            byte: dice.byte(),
        },
        1 => Record::Window {
            offset: dice.pick(&[4_096, 4_097, 8_191, 8_192, 65_535]),
            byte: dice.byte(),
        },
        2 => Record::Wait { ticks: 0 },
        3 => Record::Block {
            offset: dice.within(0, 4_097) as u16,
            bytes: vec![],
        },
        4 => {
            let length = dice.within(1, 60);
            let offset = 4_096 - length + dice.within(1, 60);
            Record::Block {
                offset: offset as u16,
                bytes: vec![dice.byte(); length],
            }
        }
        _ => Record::Block {
            offset: dice.pick(&[0, 1, 4_096, 65_535]),
            bytes: vec![dice.byte(); dice.pick(&[4_097, 4_098, 8_192])],
        },
    }
}

/// Records that do what calls on a chip do, on waves that blocks bring first.
pub fn sounding_records(dice: &mut Dice, count: usize, longest_wait: u16) -> Vec<Record> {
    let mut records = Vec::new();
    let mut loops = [0; 4];
    for start in loops.iter_mut() {
        // A page that begins with a wave, behind which are stop bytes.
        let page = dice.within(0, 255);
        let length = dice.within(20, 240);
        let mut bytes = wave(dice, length, &[0; 4]);
        bytes.extend([STOP; 8]);
        records.push(Record::Register {
            address: 7,
            byte: (page / 16) as u8,
        });
        records.push(Record::Block {
            offset: (page % 16 * 256) as u16,
            bytes,
        });
        *start = (page * 256 + dice.within(0, length - 1)) as u16;
    }
    for call in chip_calls(dice, &loops, count) {
        match call {
            Call::Write { address, byte } if address <= 8 => records.push(Record::Register {
                address: address as u8,
                byte,
            }),
            Call::Write { address, byte } if (0x1000..=0x1FFF).contains(&address) => {
                records.push(Record::Window {
                    offset: (address - 0x1000) as u16,
                    byte,
                });
            }
            Call::Tick if dice.one_in(3) => records.push(wait(dice, longest_wait)),
            Call::Inspect { .. } => records.push(block(dice, 30)),
            _ => {}
        }
    }
    records
}

/// Right records, in no order or such that voices sound.
pub fn right_records(dice: &mut Dice, count: usize, longest_wait: u16) -> Vec<Record> {
    if count < 8 || dice.one_in(4) {
        (0..count)
            .map(|_| right_record(dice, longest_wait))
            .collect()
    } else {
        sounding_records(dice, count, longest_wait)
    }
}

/// More bytes than a log of these records has.
fn room_for(records: &[Record]) -> usize {
    let bytes: usize = records
        .iter()
        .map(|record| match record {
            Record::Block { bytes, .. } => 5 + bytes.len(),
            _ => 4,
        })
        .sum();
    bytes + 16
}

fn log_of(header: Header, records: &[Record]) -> Vec<u8> {
    let mut buffer = vec![0; room_for(records)];
    let length = whole_log::record(header, records, &mut buffer).unwrap_or(0);
    buffer.truncate(length);
    buffer
}

/// A log that is accepted.
pub fn right_log(dice: &mut Dice, count: usize, longest_wait: u16) -> Vec<u8> {
    let header = right_header(dice);
    let records = right_records(dice, count, longest_wait);
    log_of(header, &records)
}

/// An accepted log of exactly so many bytes, at least 10, made of blocks.
pub fn log_of_length(dice: &mut Dice, length: usize) -> Vec<u8> {
    let header = right_header(dice);
    // The header, then a block of 4 + n bytes after another, then the end.
    let mut left = length - 5;
    let mut records = Vec::new();
    while left > 0 {
        let size = match left {
            0..=4_100 => left,
            4_101..=4_200 => left - 100,
            _ => 4_100,
        };
        left -= size;
        let bytes = wave(dice, size - 4, &[0; 4]);
        records.push(Record::Block { offset: 0, bytes });
    }
    log_of(header, &records)
}

/// Bits that are put one field after another, right or wrong.
struct Bits {
    bytes: Vec<u8>,
    count: usize,
}

impl Bits {
    fn put(&mut self, width: usize, number: usize) {
        for index in (0..width).rev() {
            if self.count.is_multiple_of(8) {
                self.bytes.push(0);
            }
            if number >> index & 1 == 1 {
                self.bytes[self.count / 8] |= 0x80 >> (self.count % 8);
            }
            self.count += 1;
        }
    }

    /// Bits up to a byte boundary, now and then with one set.
    fn pad(&mut self, dice: &mut Dice) {
        let width = self.count.next_multiple_of(8) - self.count;
        let set = if width > 0 && dice.one_in(10) {
            1 << dice.within(0, width - 1)
        } else {
            0
        };
        self.put(width, set);
    }
}

/// A log whose fields are each put by chance, some of them out of their range.
pub fn crafted_log(dice: &mut Dice, count: usize, longest_wait: u16) -> Vec<u8> {
    let mut bits = Bits {
        bytes: vec![],
        count: 0,
    };
    let right = !dice.one_in(4);
    let header = right_header(dice);
    let kind = usize::from(header.kind == Kind::Rf5c164);
    bits.put(
        4,
        if right {
            1
        } else {
            dice.pick(&[1, 1, 0, 2, 9])
        },
    );
    bits.put(1, kind);
    bits.put(
        3,
        if right {
            0
        } else {
            dice.pick(&[0, 0, 1, 4, 7])
        },
    );
    let clock = if right {
        header.clock as usize
    } else {
        let edges = [0, 1, 10_000_000, 10_000_001, 12_520_000, 12_520_001];
        dice.pick(&edges)
    };
    bits.put(24, clock);
    for _ in 0..count {
        let rare = dice.one_in(40);
        match dice.within(0, 7) {
            0..=2 => {
                bits.put(3, 1);
                bits.put(4, dice.within(0, if rare { 15 } else { 8 }));
                bits.put(8, usize::from(dice.byte()));
            }
            3 | 4 => {
                bits.put(3, 2);
                bits.put(20, dice.number() as usize);
            }
            5 => {
                bits.put(3, 3);
                let ticks = dice.within(1, usize::from(longest_wait.max(1)));
                bits.put(16, if rare { 0 } else { ticks });
            }
            6 => {
                bits.put(3, 4);
                let length = dice.within(1, 20);
                let most = 4_096 - length;
                let offset = if rare {
                    (most + dice.within(0, 3)).min(4_095)
                } else {
                    dice.within(0, most)
                };
                bits.put(12, offset);
                bits.put(12, length - 1);
                bits.pad(dice);
                for _ in 0..length {
                    bits.put(8, usize::from(dice.byte()));
                }
            }
            _ => {
                if rare {
                    bits.put(3, dice.within(0, 7));
                }
            }
        }
    }
    bits.put(3, 0);
    bits.pad(dice);
    bits.bytes
}

/// Damages a log in one place or more.
pub fn damage(dice: &mut Dice, log: &mut Vec<u8>) {
    for _ in 0..dice.within(1, 3) {
        match dice.within(0, 7) {
            0..=2 if !log.is_empty() => {
                let place = dice.within(0, log.len() - 1);
                log[place] ^= 1 << dice.within(0, 7);
            }
            3 | 4 => {
                let most = if dice.one_in(2) {
                    log.len().min(4)
                } else {
                    log.len()
                };
                log.truncate(log.len() - dice.within(0, most));
            }
            5 => {
                let fill = dice.one_in(2);
                for _ in 0..dice.within(1, 4) {
                    log.push(if fill { 0 } else { dice.byte() });
                }
            }
            6 if !log.is_empty() => {
                // The last bits are those of the end and its padding.
                let last = log.len() - 1;
                log[last] ^= 1 << dice.within(0, 7);
            }
            _ => {
                if log.len() > 4 {
                    let from = dice.within(4, log.len() - 1);
                    for byte in log[from..].iter_mut().take(3) {
                        *byte = dice.byte();
                    }
                }
            }
        }
    }
}

/// Any bytes, most often behind a right header.
pub fn random_log(dice: &mut Dice, length: usize) -> Vec<u8> {
    let mut log = Vec::new();
    if !dice.one_in(4) {
        log = log_of(right_header(dice), &[]);
        log.pop();
    }
    for _ in 0..length {
        log.push(dice.byte());
    }
    log
}

/// A log of any sort, right or damaged. Without damage no wait is longer
/// than `longest_wait`.
pub fn log(dice: &mut Dice, longest_wait: u16) -> Vec<u8> {
    let count = match dice.within(0, 7) {
        0 => 0,
        1 => dice.within(1, 3),
        2 => dice.within(100, 2_000),
        _ => dice.within(4, 150),
    };
    match dice.within(0, 9) {
        0..=3 => right_log(dice, count, longest_wait),
        4..=6 => {
            let mut log = right_log(dice, count, longest_wait);
            damage(dice, &mut log);
            log
        }
        7 | 8 => crafted_log(dice, count, longest_wait),
        _ => {
            let length = dice.within(0, 60);
            random_log(dice, length)
        }
    }
}

/// An input of the program: a mute set and a log, or less than that, or a
/// log about as long as the longest that is played.
pub fn stem_input(dice: &mut Dice, longest_wait: u16) -> Vec<u8> {
    if dice.one_in(40) {
        return vec![dice.byte(); dice.within(0, 5)];
    }
    let mut input = vec![mute(dice)];
    if dice.one_in(40) {
        let length = stem::LONGEST + dice.within(0, 4) - 2;
        input.extend(log_of_length(dice, length));
    } else {
        input.extend(log(dice, longest_wait));
    }
    input
}

// Players and stations.

#[derive(Clone, Debug)]
pub struct StationCase {
    pub group: u8,
    pub kind: Kind,
    pub converter: Converter,
    pub memory: AnyMemory,
    pub log: Vec<u8>,
    pub buffer: Vec<u8>,
    pub calls: Vec<station::Call>,
}

/// Calls of which many are steps, and the others those of a chip.
pub fn station_calls(dice: &mut Dice, loops: &Loops, count: usize) -> Vec<station::Call> {
    let rest = if dice.one_in(3) { 20 } else { 2 };
    let mut calls = Vec::new();
    for call in chip_calls(dice, loops, count) {
        if dice.one_in(rest) {
            calls.push(match call {
                Call::Reset => station::Call::Reset,
                Call::Write { address, byte } => station::Call::Write { address, byte },
                Call::Read { address } => station::Call::Read { address },
                Call::Inspect { offset, .. } => station::Call::Inspect { offset },
                Call::Tick => station::Call::Tick,
                Call::Tell => station::Call::Tell,
            });
        } else {
            calls.push(station::Call::Step);
        }
    }
    calls
}

pub fn station_case(dice: &mut Dice, count: usize) -> StationCase {
    let loops = loops(dice);
    let log = log(dice, 20);
    let kind = match Header::read(&log) {
        Ok(header) if !dice.one_in(16) => header.kind,
        _ => kind(dice),
    };
    let length = dice.pick(&[0, 1, 16, 256, 4_096, 4_097]);
    StationCase {
        group: !mute(dice),
        kind,
        converter: dice.pick(&Converter::ALL),
        memory: memory(dice, &loops),
        log,
        buffer: vec![dice.byte(); length],
        calls: station_calls(dice, &loops, count),
    }
}

/// Groups that divide the voices, some of them perhaps empty.
pub fn groups(dice: &mut Dice) -> Vec<u8> {
    let mut groups = vec![0; dice.within(1, 5)];
    for k in 0..8 {
        let index = dice.within(0, groups.len() - 1);
        groups[index] |= 1 << k;
    }
    groups
}

// Recordings and copies.

#[derive(Clone, Debug)]
pub struct RecorderCase {
    pub header: Header,
    pub records: Vec<Record>,
    /// The buffer as it is before.
    pub buffer: Vec<u8>,
}

/// A buffer about as long as is needed, with any bytes in it.
fn buffer(dice: &mut Dice, needed: usize) -> Vec<u8> {
    let length = match dice.within(0, 7) {
        0 | 1 => needed,
        2 => needed + dice.within(0, 20),
        3 => needed.saturating_sub(dice.within(1, 3)),
        4 => dice.within(0, needed),
        5 => dice.within(0, 8),
        _ => needed + 4_200,
    };
    (0..length).map(|_| dice.byte()).collect()
}

pub fn recorder_case(dice: &mut Dice) -> RecorderCase {
    let header = any_header(dice);
    let count = match dice.within(0, 3) {
        0 => dice.within(0, 2),
        _ => dice.within(0, 60),
    };
    let mut records = right_records(dice, count, u16::MAX);
    let needed = log_of(right_header(dice), &records).len();
    if dice.one_in(3) {
        let place = dice.within(0, records.len());
        records.insert(place, wrong_record(dice));
    }
    RecorderCase {
        header,
        records,
        buffer: buffer(dice, needed),
    }
}

#[derive(Clone, Debug)]
pub struct CopyCase {
    pub log: Vec<u8>,
    /// The buffer as it is before.
    pub buffer: Vec<u8>,
}

pub fn copy_case(dice: &mut Dice) -> CopyCase {
    let log = log(dice, u16::MAX);
    let buffer = buffer(dice, log.len());
    CopyCase { log, buffer }
}

// Pitches and clips.

/// A number at or about an edge.
fn about(dice: &mut Dice, edges: &[u32]) -> u32 {
    let edge = dice.pick(edges);
    match dice.within(0, 2) {
        0 => edge.saturating_sub(1),
        1 => edge,
        _ => edge.saturating_add(1),
    }
}

fn within_32(dice: &mut Dice, low: u32, high: u32) -> u32 {
    dice.within(low as usize, high as usize) as u32
}

/// A tone, in or out of its ranges, often one whose FD is about a whole
/// number or about 65,535.
pub fn tone(dice: &mut Dice) -> Tone {
    let clock_edges = [0, 1, 10_000_000, 12_520_000, u32::MAX];
    let words_edges = [0, 1, 256, 65_536, u32::MAX];
    let frequency_edges = [0, 1, 2_000_000, u32::MAX];
    let clock = if dice.one_in(3) {
        about(dice, &clock_edges)
    } else {
        within_32(dice, 1, 12_520_000)
    };
    let words = if dice.one_in(3) {
        about(dice, &words_edges)
    } else if dice.one_in(2) {
        1 << dice.within(0, 16)
    } else {
        within_32(dice, 1, 65_536)
    };
    let frequency = match dice.within(0, 3) {
        0 => about(dice, &frequency_edges),
        1 => within_32(dice, 0, 2_000_000),
        _ => {
            let fd = if dice.one_in(2) {
                dice.pick(&[1, 65_535, 65_536])
            } else {
                dice.within(1, 65_536) as u64
            };
            let per_fd = u64::from(clock) * 100;
            let steps = 786_432 * u64::from(words.max(1));
            let frequency = fd * per_fd / steps + dice.within(0, 1) as u64;
            u32::try_from(frequency).unwrap_or(u32::MAX)
        }
    };
    Tone {
        frequency,
        clock,
        words,
    }
}

fn total(dice: &mut Dice) -> i32 {
    match dice.within(0, 9) {
        0 => dice.pick(&[-32_768, 32_767, -32_767, 32_766]),
        1 if dice.one_in(4) => dice.pick(&[-32_769, 32_768, -121_440, 121_440]),
        2 if dice.one_in(8) => dice.within(0, 242_880) as i32 - 121_440,
        _ => dice.within(0, 65_535) as i32 - 32_768,
    }
}

/// A list of totals for both sides, few of which clip.
pub fn totals(dice: &mut Dice) -> Vec<Pair> {
    let count = dice.within(0, 40);
    (0..count).map(|_| (total(dice), total(dice))).collect()
}

#[cfg(test)]
mod tests {
    use super::*;
    use crate::calls::{self, Answer};
    use crate::clip::first_clip;
    use crate::log::MOST_LOG;
    use crate::memory::{byte_at, first_stop, perform};
    use crate::player;
    use crate::refusal::Refusal;
    use crate::station::{divides, Station};

    /// How often each refusal was met.
    struct Met([u32; 16]);

    impl Met {
        fn new() -> Met {
            Met([0; 16])
        }

        fn meet(&mut self, refusal: Refusal) {
            self.0[usize::from(refusal.number())] += 1;
        }

        fn has_all(&self, numbers: &[usize]) {
            for &number in numbers {
                assert!(self.0[number] > 0, "{number} was not met: {:?}", self.0);
            }
        }
    }

    #[test]
    fn the_same_seed_gives_the_same_inputs() {
        let one = chip_case(&mut Dice::new(7), 200);
        let other = chip_case(&mut Dice::new(7), 200);
        assert_eq!(one.calls, other.calls);
        assert_eq!(one.memory, other.memory);
        assert_ne!(one.calls, chip_case(&mut Dice::new(8), 200).calls);
    }

    #[test]
    fn voices_sound_loop_and_clip() {
        let mut dice = Dice::new(1);
        let mut met = Met::new();
        let (mut sounding, mut clipping, mut second_stops, mut looping) = (0, 0, 0, 0);
        for _ in 0..60 {
            let case = chip_case(&mut dice, 400);
            let (seen, _) = calls::run(case.setup, case.memory.clone(), &case.calls);
            let mut chip = crate::chip::Chip::new(case.setup, case.memory);
            let mut frame = Default::default();
            for (call, seen) in case.calls.iter().zip(&seen) {
                if let Answer::Refused(refusal) = seen.answer {
                    met.meet(refusal);
                }
                let before = chip.registers.clone();
                let mut buffer = vec![0; seen.buffer.len()];
                calls::perform(&mut chip, call, &mut frame, &mut buffer);
                if *call != Call::Tick || seen.answer != Answer::Done {
                    continue;
                }
                sounding += u32::from(seen.frame.totals() != (0, 0));
                clipping += u32::from(first_clip(&[seen.frame.totals()]).is_some());
                for (voice, old) in chip.registers.voices.iter().zip(&before.voices) {
                    let (Some(position), Some(from)) = (voice.going, old.going) else {
                        continue;
                    };
                    let byte = byte_at(&chip.memory, (position / 2_048) as usize);
                    second_stops += u32::from(byte == STOP);
                    looping += u32::from(position != (from + voice.step()) % (1 << 27));
                }
            }
        }
        met.has_all(&[1, 2, 3, 4, 5, 13]);
        assert_eq!(met.0[6], 0);
        assert!(sounding > 1_000, "{sounding}");
        assert!(clipping > 100, "{clipping}");
        assert!(second_stops > 100, "{second_stops}");
        assert!(looping > 500, "{looping}");
    }

    #[test]
    fn right_logs_are_accepted_and_copied() {
        let mut dice = Dice::new(2);
        for count in 0..150 {
            let log = right_log(&mut dice, count, u16::MAX);
            let (header, records) = whole_log::read(&log).unwrap();
            assert_eq!(log_of(header, &records), log);
            let mut copied = vec![0xEE; log.len()];
            assert_eq!(whole_log::copy(&log, &mut copied), Ok(log.len()));
            assert_eq!(copied, log);
        }
    }

    #[test]
    fn logs_of_a_length() {
        let mut dice = Dice::new(3);
        for length in [10, 11, 4_105, 4_106, 4_110, 4_206, 32_768, 32_769] {
            let log = log_of_length(&mut dice, length);
            assert_eq!(log.len(), length);
            assert!(whole_log::read(&log).is_ok());
        }
        let log = log_of_length(&mut dice, MOST_LOG);
        assert_eq!(log.len(), MOST_LOG);
        assert!(whole_log::read(&log).is_ok());
    }

    #[test]
    fn logs_meet_every_refusal() {
        let mut dice = Dice::new(4);
        let mut met = Met::new();
        let mut accepted = 0;
        for _ in 0..2_000 {
            match whole_log::read(&log(&mut dice, 10)) {
                Ok(_) => accepted += 1,
                Err(refusal) => met.meet(refusal),
            }
        }
        met.has_all(&[7, 8, 9, 10, 11, 12]);
        assert!(accepted > 500, "{accepted}");
    }

    #[test]
    fn recordings_meet_every_refusal() {
        let mut dice = Dice::new(5);
        let mut met = Met::new();
        for _ in 0..500 {
            let case = recorder_case(&mut dice);
            let mut buffer = case.buffer.clone();
            let length = match whole_log::record(case.header, &case.records, &mut buffer) {
                Ok(length) => {
                    let read = whole_log::read(&buffer[..length]);
                    assert_eq!(read, Ok((case.header, case.records)));
                    length
                }
                Err(refusal) => {
                    met.meet(refusal);
                    0
                }
            };
            // no bytes but those of a granted log are written
            assert_eq!(buffer[length..], case.buffer[length..]);
        }
        met.has_all(&[8, 11, 13]);
    }

    #[test]
    fn copies_meet_every_refusal() {
        let mut dice = Dice::new(6);
        let mut met = Met::new();
        for _ in 0..3_000 {
            let case = copy_case(&mut dice);
            let mut buffer = case.buffer.clone();
            let length = match whole_log::copy(&case.log, &mut buffer) {
                Ok(length) => {
                    assert_eq!(buffer[..length], case.log);
                    length
                }
                Err(refusal) => {
                    met.meet(refusal);
                    0
                }
            };
            assert_eq!(buffer[length..], case.buffer[length..]);
        }
        met.has_all(&[7, 8, 9, 10, 11, 12, 13]);
    }

    #[test]
    fn stations_meet_every_fault() {
        let mut dice = Dice::new(7);
        let mut met = Met::new();
        let mut ended = 0;
        for _ in 0..600 {
            let case = station_case(&mut dice, 300);
            let mut station = Station::new(
                case.group,
                case.kind,
                case.converter,
                case.memory,
                &case.log,
                case.buffer,
            );
            for call in case.calls {
                station.try_call(call);
            }
            match station.player.state {
                player::State::Faulted(fault) => met.meet(fault.refusal),
                player::State::Ended { .. } => ended += 1,
                _ => {}
            }
        }
        met.has_all(&[1, 5, 7, 8, 9, 10, 11, 12]);
        assert_eq!(met.0[2] + met.0[3] + met.0[4] + met.0[6] + met.0[13], 0);
        assert!(ended > 50, "{ended}");
    }

    #[test]
    fn stems_add_up() {
        let mut dice = Dice::new(8);
        for _ in 0..40 {
            let case = station_case(&mut dice, 300);
            let groups = groups(&mut dice);
            assert!(divides(&groups));
            let make = |group| {
                Station::new(
                    group,
                    case.kind,
                    case.converter,
                    case.memory.clone(),
                    &case.log,
                    case.buffer.clone(),
                )
            };
            let mut mix = make(0xFF);
            let mut stems: Vec<_> = groups.iter().map(|&group| make(group)).collect();
            for &call in &case.calls {
                mix.try_call(call);
                let mut sums = (0, 0);
                for stem in &mut stems {
                    stem.try_call(call);
                    assert_eq!(stem.chip.memory, mix.chip.memory);
                    assert_eq!(stem.buffer, mix.buffer);
                    assert_eq!(stem.player.state, mix.player.state);
                    let (left, right) = stem.frame.totals();
                    sums = (sums.0 + left, sums.1 + right);
                }
                assert_eq!(sums, mix.frame.totals());
            }
        }
    }

    #[test]
    fn accesses_and_searches() {
        let mut dice = Dice::new(9);
        let mut met = Met::new();
        let mut found = 0;
        for _ in 0..200 {
            let mut memory = any_size_memory(&mut dice);
            let from = stop_search(&mut dice, &memory);
            let expected = contents(&memory)
                .iter()
                .skip(from)
                .position(|&byte| byte == STOP)
                .map(|place| from + place);
            assert_eq!(first_stop(&memory, from), expected);
            found += u32::from(expected.is_some());
            for access in accesses(&mut dice, &memory, 30) {
                if let crate::memory::Answer::Refused(refusal) = perform(&mut memory, access) {
                    met.meet(refusal);
                }
            }
        }
        met.has_all(&[5, 6]);
        assert!(found > 20);
    }

    #[test]
    fn tones_meet_all_edges() {
        let mut dice = Dice::new(10);
        let mut met = Met::new();
        let (mut granted, mut highest) = (0, 0);
        for _ in 0..5_000 {
            match tone(&mut dice).fd() {
                Ok(fd) => {
                    granted += 1;
                    highest += u32::from(fd == 65_535);
                }
                Err(refusal) => met.meet(refusal),
            }
        }
        met.has_all(&[14, 15]);
        assert!(granted > 1_000, "{granted}");
        assert!(highest > 10, "{highest}");
    }

    #[test]
    fn inputs_end_in_one_last_line() {
        let mut dice = Dice::new(11);
        let (mut ends, mut faults, mut cut) = (0, 0, 0);
        for _ in 0..150 {
            let input = stem_input(&mut dice, 10);
            let lines: Vec<String> = stem::Lines::new(&input).take(3_000).collect();
            match lines.last().map(String::as_str) {
                Some("end\n") => ends += 1,
                Some(line) if line.starts_with("fault ") => faults += 1,
                _ => cut += 1,
            }
        }
        assert!(ends > 20 && faults > 20, "{ends} {faults} {cut}");
    }
}
