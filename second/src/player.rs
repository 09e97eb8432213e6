//! A player of a log, step by step.

use crate::chip::{Chip, Frame, WINDOW};
use crate::log::{decode, Found, Header, Record, FIRST_RECORD};
use crate::memory::Memory;
use crate::refusal::Refusal;

#[derive(Clone, Copy, Debug, PartialEq, Eq)]
pub enum Layer {
    Log,
    Memory,
    Chip,
    Program,
}

impl Layer {
    /// The layer of a refusal that a player meets.
    pub fn of(refusal: Refusal) -> Layer {
        match refusal.number() {
            7..=12 => Layer::Log,
            5 | 6 => Layer::Memory,
            _ => Layer::Chip,
        }
    }

    pub fn word(self) -> &'static str {
        match self {
            Layer::Log => "log",
            Layer::Memory => "memory",
            Layer::Chip => "chip",
            Layer::Program => "program",
        }
    }
}

#[derive(Clone, Copy, Debug, PartialEq, Eq)]
pub struct Fault {
    pub refusal: Refusal,
    pub layer: Layer,
    /// The first bit of the record.
    pub bit: usize,
    /// The host address, or 0 where there is none.
    pub address: u32,
}

impl Fault {
    pub fn new(refusal: Refusal, bit: usize, address: u32) -> Fault {
        Fault {
            refusal,
            layer: Layer::of(refusal),
            bit,
            address,
        }
    }

    pub fn number(&self) -> u8 {
        self.refusal.number()
    }
}

#[derive(Clone, Copy, Debug, PartialEq, Eq)]
pub enum State {
    BeforeHeader,
    /// At the next record, by its first bit.
    AtRecord {
        bit: usize,
    },
    /// In a wait that begins at `bit`, with at least one tick left.
    Waiting {
        bit: usize,
        left: u16,
    },
    Ended {
        bit: usize,
    },
    Faulted(Fault),
}

#[derive(Clone, Copy, Debug, PartialEq, Eq)]
pub enum Answer {
    Taken,
    Ticked,
    Ended { bit: usize },
    Fault(Fault),
}

impl Answer {
    pub fn stops(&self) -> bool {
        matches!(self, Answer::Ended { .. } | Answer::Fault(_))
    }
}

#[derive(Clone, Debug, PartialEq, Eq)]
pub struct Player<'a> {
    pub log: &'a [u8],
    pub state: State,
}

/// Bits of a wait record.
const WAIT_BITS: usize = 19;

/// Within so many steps a player over a log of so many bytes has stopped.
pub fn enough(bytes: u64) -> u64 {
    2 + 65_536 * (8 * bytes + 1)
}

impl<'a> Player<'a> {
    pub fn new(log: &'a [u8]) -> Player<'a> {
        Player {
            log,
            state: State::BeforeHeader,
        }
    }

    pub fn step<M: Memory>(&mut self, chip: &mut Chip<M>, frame: &mut Frame) -> Answer {
        let stepped = match self.state {
            State::BeforeHeader => self.take_header(chip),
            State::AtRecord { bit } => self.take_record(bit, chip),
            State::Waiting { bit, left } => self.wait(bit, left, chip, frame),
            State::Ended { bit } => Ok(Answer::Ended { bit }),
            State::Faulted(fault) => Err(fault),
        };
        match stepped {
            Ok(answer) => answer,
            Err(fault) => {
                self.state = State::Faulted(fault);
                Answer::Fault(fault)
            }
        }
    }

    fn take_header<M: Memory>(&mut self, chip: &Chip<M>) -> Result<Answer, Fault> {
        let header = Header::read(self.log).map_err(|refusal| Fault::new(refusal, 0, 0))?;
        if header.kind != chip.kind() {
            return Err(Fault::new(Refusal::Header, 0, 0));
        }
        self.state = State::AtRecord { bit: FIRST_RECORD };
        Ok(Answer::Taken)
    }

    fn take_record<M: Memory>(&mut self, bit: usize, chip: &mut Chip<M>) -> Result<Answer, Fault> {
        let found = decode(self.log, bit).map_err(|refusal| Fault::new(refusal, bit, 0))?;
        let (record, next) = match found {
            Found::Record(record, next) => (record, next),
            Found::End => {
                self.state = State::Ended { bit };
                return Ok(Answer::Ended { bit });
            }
        };
        let mut put = |address: u32, byte: u8| {
            chip.write(address, byte)
                .map_err(|refusal| Fault::new(refusal, bit, address))
        };
        self.state = State::AtRecord { bit: next };
        match record {
            Record::Register { address, byte } => put(u32::from(address), byte)?,
            Record::Window { offset, byte } => put(WINDOW + u32::from(offset), byte)?,
            Record::Wait { ticks } => self.state = State::Waiting { bit, left: ticks },
            Record::Block { offset, bytes } => {
                let first = WINDOW + u32::from(offset);
                for (address, byte) in (first..).zip(bytes) {
                    put(address, byte)?;
                }
            }
        }
        Ok(Answer::Taken)
    }

    fn wait<M: Memory>(
        &mut self,
        bit: usize,
        left: u16,
        chip: &mut Chip<M>,
        frame: &mut Frame,
    ) -> Result<Answer, Fault> {
        chip.tick(frame)
            .map_err(|refusal| Fault::new(refusal, bit, 0))?;
        self.state = if left > 1 {
            State::Waiting {
                bit,
                left: left - 1,
            }
        } else {
            State::AtRecord {
                bit: bit + WAIT_BITS,
            }
        };
        Ok(Answer::Ticked)
    }
}

#[cfg(test)]
mod tests {
    use super::*;
    use crate::chip::{Converter, Kind, Setup};
    use crate::memory::AnyMemory;
    use crate::whole_log::record;

    fn chip(memory: AnyMemory) -> Chip<AnyMemory> {
        let setup = Setup {
            kind: Kind::Rf5c68a,
            converter: Converter::Bits16,
            mute: 0,
        };
        Chip::new(setup, memory)
    }

    fn log_of(records: &[Record]) -> Vec<u8> {
        let header = Header {
            kind: Kind::Rf5c68a,
            clock: 10_000_000,
        };
        let mut buffer = vec![0; 10_000];
        let length = record(header, records, &mut buffer).unwrap();
        buffer.truncate(length);
        buffer
    }

    fn fault(number: u8, layer: Layer, bit: usize, address: u32) -> Answer {
        Answer::Fault(Fault {
            refusal: Refusal::ALL[usize::from(number) - 1],
            layer,
            bit,
            address,
        })
    }

    #[test]
    fn a_wait_takes_one_step_more_than_its_ticks() {
        let log = log_of(&[Record::Wait { ticks: 2 }]);
        let mut chip = chip(AnyMemory::ram(vec![0; 65_536]));
        let mut frame = Frame::default();
        let mut player = Player::new(&log);
        let answers: Vec<Answer> = (0..6).map(|_| player.step(&mut chip, &mut frame)).collect();
        assert_eq!(
            answers,
            [
                Answer::Taken,
                Answer::Taken,
                Answer::Ticked,
                Answer::Ticked,
                Answer::Ended { bit: 51 },
                Answer::Ended { bit: 51 },
            ]
        );
    }

    #[test]
    fn header_faults() {
        let mut chip = chip(AnyMemory::ram(vec![0; 65_536]));
        let mut frame = Frame::default();
        for (log, number) in [
            (vec![0x10, 0x98, 0x96], 7),
            (vec![0x20, 0x98, 0x96, 0x80], 8),
            (vec![0x18, 0x98, 0x96, 0x80, 0x00], 8),
        ] {
            let mut player = Player::new(&log);
            let expected = fault(number, Layer::Log, 0, 0);
            assert_eq!(player.step(&mut chip, &mut frame), expected);
            assert_eq!(player.step(&mut chip, &mut frame), expected);
        }
    }

    #[test]
    fn a_block_stops_at_the_first_refused_byte() {
        let log = log_of(&[
            Record::Register {
                address: 7,
                byte: 0x07,
            },
            Record::Block {
                offset: 4_095,
                bytes: vec![1],
            },
            Record::Register {
                address: 7,
                byte: 0x08,
            },
            Record::Block {
                offset: 0,
                bytes: vec![2],
            },
        ]);
        let memory = AnyMemory::board(
            AnyMemory::ram(vec![0; 32_768]),
            AnyMemory::rom(vec![0; 32_768]),
        );
        let mut chip = chip(memory);
        let mut frame = Frame::default();
        let mut player = Player::new(&log);
        for _ in 0..4 {
            assert_eq!(player.step(&mut chip, &mut frame), Answer::Taken);
        }
        let State::AtRecord { bit } = player.state else {
            panic!("not at a record");
        };
        let expected = fault(5, Layer::Memory, bit, 0x1000);
        assert_eq!(player.step(&mut chip, &mut frame), expected);
        assert_eq!(chip.memory.parts()[0][32_767], 1);
    }

    #[test]
    fn the_bytes_before_a_refused_one_stay() {
        let log = log_of(&[Record::Block {
            offset: 4,
            bytes: vec![1, 2, 3],
        }]);
        let memory = AnyMemory::board(
            AnyMemory::ram(vec![0; 6]),
            AnyMemory::board(AnyMemory::rom(vec![9]), AnyMemory::ram(vec![0; 65_529])),
        );
        let mut chip = chip(memory);
        let mut frame = Frame::default();
        let mut player = Player::new(&log);
        player.step(&mut chip, &mut frame);
        let expected = fault(5, Layer::Memory, 32, 0x1006);
        assert_eq!(player.step(&mut chip, &mut frame), expected);
        assert_eq!(chip.memory.parts()[0], [0, 0, 0, 0, 1, 2]);
        assert_eq!(chip.memory.parts()[1], [9]);
        assert_eq!(player.step(&mut chip, &mut frame), expected);
    }

    #[test]
    fn a_memory_of_another_size() {
        let mut frame = Frame::default();
        let register = Record::Register {
            address: 3,
            byte: 1,
        };
        let block = Record::Block {
            offset: 5,
            bytes: vec![1, 2],
        };
        for (records, address) in [(vec![register], 3), (vec![block], 0x1005)] {
            let log = log_of(&records);
            let mut chip = chip(AnyMemory::ram(vec![0; 65_535]));
            let mut player = Player::new(&log);
            assert_eq!(player.step(&mut chip, &mut frame), Answer::Taken);
            let expected = fault(1, Layer::Chip, 32, address);
            assert_eq!(player.step(&mut chip, &mut frame), expected);
        }
        let log = log_of(&[Record::Wait { ticks: 1 }]);
        let mut chip = chip(AnyMemory::ram(vec![]));
        let mut player = Player::new(&log);
        assert_eq!(player.step(&mut chip, &mut frame), Answer::Taken);
        assert_eq!(player.step(&mut chip, &mut frame), Answer::Taken);
        let expected = fault(1, Layer::Chip, 32, 0);
        assert_eq!(player.step(&mut chip, &mut frame), expected);
        assert_eq!(frame, Frame::default());
    }
}
