//! The chip: registers, host port, inspection, ticks and frames.

use crate::memory::{byte_at, Memory};
use crate::refusal::Refusal;
use crate::voice::{Pair, Voice};

pub const WAVE_SIZE: usize = 65_536;
pub const WINDOW: u32 = 0x1000;
pub const LAST_ADDRESS: u32 = 0x1FFF;
pub const WINDOW_SIZE: usize = 4_096;

#[derive(Clone, Copy, Debug, PartialEq, Eq)]
pub enum Kind {
    Rf5c68a,
    Rf5c164,
}

#[derive(Clone, Copy, Debug, PartialEq, Eq)]
pub enum Converter {
    Bits16,
    Bits10,
    Bits8,
}

impl Converter {
    pub const ALL: [Converter; 3] = [Converter::Bits16, Converter::Bits10, Converter::Bits8];

    /// The word of a level from -32,768 to 32,767.
    pub fn word(self, level: i32) -> u16 {
        let raised = (level + 32_768) as u16;
        match self {
            Converter::Bits16 => level as i16 as u16,
            Converter::Bits10 => raised / 64,
            Converter::Bits8 => raised / 256,
        }
    }
}

/// The limiter: a total brought into -32,768 to 32,767.
pub fn limited(total: i32) -> i32 {
    total.clamp(-32_768, 32_767)
}

/// The words of a total by the converters of 16, 10 and 8 bits.
pub fn words(total: i32) -> [u16; 3] {
    Converter::ALL.map(|converter| converter.word(limited(total)))
}

#[derive(Clone, Copy, Debug, PartialEq, Eq)]
pub struct Setup {
    pub kind: Kind,
    pub converter: Converter,
    /// Bit 0 mutes voice 1.
    pub mute: u8,
}

#[derive(Clone, Debug, Default, PartialEq, Eq)]
pub struct Side {
    pub contributions: [i32; 8],
    pub total: i32,
    pub word: u16,
}

#[derive(Clone, Debug, Default, PartialEq, Eq)]
pub struct Frame {
    pub left: Side,
    pub right: Side,
}

impl Frame {
    pub fn totals(&self) -> Pair {
        (self.left.total, self.right.total)
    }
}

/// All of a chip but its memory and its setup.
#[derive(Clone, Debug, PartialEq, Eq)]
pub struct Registers {
    pub voices: [Voice; 8],
    pub on: bool,
    pub bank: u8,
    /// 0 is voice 1.
    pub selected: usize,
    /// A clear bit switches its voice on.
    pub channel: u8,
}

impl Registers {
    pub fn new() -> Registers {
        Registers {
            voices: Default::default(),
            on: false,
            bank: 0,
            selected: 0,
            channel: 0xFF,
        }
    }
}

impl Default for Registers {
    fn default() -> Registers {
        Registers::new()
    }
}

#[derive(Clone, Debug, PartialEq, Eq)]
pub struct Chip<M> {
    pub setup: Setup,
    pub registers: Registers,
    pub memory: M,
}

impl<M: Memory> Chip<M> {
    pub fn new(setup: Setup, memory: M) -> Chip<M> {
        Chip {
            setup,
            registers: Registers::new(),
            memory,
        }
    }

    pub fn kind(&self) -> Kind {
        self.setup.kind
    }

    pub fn reset(&mut self) {
        self.registers = Registers::new();
    }

    /// A read of the host port.
    pub fn read(&self, address: u32) -> Result<u8, Refusal> {
        self.check_memory()?;
        check_address(address)?;
        match address {
            0x10..=0x1F if self.setup.kind == Kind::Rf5c164 => Ok(self.position_byte(address)),
            WINDOW..=LAST_ADDRESS => {
                if self.registers.on {
                    return Err(Refusal::WindowClosed);
                }
                self.memory.read(self.window_place(address))
            }
            _ => Err(Refusal::NothingThere),
        }
    }

    /// A write to the host port.
    pub fn write(&mut self, address: u32, byte: u8) -> Result<(), Refusal> {
        self.check_memory()?;
        check_address(address)?;
        let voice = &mut self.registers.voices[self.registers.selected];
        match address {
            0 => voice.env = byte,
            1 => voice.pan = byte,
            2 => voice.fdl = byte,
            3 => voice.fdh = byte,
            4 => voice.lsl = byte,
            5 => voice.lsh = byte,
            6 => voice.st = byte,
            7 => self.control(byte),
            8 => self.registers.channel = byte | self.setup.mute,
            WINDOW..=LAST_ADDRESS => {
                let place = self.window_place(address);
                self.memory.write(place, byte)?;
            }
            _ => return Err(Refusal::NothingThere),
        }
        Ok(())
    }

    /// Fills the buffer from a window offset on, also while the chip is ON.
    pub fn inspect(&self, offset: usize, buffer: &mut [u8]) -> Result<(), Refusal> {
        self.check_memory()?;
        if offset > WINDOW_SIZE || buffer.len() > WINDOW_SIZE - offset {
            return Err(Refusal::NoRoom);
        }
        let from = usize::from(self.registers.bank) * WINDOW_SIZE + offset;
        for (index, byte) in buffer.iter_mut().enumerate() {
            *byte = byte_at(&self.memory, from + index);
        }
        Ok(())
    }

    /// One sample for each side.
    pub fn tick(&mut self, frame: &mut Frame) -> Result<(), Refusal> {
        self.check_memory()?;
        for k in 0..8 {
            let on = self.registers.on && self.registers.channel & (1 << k) == 0;
            self.registers.voices[k].tick(on, &self.memory);
        }
        let latest = self.contributions();
        *frame = Frame {
            left: self.side(latest.map(|pair| pair.0)),
            right: self.side(latest.map(|pair| pair.1)),
        };
        Ok(())
    }

    /// The latest contributions of voices 1 to 8.
    pub fn contributions(&self) -> [Pair; 8] {
        std::array::from_fn(|k| self.registers.voices[k].latest)
    }

    fn side(&self, contributions: [i32; 8]) -> Side {
        let total = contributions.iter().sum();
        Side {
            contributions,
            total,
            word: self.setup.converter.word(limited(total)),
        }
    }

    fn control(&mut self, byte: u8) {
        self.registers.on = byte & 0x80 != 0;
        if byte & 0x40 != 0 {
            self.registers.selected = usize::from(byte & 0x07);
        } else {
            self.registers.bank = byte & 0x0F;
        }
    }

    fn position_byte(&self, address: u32) -> u8 {
        let k = (address - 0x10) / 2;
        let place = self.registers.voices[k as usize].place();
        if address.is_multiple_of(2) {
            (place % 256) as u8
        } else {
            (place / 256) as u8
        }
    }

    fn window_place(&self, address: u32) -> usize {
        usize::from(self.registers.bank) * WINDOW_SIZE + (address - WINDOW) as usize
    }

    fn check_memory(&self) -> Result<(), Refusal> {
        if self.memory.size() == WAVE_SIZE {
            Ok(())
        } else {
            Err(Refusal::MemorySize)
        }
    }
}

fn check_address(address: u32) -> Result<(), Refusal> {
    if address > LAST_ADDRESS {
        Err(Refusal::AddressTooHigh)
    } else {
        Ok(())
    }
}

#[cfg(test)]
mod tests {
    use super::*;
    use crate::memory::{AnyMemory, Ram, Rom};

    fn setup(kind: Kind) -> Setup {
        Setup {
            kind,
            converter: Converter::Bits16,
            mute: 0,
        }
    }

    fn ram_chip(kind: Kind) -> Chip<Ram> {
        Chip::new(
            setup(kind),
            Ram {
                bytes: vec![0; WAVE_SIZE],
            },
        )
    }

    /// The first `count` voices sound the byte at place 0, with the loudest setup.
    fn loud(chip: &mut Chip<Ram>, count: u8, byte: u8) {
        chip.write(0x1000, byte).unwrap();
        for k in 0..count {
            chip.write(7, 0xC0 | k).unwrap();
            chip.write(0, 255).unwrap();
            chip.write(1, 0xFF).unwrap();
        }
        let mask = ((1_u16 << count) - 1) as u8;
        chip.write(8, !mask).unwrap();
    }

    #[test]
    fn known_totals() {
        let mut frame = Frame::default();
        for (count, byte, total, level) in [
            (1, 0xFE, 15_060, 15_060),
            (1, 0x7F, -15_180, -15_180),
            (1, 0x80, 0, 0),
            (2, 0x7F, -30_360, -30_360),
            (3, 0x7F, -45_540, -32_768),
            (8, 0x7F, -121_440, -32_768),
        ] {
            let mut chip = ram_chip(Kind::Rf5c68a);
            loud(&mut chip, count, byte);
            chip.tick(&mut frame).unwrap();
            assert_eq!(frame.totals(), (total, total));
            assert_eq!(limited(total), level);
            assert_eq!(frame.left.word, level as i16 as u16);
            assert_eq!(frame.right, frame.left);
        }
    }

    #[test]
    fn words_of_levels() {
        assert_eq!(words(0), [0, 512, 128]);
        assert_eq!(words(-32_768), [0x8000, 0, 0]);
        assert_eq!(words(32_767), [0x7FFF, 1_023, 255]);
        assert_eq!(words(121_440), [0x7FFF, 1_023, 255]);
        assert_eq!(words(-1), [0xFFFF, 511, 127]);
    }

    #[test]
    fn port_refusals_in_order() {
        let small = Rom { bytes: vec![0; 10] };
        let mut chip = Chip::new(setup(Kind::Rf5c164), small);
        assert_eq!(chip.read(0x2000), Err(Refusal::MemorySize));
        assert_eq!(chip.write(0x2000, 0), Err(Refusal::MemorySize));
        assert_eq!(chip.tick(&mut Frame::default()), Err(Refusal::MemorySize));
        assert_eq!(chip.inspect(5_000, &mut []), Err(Refusal::MemorySize));

        let mut chip = ram_chip(Kind::Rf5c68a);
        chip.write(7, 0x80).unwrap();
        assert_eq!(chip.read(0x2000), Err(Refusal::AddressTooHigh));
        assert_eq!(chip.write(0x2000, 0), Err(Refusal::AddressTooHigh));
        assert_eq!(chip.read(0), Err(Refusal::NothingThere));
        assert_eq!(chip.read(0x10), Err(Refusal::NothingThere));
        assert_eq!(chip.write(9, 0), Err(Refusal::NothingThere));
        assert_eq!(chip.write(0x10, 0), Err(Refusal::NothingThere));
        assert_eq!(chip.write(0x0FFF, 0), Err(Refusal::NothingThere));
        assert_eq!(chip.read(0x1000), Err(Refusal::WindowClosed));
        assert_eq!(chip.write(0x1000, 3), Ok(()));
        assert_eq!(chip.inspect(4_095, &mut [0; 2]), Err(Refusal::NoRoom));
        assert_eq!(chip.inspect(4_096, &mut []), Ok(()));
        assert_eq!(chip.inspect(4_097, &mut []), Err(Refusal::NoRoom));

        let mut chip = Chip::new(setup(Kind::Rf5c68a), AnyMemory::rom(vec![5; WAVE_SIZE]));
        assert_eq!(chip.write(0x1000, 0), Err(Refusal::ReadOnly));
        assert_eq!(chip.read(0x1000), Ok(5));
    }

    #[test]
    fn positions_of_an_rf5c164() {
        let mut chip = ram_chip(Kind::Rf5c164);
        chip.write(7, 0xC7).unwrap();
        chip.write(6, 0x12).unwrap();
        assert_eq!(chip.read(0x1E), Ok(0x00));
        assert_eq!(chip.read(0x1F), Ok(0x12));
        chip.write(8, 0x7F).unwrap();
        chip.write(3, 0x18).unwrap();
        let mut frame = Frame::default();
        chip.tick(&mut frame).unwrap();
        chip.tick(&mut frame).unwrap();
        chip.write(6, 0x34).unwrap();
        assert_eq!(chip.read(0x1E), Ok(0x03));
        assert_eq!(chip.read(0x1F), Ok(0x12));
        chip.reset();
        assert_eq!(chip.read(0x1F), Ok(0x00));
        assert_eq!(chip.registers, Registers::new());
    }

    #[test]
    fn window_and_inspection_follow_the_bank() {
        let mut chip = ram_chip(Kind::Rf5c68a);
        chip.write(7, 0x0F).unwrap();
        chip.write(0x1FFF, 9).unwrap();
        assert_eq!(chip.memory.bytes[65_535], 9);
        assert_eq!(chip.read(0x1FFF), Ok(9));
        chip.write(7, 0xC1).unwrap();
        assert_eq!(chip.registers.bank, 0x0F);
        let mut buffer = [1; 2];
        chip.inspect(4_094, &mut buffer).unwrap();
        assert_eq!(buffer, [0, 9]);
    }

    #[test]
    fn a_muted_voice_never_sounds() {
        let mut chip = ram_chip(Kind::Rf5c68a);
        chip.setup.mute = 0x01;
        loud(&mut chip, 2, 0x7F);
        assert_eq!(chip.registers.channel, 0xFD);
        let mut frame = Frame::default();
        chip.tick(&mut frame).unwrap();
        assert_eq!(frame.left.contributions[..2], [0, -15_180]);
    }
}
