//! Wave memories: RAM, mask ROM, and boards of two memories.

use crate::refusal::Refusal;

/// No memory has more places than this.
pub const MOST_PLACES: usize = 131_072;

/// The byte at which a voice goes on at its loop start.
pub const STOP: u8 = 0xFF;

pub trait Memory {
    fn size(&self) -> usize;
    fn read(&self, place: usize) -> Result<u8, Refusal>;
    fn write(&mut self, place: usize, byte: u8) -> Result<(), Refusal>;
}

/// Takes writes everywhere. Bytes from place 131,072 on are never reached.
#[derive(Clone, Debug, PartialEq, Eq)]
pub struct Ram {
    pub bytes: Vec<u8>,
}

/// Takes writes nowhere. Bytes from place 131,072 on are never reached.
#[derive(Clone, Debug, PartialEq, Eq)]
pub struct Rom {
    pub bytes: Vec<u8>,
}

/// Two memories, the places of the first one before those of the second.
#[derive(Clone, Debug, PartialEq, Eq)]
pub struct Board<A, B> {
    pub first: A,
    pub second: B,
}

/// The bytes that can be reached.
fn reached(bytes: &[u8]) -> &[u8] {
    &bytes[..bytes.len().min(MOST_PLACES)]
}

fn read(bytes: &[u8], place: usize) -> Result<u8, Refusal> {
    reached(bytes)
        .get(place)
        .copied()
        .ok_or(Refusal::PastTheEnd)
}

impl Memory for Ram {
    fn size(&self) -> usize {
        reached(&self.bytes).len()
    }

    fn read(&self, place: usize) -> Result<u8, Refusal> {
        read(&self.bytes, place)
    }

    fn write(&mut self, place: usize, byte: u8) -> Result<(), Refusal> {
        if place >= self.size() {
            return Err(Refusal::PastTheEnd);
        }
        self.bytes[place] = byte;
        Ok(())
    }
}

impl Memory for Rom {
    fn size(&self) -> usize {
        reached(&self.bytes).len()
    }

    fn read(&self, place: usize) -> Result<u8, Refusal> {
        read(&self.bytes, place)
    }

    fn write(&mut self, place: usize, _byte: u8) -> Result<(), Refusal> {
        if place >= self.size() {
            return Err(Refusal::PastTheEnd);
        }
        Err(Refusal::ReadOnly)
    }
}

impl<A: Memory, B: Memory> Memory for Board<A, B> {
    fn size(&self) -> usize {
        (self.first.size() + self.second.size()).min(MOST_PLACES)
    }

    fn read(&self, place: usize) -> Result<u8, Refusal> {
        if place >= self.size() {
            return Err(Refusal::PastTheEnd);
        }
        let split = self.first.size();
        if place < split {
            self.first.read(place)
        } else {
            self.second.read(place - split)
        }
    }

    fn write(&mut self, place: usize, byte: u8) -> Result<(), Refusal> {
        if place >= self.size() {
            return Err(Refusal::PastTheEnd);
        }
        let split = self.first.size();
        if place < split {
            self.first.write(place, byte)
        } else {
            self.second.write(place - split, byte)
        }
    }
}

/// A memory whose make is known only as the program runs.
#[derive(Clone, Debug, PartialEq, Eq)]
pub enum AnyMemory {
    Ram(Ram),
    Rom(Rom),
    Board(Box<Board<AnyMemory, AnyMemory>>),
}

impl AnyMemory {
    pub fn ram(bytes: Vec<u8>) -> AnyMemory {
        AnyMemory::Ram(Ram { bytes })
    }

    pub fn rom(bytes: Vec<u8>) -> AnyMemory {
        AnyMemory::Rom(Rom { bytes })
    }

    pub fn board(first: AnyMemory, second: AnyMemory) -> AnyMemory {
        AnyMemory::Board(Box::new(Board { first, second }))
    }

    /// The bytes under every RAM and ROM, from the first to the last, with
    /// those that are never reached.
    pub fn parts(&self) -> Vec<&[u8]> {
        match self {
            AnyMemory::Ram(ram) => vec![&ram.bytes],
            AnyMemory::Rom(rom) => vec![&rom.bytes],
            AnyMemory::Board(board) => {
                let mut parts = board.first.parts();
                parts.extend(board.second.parts());
                parts
            }
        }
    }
}

impl Memory for AnyMemory {
    fn size(&self) -> usize {
        match self {
            AnyMemory::Ram(ram) => ram.size(),
            AnyMemory::Rom(rom) => rom.size(),
            AnyMemory::Board(board) => board.size(),
        }
    }

    fn read(&self, place: usize) -> Result<u8, Refusal> {
        match self {
            AnyMemory::Ram(ram) => ram.read(place),
            AnyMemory::Rom(rom) => rom.read(place),
            AnyMemory::Board(board) => board.read(place),
        }
    }

    fn write(&mut self, place: usize, byte: u8) -> Result<(), Refusal> {
        match self {
            AnyMemory::Ram(ram) => ram.write(place, byte),
            AnyMemory::Rom(rom) => rom.write(place, byte),
            AnyMemory::Board(board) => board.write(place, byte),
        }
    }
}

/// The byte at a place, and 0 past the end.
pub fn byte_at<M: Memory>(memory: &M, place: usize) -> u8 {
    memory.read(place).unwrap_or(0)
}

/// All bytes of a memory.
pub fn contents<M: Memory>(memory: &M) -> Vec<u8> {
    (0..memory.size())
        .map(|place| byte_at(memory, place))
        .collect()
}

/// The first place from `from` on that holds the stop byte.
pub fn first_stop<M: Memory>(memory: &M, from: usize) -> Option<usize> {
    (from..memory.size()).find(|&place| byte_at(memory, place) == STOP)
}

#[derive(Clone, Copy, Debug, PartialEq, Eq)]
pub enum Access {
    Read { place: usize },
    Write { place: usize, byte: u8 },
}

#[derive(Clone, Copy, Debug, PartialEq, Eq)]
pub enum Answer {
    Byte(u8),
    Written,
    Refused(Refusal),
}

pub fn perform<M: Memory>(memory: &mut M, access: Access) -> Answer {
    match access {
        Access::Read { place } => match memory.read(place) {
            Ok(byte) => Answer::Byte(byte),
            Err(refusal) => Answer::Refused(refusal),
        },
        Access::Write { place, byte } => match memory.write(place, byte) {
            Ok(()) => Answer::Written,
            Err(refusal) => Answer::Refused(refusal),
        },
    }
}

/// Performs the whole list on both memories, and says whether all answers
/// were the same.
pub fn answer_alike<A: Memory, B: Memory>(one: &mut A, other: &mut B, list: &[Access]) -> bool {
    let mut alike = true;
    for &access in list {
        if perform(one, access) != perform(other, access) {
            alike = false;
        }
    }
    alike
}

#[cfg(test)]
mod tests {
    use super::*;

    #[test]
    fn ram_takes_writes_below_its_size() {
        let mut ram = Ram { bytes: vec![1, 2] };
        assert_eq!(ram.write(1, 9), Ok(()));
        assert_eq!(ram.read(1), Ok(9));
        assert_eq!(ram.write(2, 9), Err(Refusal::PastTheEnd));
        assert_eq!(ram.read(2), Err(Refusal::PastTheEnd));
    }

    #[test]
    fn rom_refuses_past_the_end_before_read_only() {
        let mut rom = Rom { bytes: vec![1, 2] };
        assert_eq!(rom.write(1, 9), Err(Refusal::ReadOnly));
        assert_eq!(rom.write(2, 9), Err(Refusal::PastTheEnd));
        assert_eq!(rom.bytes, [1, 2]);
    }

    #[test]
    fn no_memory_reaches_beyond_the_most_places() {
        let mut ram = Ram {
            bytes: vec![7; MOST_PLACES + 1],
        };
        assert_eq!(ram.size(), MOST_PLACES);
        assert_eq!(ram.write(MOST_PLACES, 1), Err(Refusal::PastTheEnd));
        assert_eq!(ram.bytes[MOST_PLACES], 7);

        let mut board = AnyMemory::board(
            AnyMemory::rom(vec![1; MOST_PLACES - 1]),
            AnyMemory::ram(vec![2; 5]),
        );
        assert_eq!(board.size(), MOST_PLACES);
        assert_eq!(board.write(MOST_PLACES - 2, 3), Err(Refusal::ReadOnly));
        assert_eq!(board.write(MOST_PLACES - 1, 3), Ok(()));
        assert_eq!(board.write(MOST_PLACES, 3), Err(Refusal::PastTheEnd));
        assert_eq!(board.parts()[1], [3, 2, 2, 2, 2]);
    }

    #[test]
    fn a_board_of_ram_and_empty_rom_answers_as_the_ram() {
        let mut ram = AnyMemory::ram(vec![0; 16]);
        let mut board = AnyMemory::board(ram.clone(), AnyMemory::rom(vec![]));
        let list: Vec<Access> = (0..18)
            .flat_map(|place| {
                [
                    Access::Write {
                        place,
                        byte: place as u8,
                    },
                    Access::Read { place },
                ]
            })
            .collect();
        assert!(answer_alike(&mut ram, &mut board, &list));
        assert_eq!(contents(&ram), contents(&board));
    }

    #[test]
    fn stop_search() {
        let rom = Rom {
            bytes: vec![0xFF, 1, 0xFF],
        };
        assert_eq!(first_stop(&rom, 0), Some(0));
        assert_eq!(first_stop(&rom, 1), Some(2));
        assert_eq!(first_stop(&rom, 3), None);
        assert_eq!(first_stop(&rom, usize::MAX), None);
    }
}
