//! Calls on a chip.

use second::calls::{Call, UNTOUCHED};
use second::chip;
use second::generate::{chip_calls, loops, setup, Dice};
use second::memory::AnyMemory;

use crate::library::{self, Memory};
use crate::same::{converter, count, frame, kind, number, read_answer, same, same_chip};
use crate::same::{same_items, same_memory, two_parts, Tally};

/// A chip of each, over the same bytes.
struct Both {
    expected: chip::Chip<AnyMemory>,
    expected_frame: chip::Frame,
    found: library::Chip,
    found_frame: library::Frame,
    memory: Memory,
}

fn name(call: &Call) -> &'static str {
    match call {
        Call::Reset => "reset",
        Call::Write { .. } => "write",
        Call::Read { .. } => "read",
        Call::Inspect { .. } => "inspect",
        Call::Tick => "tick",
        Call::Tell => "tell",
    }
}

impl Both {
    /// Makes a call on both, and answers the refusal's number, or 0.
    fn perform(&mut self, call: &Call) -> Result<u8, String> {
        match *call {
            Call::Reset => {
                self.expected.reset();
                self.found.reset();
                Ok(0)
            }
            Call::Write { address, byte } => {
                let expected = number(&self.expected.write(address, byte));
                let found = self.found.write(&mut self.memory, address as u16, byte);
                same("a write's answer", expected, found).map(|()| expected)
            }
            Call::Read { address } => {
                let expected = read_answer(&self.expected.read(address));
                let found = self.found.read(&self.memory, address as u16);
                same("a read's answer", expected, found).map(|()| expected.refusal)
            }
            Call::Inspect { offset, length } => self.inspect(offset, length),
            Call::Tick => {
                let expected = number(&self.expected.tick(&mut self.expected_frame));
                let found = self.found.tick(&self.memory, &mut self.found_frame);
                same("a tick's answer", expected, found)?;
                same("a frame", frame(&self.expected_frame), self.found_frame)?;
                Ok(expected)
            }
            // what is told is compared after each call
            Call::Tell => Ok(0),
        }
    }

    fn inspect(&mut self, offset: usize, length: usize) -> Result<u8, String> {
        let mut expected_buffer = vec![UNTOUCHED; length];
        let mut buffer = expected_buffer.clone();
        let expected = number(&self.expected.inspect(offset, &mut expected_buffer));
        let found = self.found.inspect(&self.memory, offset as u16, &mut buffer);
        same("an inspection's answer", expected, found)?;
        same_items("inspected bytes", &expected_buffer, &buffer)?;
        Ok(expected)
    }
}

/// Draws a chip and some calls, and makes them.
pub fn compare(dice: &mut Dice, tally: &mut Tally) -> Result<(), String> {
    let loops = loops(dice);
    let setup = setup(dice);
    let (expected_memory, memory) = two_parts(dice, &loops);
    let mut both = Both {
        expected: chip::Chip::new(setup, expected_memory),
        expected_frame: chip::Frame::default(),
        found: library::Chip::new(kind(setup.kind), converter(setup.converter), setup.mute),
        found_frame: library::Frame::default(),
        memory,
    };
    same_chip(&both.expected, &both.found, &both.memory)?;
    for (k, call) in chip_calls(dice, &loops, 300).iter().enumerate() {
        let answer = both
            .perform(call)
            .and_then(|answer| {
                same_chip(&both.expected, &both.found, &both.memory).map(|()| answer)
            })
            .map_err(|difference| format!("call {k}, {call:?}: {difference}"))?;
        count(tally, format!("{} {answer}", name(call)));
    }
    same_memory(&both.expected.memory, &both.memory)
}
