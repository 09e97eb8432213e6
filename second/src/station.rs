//! A chip with a player, a frame and a buffer, and the calls on it.

use crate::calls;
use crate::chip::{Chip, Converter, Frame, Kind, Setup};
use crate::memory::Memory;
use crate::player::{self, Player};

#[derive(Clone, Copy, Debug, PartialEq, Eq)]
pub enum Call {
    Reset,
    Write {
        address: u32,
        byte: u8,
    },
    Read {
        address: u32,
    },
    /// An inspection of as many bytes as the buffer has.
    Inspect {
        offset: usize,
    },
    Tick,
    Tell,
    Step,
}

#[derive(Clone, Debug, PartialEq, Eq)]
pub enum Answer {
    Chip(calls::Answer),
    Step(player::Answer),
}

#[derive(Clone, Debug, PartialEq, Eq)]
pub struct Station<'a, M> {
    pub chip: Chip<M>,
    pub player: Player<'a>,
    pub frame: Frame,
    pub buffer: Vec<u8>,
    /// The answer to the latest call.
    pub answer: Option<Answer>,
}

impl<'a, M: Memory> Station<'a, M> {
    /// A station whose chip mutes the voices outside a group.
    pub fn new(
        group: u8,
        kind: Kind,
        converter: Converter,
        memory: M,
        log: &'a [u8],
        buffer: Vec<u8>,
    ) -> Station<'a, M> {
        let setup = Setup {
            kind,
            converter,
            mute: !group,
        };
        Station {
            chip: Chip::new(setup, memory),
            player: Player::new(log),
            frame: Frame::default(),
            buffer,
            answer: None,
        }
    }

    pub fn try_call(&mut self, call: Call) {
        let on_chip = match call {
            Call::Step => {
                let answer = self.player.step(&mut self.chip, &mut self.frame);
                self.answer = Some(Answer::Step(answer));
                return;
            }
            Call::Reset => calls::Call::Reset,
            Call::Write { address, byte } => calls::Call::Write { address, byte },
            Call::Read { address } => calls::Call::Read { address },
            Call::Inspect { offset } => calls::Call::Inspect {
                offset,
                length: self.buffer.len(),
            },
            Call::Tick => calls::Call::Tick,
            Call::Tell => calls::Call::Tell,
        };
        let answer = calls::perform(&mut self.chip, &on_chip, &mut self.frame, &mut self.buffer);
        self.answer = Some(Answer::Chip(answer));
    }
}

/// Whether each of the eight voices is in exactly one of the groups.
pub fn divides(groups: &[u8]) -> bool {
    (0..8).all(|k| {
        let count = groups.iter().filter(|&group| group >> k & 1 == 1).count();
        count == 1
    })
}

#[cfg(test)]
mod tests {
    use super::*;

    #[test]
    fn groups_that_divide() {
        assert!(divides(&[0x0F, 0x00, 0xF0]));
        assert!(divides(&[0xFF]));
        assert!(!divides(&[0x0F, 0xF1]));
        assert!(!divides(&[0x0F]));
        assert!(!divides(&[]));
    }
}
