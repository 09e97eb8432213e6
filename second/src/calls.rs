//! Lists of calls on a new chip, and all that can be seen after each.

use crate::chip::{Chip, Frame, Setup};
use crate::memory::Memory;
use crate::refusal::Refusal;
use crate::voice::Pair;

#[derive(Clone, Debug, PartialEq, Eq)]
pub enum Call {
    Reset,
    Write { address: u32, byte: u8 },
    Read { address: u32 },
    Inspect { offset: usize, length: usize },
    Tick,
    Tell,
}

#[derive(Clone, Debug, PartialEq, Eq)]
pub enum Answer {
    Done,
    Byte(u8),
    Told([Pair; 8]),
    Refused(Refusal),
}

/// What can be seen after a call.
#[derive(Clone, Debug, PartialEq, Eq)]
pub struct Seen {
    pub answer: Answer,
    /// The frame that is lent to every tick.
    pub frame: Frame,
    /// The buffer of an inspection, granted or refused; empty for other calls.
    pub buffer: Vec<u8>,
    pub latest: [Pair; 8],
    /// What reads of 10H to 1FH answer.
    pub positions: [Result<u8, Refusal>; 16],
}

/// What every byte of an inspection's buffer is before the call.
pub const UNTOUCHED: u8 = 0x5A;

fn answer(granted: Result<(), Refusal>) -> Answer {
    match granted {
        Ok(()) => Answer::Done,
        Err(refusal) => Answer::Refused(refusal),
    }
}

/// Makes one call. The frame is written by a granted tick alone, and the
/// buffer by a granted inspection alone; the inspection is of the whole buffer.
pub fn perform<M: Memory>(
    chip: &mut Chip<M>,
    call: &Call,
    frame: &mut Frame,
    buffer: &mut [u8],
) -> Answer {
    match *call {
        Call::Reset => {
            chip.reset();
            Answer::Done
        }
        Call::Write { address, byte } => answer(chip.write(address, byte)),
        Call::Read { address } => match chip.read(address) {
            Ok(byte) => Answer::Byte(byte),
            Err(refusal) => Answer::Refused(refusal),
        },
        Call::Inspect { offset, .. } => answer(chip.inspect(offset, buffer)),
        Call::Tick => answer(chip.tick(frame)),
        Call::Tell => Answer::Told(chip.contributions()),
    }
}

/// Makes a new chip and all calls on it. Answers what is seen after each call,
/// and the chip with its memory as the calls leave them.
pub fn run<M: Memory>(setup: Setup, memory: M, calls: &[Call]) -> (Vec<Seen>, Chip<M>) {
    let mut chip = Chip::new(setup, memory);
    let mut frame = Frame::default();
    let mut seen = Vec::new();
    for call in calls {
        let length = match call {
            Call::Inspect { length, .. } => *length,
            _ => 0,
        };
        let mut buffer = vec![UNTOUCHED; length];
        let answer = perform(&mut chip, call, &mut frame, &mut buffer);
        seen.push(Seen {
            answer,
            frame: frame.clone(),
            buffer,
            latest: chip.contributions(),
            positions: std::array::from_fn(|index| chip.read(0x10 + index as u32)),
        });
    }
    (seen, chip)
}

#[cfg(test)]
mod tests {
    use super::*;
    use crate::chip::{Converter, Kind};
    use crate::memory::Ram;

    #[test]
    fn a_list_of_calls() {
        let setup = Setup {
            kind: Kind::Rf5c164,
            converter: Converter::Bits8,
            mute: 0,
        };
        let memory = Ram {
            bytes: vec![0xC0; 65_536],
        };
        let write = |address, byte| Call::Write { address, byte };
        let calls = [
            write(0, 128),
            write(1, 0x12),
            write(7, 0x80),
            write(8, 0xFE),
            Call::Tick,
            Call::Tell,
            Call::Read { address: 0x1000 },
            Call::Inspect {
                offset: 4_096,
                length: 1,
            },
            Call::Reset,
            Call::Tell,
        ];
        let (seen, _) = run(setup, memory, &calls);
        assert_eq!(seen[4].frame.totals(), (512, 256));
        assert_eq!(seen[4].frame.left.word, 130);
        let mut told = [(0, 0); 8];
        told[0] = (512, 256);
        assert_eq!(seen[5].answer, Answer::Told(told));
        assert_eq!(seen[6].answer, Answer::Refused(Refusal::WindowClosed));
        assert_eq!(seen[7].answer, Answer::Refused(Refusal::NoRoom));
        assert_eq!(seen[7].buffer, [UNTOUCHED]);
        assert_eq!(seen[9].answer, Answer::Told([(0, 0); 8]));
        assert_eq!(seen[9].frame.totals(), (512, 256));
    }
}
