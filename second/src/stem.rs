//! The text that `stem` prints for an input.

use std::io::{self, Write};

use crate::chip::{Chip, Converter, Frame, Kind, Setup};
use crate::log::Header;
use crate::memory::{Board, Ram};
use crate::player::{Answer, Fault, Layer, Player};
use crate::refusal::Refusal;

/// The longest log that is played.
pub const LONGEST: usize = 32_768;

/// The lines of an input, one after another. Each ends in a line feed.
pub struct Lines<'a> {
    chip: Chip<Board<Ram, Ram>>,
    player: Player<'a>,
    frame: Frame,
    /// Printed instead of playing.
    refused: Option<Fault>,
    done: bool,
}

impl<'a> Lines<'a> {
    pub fn new(input: &'a [u8]) -> Lines<'a> {
        let (mute, log) = match input {
            [] => (0, input),
            [mute, log @ ..] => (*mute, log),
        };
        let refused = if input.is_empty() {
            Some(Fault::new(Refusal::LogLength, 0, 0))
        } else if log.len() > LONGEST {
            Some(Fault {
                refusal: Refusal::NoRoom,
                layer: Layer::Program,
                bit: 0,
                address: 0,
            })
        } else {
            None
        };
        let kind = match Header::read(log) {
            Ok(header) => header.kind,
            Err(_) => Kind::Rf5c68a,
        };
        let setup = Setup {
            kind,
            converter: Converter::Bits16,
            mute,
        };
        let half = || Ram {
            bytes: vec![0; 32_768],
        };
        let memory = Board {
            first: half(),
            second: half(),
        };
        Lines {
            chip: Chip::new(setup, memory),
            player: Player::new(log),
            frame: Frame::default(),
            refused,
            done: false,
        }
    }

    fn fault_line(&mut self, fault: Fault) -> String {
        self.done = true;
        format!(
            "fault {} {} {} {}\n",
            fault.number(),
            fault.layer.word(),
            fault.bit,
            fault.address
        )
    }
}

impl Iterator for Lines<'_> {
    type Item = String;

    fn next(&mut self) -> Option<String> {
        if self.done {
            return None;
        }
        if let Some(fault) = self.refused {
            return Some(self.fault_line(fault));
        }
        loop {
            match self.player.step(&mut self.chip, &mut self.frame) {
                Answer::Taken => {}
                Answer::Ticked => {
                    let (left, right) = self.frame.totals();
                    return Some(format!("{left} {right}\n"));
                }
                Answer::Ended { .. } => {
                    self.done = true;
                    return Some("end\n".to_string());
                }
                Answer::Fault(fault) => return Some(self.fault_line(fault)),
            }
        }
    }
}

/// The whole text of an input.
pub fn text(input: &[u8]) -> String {
    Lines::new(input).collect()
}

/// Writes the whole text of an input.
pub fn run<W: Write>(input: &[u8], output: &mut W) -> io::Result<()> {
    for line in Lines::new(input) {
        output.write_all(line.as_bytes())?;
    }
    output.flush()
}

#[cfg(test)]
mod tests {
    use super::*;

    const EXAMPLE: [u8; 19] = [
        0x00, 0x10, 0x98, 0x96, 0x80, 0x2F, 0x80, 0x42, 0x00, 0x88, 0x91, 0x8F, 0xE4, 0x00, 0x18,
        0x0C, 0x00, 0x08, 0x00,
    ];

    #[test]
    fn the_example() {
        assert_eq!(text(&EXAMPLE), "512 256\n512 256\nend\n");
        let mut muted = EXAMPLE;
        muted[0] = 0x01;
        assert_eq!(text(&muted), "0 0\n0 0\nend\n");
    }

    #[test]
    fn last_lines() {
        assert_eq!(text(&[]), "fault 7 log 0 0\n");
        assert_eq!(text(&[0]), "fault 7 log 0 0\n");
        assert_eq!(text(&[0, 0x10, 0x98, 0x96]), "fault 7 log 0 0\n");
        assert_eq!(text(&[0, 0x10, 0, 0, 0]), "fault 8 log 0 0\n");
        assert_eq!(text(&[0, 0x10, 0x98, 0x96, 0x80]), "fault 9 log 32 0\n");
        assert_eq!(
            text(&[0, 0x18, 0x98, 0x96, 0x80, 0xA0]),
            "fault 10 log 32 0\n"
        );
        assert_eq!(text(&[7; LONGEST + 2]), "fault 13 program 0 0\n");
        assert_eq!(text(&[7; LONGEST + 1]), "fault 8 log 0 0\n");
        let mut cut = EXAMPLE[..18].to_vec();
        assert_eq!(text(&cut), "512 256\n512 256\nfault 9 log 134 0\n");
        cut.push(0x00);
        cut.push(0x00);
        assert_eq!(text(&cut), "512 256\n512 256\nfault 12 log 134 0\n");
    }

    #[test]
    fn run_writes_the_text() {
        let mut output = Vec::new();
        run(&EXAMPLE, &mut output).unwrap();
        assert_eq!(output, text(&EXAMPLE).as_bytes());
    }
}
