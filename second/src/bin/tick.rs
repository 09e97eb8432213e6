//! Ticks of eight sounding voices over a RAM, for timing: the same as `timing` with `ticks 8 20000000`.

use second::chip::{Chip, Converter, Frame, Kind, Setup};
use second::memory::Ram;

const TICKS: u32 = 20_000_000;

const REGISTERS: [[u8; 7]; 8] = [
    [255, 0xFF, 0x00, 0x08, 0, 0, 0x00],
    [200, 0x5A, 0x34, 0x07, 0, 0, 0x10],
    [180, 0xA5, 0x01, 0x0A, 0, 0, 0x20],
    [160, 0x3C, 0x80, 0x05, 0, 0, 0x30],
    [140, 0xC3, 0x77, 0x09, 0, 0, 0x40],
    [120, 0x69, 0x10, 0x0C, 0, 0, 0x50],
    [100, 0x96, 0xF0, 0x03, 0, 0, 0x60],
    [80, 0x1E, 0x0F, 0x10, 0, 0, 0x70],
];

/// Each part of a frame counts, and contributions at a place that the left word names, so that none is left out.
fn weighed(frame: &Frame) -> i64 {
    let (left, right) = (&frame.left, &frame.right);
    let voice = usize::from(left.word % 8);
    let totals = i64::from(left.total) - 3 * i64::from(right.total);
    let items = i64::from(left.contributions[voice]) - 5 * i64::from(right.contributions[voice]);
    let words = i64::from(left.word) - 7 * i64::from(right.word);
    totals + items + words
}

fn main() {
    let bytes = (0..65_536u32)
        .map(|place| {
            if place % 4_096 == 4_095 {
                0xFF
            } else {
                (place.wrapping_mul(2_654_435_761) >> 24) as u8 & 0xFE
            }
        })
        .collect();
    let setup = Setup {
        kind: Kind::Rf5c68a,
        converter: Converter::Bits16,
        mute: 0,
    };
    let mut chip = Chip::new(setup, Ram { bytes });
    for (voice, registers) in (0x40..).zip(REGISTERS) {
        chip.write(7, voice).expect("a register");
        for (address, byte) in (0..).zip(registers) {
            chip.write(address, byte).expect("a register");
        }
    }
    chip.write(8, 0x00).expect("a register");
    chip.write(7, 0x80).expect("a register");
    let mut frame = Frame::default();
    let mut sum = 0;
    for _ in 0..TICKS {
        chip.tick(&mut frame).expect("a tick");
        sum += weighed(&frame);
    }
    println!("{sum}");
}
