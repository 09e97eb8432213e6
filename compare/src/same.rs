//! What the independent program holds, as the library has it, and how two such things are compared.

use std::collections::BTreeMap;
use std::fmt::Debug;

use second::chip::{self, Converter, Kind};
use second::generate::{memory, Dice, Loops};
use second::memory::AnyMemory;
use second::refusal::Refusal;
use second::voice::{Pair, Voice};

use crate::library;

/// How often each outcome came up.
pub type Tally = BTreeMap<String, u64>;

pub fn count(tally: &mut Tally, outcome: String) {
    *tally.entry(outcome).or_insert(0) += 1;
}

/// An error that tells both sides, unless they are the same.
pub fn same<T: Debug + PartialEq>(what: &str, expected: T, found: T) -> Result<(), String> {
    if expected == found {
        Ok(())
    } else {
        Err(format!("{what}: expected {expected:?}, found {found:?}"))
    }
}

/// The same for long lists, of which the first item that differs is told.
pub fn same_items<T: Debug + PartialEq>(
    what: &str,
    expected: &[T],
    found: &[T],
) -> Result<(), String> {
    same(
        &format!("{what}, their number"),
        expected.len(),
        found.len(),
    )?;
    match expected
        .iter()
        .zip(found)
        .position(|(one, other)| one != other)
    {
        Some(k) => same(&format!("{what}, item {k}"), &expected[k], &found[k]),
        None => Ok(()),
    }
}

pub fn number<T>(answer: &Result<T, Refusal>) -> u8 {
    match answer {
        Ok(_) => 0,
        Err(refusal) => refusal.number(),
    }
}

pub fn kind(kind: Kind) -> u8 {
    match kind {
        Kind::Rf5c68a => 0,
        Kind::Rf5c164 => 1,
    }
}

pub fn converter(converter: Converter) -> u8 {
    match converter {
        Converter::Bits16 => 16,
        Converter::Bits10 => 10,
        Converter::Bits8 => 8,
    }
}

/// A memory in two parts, for both.
pub fn two_parts(dice: &mut Dice, loops: &Loops) -> (AnyMemory, library::Memory) {
    let mut ram = memory(dice, loops).parts().concat();
    let split = match dice.within(0, 3) {
        0 => ram.len(),
        1 => ram.len() / 16 * dice.within(0, 16),
        2 => dice.within(0, ram.len()),
        _ => dice.pick(&[0, ram.len(), ram.len() / 2]),
    };
    let rom = ram.split_off(split);
    let board = AnyMemory::board(AnyMemory::ram(ram.clone()), AnyMemory::rom(rom.clone()));
    (board, library::Memory { ram, rom })
}

pub fn same_memory(expected: &AnyMemory, found: &library::Memory) -> Result<(), String> {
    let parts = expected.parts();
    same_items("bytes of RAM", parts[0], &found.ram)?;
    same_items("bytes of ROM", parts[1], &found.rom)
}

fn small(number: i32) -> i16 {
    i16::try_from(number).expect("a contribution of 16 bits")
}

fn side(side: &chip::Side) -> library::Side {
    library::Side {
        contributions: side.contributions.map(small),
        total: side.total,
        word: side.word,
    }
}

pub fn frame(frame: &chip::Frame) -> library::Frame {
    library::Frame {
        left: side(&frame.left),
        right: side(&frame.right),
    }
}

pub fn contributions(latest: [Pair; 8]) -> library::Contributions {
    library::Contributions {
        left: latest.map(|pair| small(pair.0)),
        right: latest.map(|pair| small(pair.1)),
    }
}

fn voice(voice: &Voice) -> library::Voice {
    library::Voice {
        phase: voice.going.unwrap_or(0),
        left: small(voice.latest.0),
        right: small(voice.latest.1),
        sounding: voice.going.is_some().into(),
        env: voice.env,
        pan: voice.pan,
        fdl: voice.fdl,
        fdh: voice.fdh,
        lsl: voice.lsl,
        lsh: voice.lsh,
        st: voice.st,
    }
}

/// All registers, and what each read of a position answers.
pub fn same_chip(
    expected: &chip::Chip<AnyMemory>,
    found: &library::Chip,
    memory: &library::Memory,
) -> Result<(), String> {
    let registers = &expected.registers;
    let whole = library::Chip {
        voices: std::array::from_fn(|k| voice(&registers.voices[k])),
        kind: kind(expected.setup.kind),
        converter: converter(expected.setup.converter),
        mutes: expected.setup.mute,
        on: registers.on.into(),
        bank: registers.bank,
        selected: registers.selected as u8,
        channel: registers.channel,
    };
    let mut counted = *found;
    for voice in &mut counted.voices {
        // the phase of a voice at rest does not count
        if voice.sounding == 0 {
            voice.phase = 0;
        }
    }
    same("registers", whole, counted)?;
    same(
        "what is told",
        contributions(expected.contributions()),
        found.tell(),
    )?;
    for address in 0x10..0x20 {
        let answer = expected.read(address.into());
        same(
            "a position byte",
            read_answer(&answer),
            found.read(memory, address),
        )?;
    }
    Ok(())
}

pub fn read_answer(answer: &Result<u8, Refusal>) -> library::ReadAnswer {
    library::ReadAnswer {
        refusal: number(answer),
        byte: *answer.as_ref().unwrap_or(&0),
    }
}
