//! Logs that are played, whole or a few ticks at a time.

use second::chip::{Chip, Converter, Frame, Setup};
use second::generate::{loops, mute, station_case, Dice};
use second::memory::AnyMemory;
use second::player::{Answer, Player, State};

use crate::library::{self, Played, StepAnswer, Totals, Words};
use crate::same::{
    converter, count, kind, same, same_chip, same_items, same_memory, two_parts, Tally,
};

const FULL: u8 = 0;
const END: u8 = 2;
const FAULT: u8 = 3;

/// What no tick leaves in a buffer.
const UNTOUCHED: (Totals, Words) = (
    Totals {
        left: i32::MIN,
        right: i32::MAX,
    },
    Words { left: 1, right: 2 },
);

/// Plays so many ticks, or to the stop, and answers what the library should.
fn play(
    chip: &mut Chip<AnyMemory>,
    player: &mut Player,
    room: usize,
    rows: &mut Vec<(Totals, Words)>,
) -> Played {
    let mut frame = Frame::default();
    let mut last = StepAnswer {
        bit: 0,
        address: 0,
        progress: FULL,
        number: 0,
    };
    while rows.len() < room {
        match player.step(chip, &mut frame) {
            Answer::Taken => {}
            Answer::Ticked => {
                let (left, right) = frame.totals();
                let words = Words {
                    left: frame.left.word,
                    right: frame.right.word,
                };
                rows.push((Totals { left, right }, words));
            }
            Answer::Ended { bit } => {
                last.progress = END;
                last.bit = bit;
                break;
            }
            Answer::Fault(fault) => {
                last.progress = FAULT;
                last.bit = fault.bit;
                last.number = fault.number();
                last.address = fault.address as u16;
                break;
            }
        }
    }
    Played {
        ticks: rows.len(),
        last,
    }
}

/// Where a player stands: its state, and the fields that count in it.
fn same_player(expected: &Player, found: &library::Player) -> Result<(), String> {
    match expected.state {
        State::BeforeHeader => same("a new player", (0, 0), (found.state, found.place)),
        State::AtRecord { bit } => same("a place", (0, bit), (found.state, found.place)),
        State::Waiting { bit, left } => {
            let expected = (1, bit, left);
            same("a wait", expected, (found.state, found.bit, found.ticks))
        }
        State::Ended { bit } => same("an end", (2, bit), (found.state, found.bit)),
        State::Faulted(fault) => {
            let expected = (3, fault.bit, fault.number(), fault.address as u16);
            let stands = (found.state, found.bit, found.number, found.address);
            same("a fault", expected, stands)
        }
    }
}

/// How many ticks there is room for at a time.
fn room(dice: &mut Dice) -> usize {
    match dice.within(0, 4) {
        0 => dice.within(0, 3),
        1 => 1,
        _ => dice.within(2, 2_000),
    }
}

/// Draws a log, a memory and a chip, and plays it.
pub fn compare(dice: &mut Dice, tally: &mut Tally) -> Result<(), String> {
    let case = station_case(dice, 0);
    let setup = Setup {
        kind: case.kind,
        converter: dice.pick(&Converter::ALL),
        mute: mute(dice),
    };
    let loops = loops(dice);
    let (expected_memory, mut memory) = two_parts(dice, &loops);
    let mut expected = Chip::new(setup, expected_memory);
    let mut expected_player = Player::new(&case.log);
    let mut chip = library::Chip::new(kind(setup.kind), converter(setup.converter), setup.mute);
    let mut player = library::Player::new();
    let whole = dice.one_in(2);
    let mut stops = 0;
    // a stopped player is asked once more
    while stops < 2 {
        let room = if whole { 100_000 } else { room(dice) };
        let spare = dice.within(0, 2);
        let mut rows = Vec::new();
        let answer = play(&mut expected, &mut expected_player, room, &mut rows);
        rows.resize(room + spare, UNTOUCHED);
        let (mut totals, mut words) = (vec![UNTOUCHED.0; room], vec![UNTOUCHED.1; room]);
        // one of the two buffers may be the longer one
        if dice.one_in(2) {
            totals.resize(room + spare, UNTOUCHED.0);
        } else {
            words.resize(room + spare, UNTOUCHED.1);
        }
        let found = player.play(&mut chip, &case.log, &mut memory, &mut totals, &mut words);
        same("what playing answers", answer, found)?;
        let (all_totals, all_words): (Vec<Totals>, Vec<Words>) = rows.into_iter().unzip();
        same_items("totals", &all_totals[..totals.len()], &totals)?;
        same_items("words", &all_words[..words.len()], &words)?;
        same_player(&expected_player, &player)?;
        same_chip(&expected, &chip, &memory)?;
        same_memory(&expected.memory, &memory)?;
        if answer.last.progress != FULL {
            stops += 1;
            if stops == 1 {
                let what = match answer.last.progress {
                    END => "end".to_string(),
                    _ => format!("fault {}", answer.last.number),
                };
                count(tally, what);
            }
        }
        *tally.entry("ticks".to_string()).or_insert(0) += answer.ticks as u64;
    }
    Ok(())
}
