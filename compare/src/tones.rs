//! The pitch calculator.

use second::generate::{tone, Dice};
use second::notes::notes;
use second::pitch::Tone;

use crate::library::{self, FdAnswer};
use crate::same::{count, number, same, Tally};

fn compare_tone(tone: &Tone, tally: &mut Tally) -> Result<(), String> {
    let answer = tone.fd();
    let expected = FdAnswer {
        refusal: number(&answer),
        fd: answer.unwrap_or(0),
    };
    let found = library::fd(tone.frequency, tone.clock, tone.words);
    same(&format!("{tone:?}"), expected, found)?;
    count(tally, format!("pitch {}", found.refusal));
    Ok(())
}

/// Draws some tones.
pub fn compare(dice: &mut Dice, tally: &mut Tally) -> Result<(), String> {
    for _ in 0..20 {
        compare_tone(&tone(dice), tally)?;
    }
    Ok(())
}

/// The notes of the data sheet's table.
pub fn compare_notes(tally: &mut Tally) -> Result<(), String> {
    for note in notes() {
        compare_tone(&note.tone(), tally)?;
    }
    Ok(())
}
