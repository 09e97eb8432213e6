//! Compares a program `tune` with this package's pitch calculator, for the notes of the table and for tones that are drawn
//! from a seed.

use std::collections::BTreeMap;
use std::io;
use std::process::ExitCode;

use second::generate::{tone, Dice};
use second::notes::notes;
use second::pitch::Tone;
use second::programs::{printed, Order};

fn line(tone: &Tone) -> String {
    match tone.fd() {
        Ok(fd) => fd.to_string(),
        Err(refusal) => format!("refused {}", refusal.number()),
    }
}

fn main() -> io::Result<ExitCode> {
    let Some(order) = Order::of_arguments() else {
        return Ok(ExitCode::from(2));
    };
    let mut dice = Dice::new(order.seed);
    let mut tones: Vec<Tone> = notes().iter().map(|note| note.tone()).collect();
    tones.extend((0..order.count).map(|_| tone(&mut dice)));
    let input: String = tones
        .iter()
        .map(|tone| format!("{} {} {}\n", tone.frequency, tone.clock, tone.words))
        .collect();
    let text = String::from_utf8_lossy(&printed(&order.program, input.as_bytes())?).into_owned();
    let lines: Vec<&str> = text.lines().collect();
    let mut outcomes = BTreeMap::new();
    for (k, tone) in tones.iter().enumerate() {
        let expected = line(tone);
        if lines.get(k) != Some(&expected.as_str()) {
            println!("{tone:?}: expected {expected}, printed {:?}", lines.get(k));
            return Ok(ExitCode::FAILURE);
        }
        let outcome = if tone.fd().is_ok() {
            "an FD"
        } else {
            &expected
        };
        *outcomes.entry(outcome.to_string()).or_insert(0u32) += 1;
    }
    for note in notes() {
        if (line(&note.tone()) == note.fd.to_string()) == note.maker {
            println!("{} has another FD than the table", note.name);
            return Ok(ExitCode::FAILURE);
        }
    }
    println!("{} tones were the same: {outcomes:?}", tones.len());
    Ok(ExitCode::SUCCESS)
}
