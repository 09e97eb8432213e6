//! Compares the static library with the independent program, on so many inputs of each sort that are drawn from a seed.

mod chips;
mod library;
mod logs;
mod players;
mod same;
mod tones;

use std::env;
use std::process::ExitCode;

use same::Tally;
use second::generate::Dice;

type Comparison = fn(&mut Dice, &mut Tally) -> Result<(), String>;

const SORTS: [(&str, Comparison); 4] = [
    ("chips", chips::compare),
    ("players", players::compare),
    ("logs", logs::compare),
    ("tones", tones::compare),
];

/// Compares all, and answers what differs first.
fn compare(seed: u64, count: u64, tallies: &mut [Tally; 4]) -> Result<(), String> {
    for ((name, compare), tally) in SORTS.iter().zip(tallies.iter_mut()) {
        for k in 0..count {
            // each input has a seed of its own, by which it can be had again
            let mut dice = Dice::new(seed << 32 | k);
            compare(&mut dice, tally)
                .map_err(|difference| format!("{name}, seed {seed}, input {k}: {difference}"))?;
        }
    }
    logs::compare_longest(&mut Dice::new(seed), &mut tallies[2])?;
    tones::compare_notes(&mut tallies[3])
}

fn main() -> ExitCode {
    let numbers: Vec<u64> = env::args()
        .skip(1)
        .filter_map(|word| word.parse().ok())
        .collect();
    let [seed, count] = numbers[..] else {
        eprintln!("usage: compare SEED COUNT");
        return ExitCode::from(2);
    };
    let mut tallies = Default::default();
    if let Err(difference) = compare(seed, count, &mut tallies) {
        println!("{difference}");
        return ExitCode::FAILURE;
    }
    println!("{count} inputs of each sort were the same");
    for ((name, _), tally) in SORTS.iter().zip(&tallies) {
        println!("  {name}: {tally:?}");
    }
    ExitCode::SUCCESS
}
