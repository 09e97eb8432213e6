//! Compares the text of a program `stem` with this package's, for inputs that are drawn from a seed.

use std::collections::BTreeMap;
use std::io;
use std::process::ExitCode;

use second::generate::{stem_input, Dice};
use second::programs::{printed, Order};
use second::stem;

/// The longest wait of the drawn logs.
const LONGEST_WAIT: u16 = 200;

/// How a text ends: `end`, or `fault` with its number.
fn ending(text: &str) -> String {
    let last = text.lines().last().unwrap_or("");
    last.split(' ').take(2).collect::<Vec<_>>().join(" ")
}

fn main() -> io::Result<ExitCode> {
    let Some(order) = Order::of_arguments() else {
        return Ok(ExitCode::from(2));
    };
    let mut dice = Dice::new(order.seed);
    let mut endings = BTreeMap::new();
    let mut lines = 0;
    for case in 0..order.count {
        let input = stem_input(&mut dice, LONGEST_WAIT);
        let expected = stem::text(&input);
        let text = printed(&order.program, &input)?;
        if text != expected.as_bytes() {
            println!("input {case} of seed {}: {input:02X?}", order.seed);
            println!("expected {expected:?}");
            println!("printed {:?}", String::from_utf8_lossy(&text));
            return Ok(ExitCode::FAILURE);
        }
        lines += expected.lines().count();
        *endings.entry(ending(&expected)).or_insert(0u32) += 1;
    }
    println!(
        "{} inputs and {lines} lines were the same; they ended so: {endings:?}",
        order.count
    );
    Ok(ExitCode::SUCCESS)
}
