//! Programs that are run beside this package.

use std::env;
use std::io::{self, Read, Write};
use std::process::{Command, Stdio};
use std::thread;

/// What a comparing program is asked for by its arguments: a program, a seed, and how many inputs.
pub struct Order {
    pub program: String,
    pub seed: u64,
    pub count: u32,
}

impl Order {
    /// None where the arguments are no order, which is then told.
    pub fn of_arguments() -> Option<Order> {
        let mut arguments = env::args();
        let name = arguments.next().unwrap_or_default();
        let order = Order::of_words(arguments);
        if order.is_none() {
            eprintln!("usage: {name} PROGRAM SEED COUNT");
        }
        order
    }

    fn of_words(mut words: impl Iterator<Item = String>) -> Option<Order> {
        Some(Order {
            program: words.next()?,
            seed: words.next()?.parse().ok()?,
            count: words.next()?.parse().ok()?,
        })
    }
}

/// What a program prints for an input.
pub fn printed(program: &str, input: &[u8]) -> io::Result<Vec<u8>> {
    let mut child = Command::new(program)
        .stdin(Stdio::piped())
        .stdout(Stdio::piped())
        .spawn()?;
    let mut stdin = child.stdin.take().expect("a pipe");
    let mut text = Vec::new();
    thread::scope(|scope| {
        // a program may end before it has read all
        scope.spawn(move || stdin.write_all(input));
        child.stdout.take().expect("a pipe").read_to_end(&mut text)
    })?;
    child.wait()?;
    Ok(text)
}
