//! The second implementation's program that cuts a script everywhere: standard input to standard output.

use native::implementations::{cuts_program, reference::Reference};
use std::io::{stdin, stdout, Read, Write};

fn main() -> std::io::Result<()> {
    let words: Vec<_> = std::env::args_os().skip(1).collect();
    if !words.is_empty() && words != ["trial"] {
        eprintln!("usage: cuts_main [trial] < SCRIPT");
        return Ok(());
    }
    let mut input = Vec::new();
    stdin().lock().read_to_end(&mut input)?;
    stdout().lock().write_all(&cuts_program::run(&Reference, !words.is_empty(), &input))
}
