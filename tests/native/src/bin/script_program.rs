//! The second implementation's script program: standard input to standard output.

use native::implementations::{reference::Reference, script_program};
use std::io::{stdin, stdout, BufWriter};

fn main() -> std::io::Result<()> {
    script_program::run_through(&Reference, stdin().lock(), BufWriter::new(stdout().lock()))
}
