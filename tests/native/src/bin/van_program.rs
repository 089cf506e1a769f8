//! The second implementation's program that prints the page for the service van: standard input to standard output.

use native::implementations::{reference::Reference, van_program};
use std::io::{stdin, stdout, Write};

fn main() -> std::io::Result<()> {
    if std::env::args_os().len() > 1 {
        eprintln!("usage: van_main < VOLUMES");
        return Ok(());
    }
    let page = van_program::run_through(&van_program::Right, &Reference, stdin().lock())?;
    stdout().lock().write_all(&page)
}
