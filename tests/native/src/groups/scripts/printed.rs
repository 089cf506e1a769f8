//! What a program prints on a script.

use std::io::Write;
use std::process::{Command, Output, Stdio};

/// What a program prints on an input that it is given whole.
pub fn printed_by(program: &mut Command, input: &[u8]) -> Vec<u8> {
    printed_in_pieces(program, input, input.len().max(1))
}

/// What a program prints on an input that reaches it in pieces of so many bytes.
pub fn printed_in_pieces(program: &mut Command, input: &[u8], piece: usize) -> Vec<u8> {
    output_in_pieces(program, input, piece).stdout
}

/// How a program that is not ended by a signal ends on such an input.
pub fn output_in_pieces(program: &mut Command, input: &[u8], piece: usize) -> Output {
    let mut child = program.stdin(Stdio::piped()).stdout(Stdio::piped()).spawn().unwrap_or_else(|e| panic!("{program:?}: {e}"));
    let mut stdin = child.stdin.take().unwrap();
    let output = std::thread::scope(|scope| {
        scope.spawn(move || {
            for part in input.chunks(piece) {
                // A run that ends at a line stops reading, so the rest of the input may find no reader.
                if stdin.write_all(part).is_err() {
                    return;
                }
                if part.len() < input.len() {
                    std::thread::sleep(std::time::Duration::from_micros(50));
                }
            }
        });
        child.wait_with_output().expect("the program runs")
    });
    assert!(output.status.code().is_some(), "{program:?} was ended by a signal");
    output
}

/// Asserts equal outputs and shows the first line that differs.
pub fn assert_prints(name: &str, input: &[u8], got: &[u8], expected: &[u8]) {
    if got == expected {
        return;
    }
    let (g, e) = (String::from_utf8_lossy(got), String::from_utf8_lossy(expected));
    let at = g.lines().zip(e.lines()).take_while(|(a, b)| a == b).count();
    let tail = &input[..input.len().min(2000)];
    panic!(
        "{name}: line {} prints {:?} for {:?}; script {:?}",
        at + 1,
        g.lines().nth(at),
        e.lines().nth(at),
        String::from_utf8_lossy(tail)
    );
}
