//! Scripts as they are at either width.

use crate::interface::other_width;

/// A script that has a name, and what it prints.
pub struct Script {
    pub name: String,
    pub input: Vec<u8>,
    pub output: Vec<u8>,
}

/// A script at either width: `@` is how a format line of the width ends, and after `drawn=n` it is n times the width; `~` is the same for the
/// other width.
pub struct Template {
    name: String,
    input: String,
    output: String,
}

pub fn template(name: &str, input: &str, output: &str) -> Template {
    Template { name: String::from(name), input: String::from(input), output: String::from(output) }
}

/// A format line.
pub const FORMAT: &str = "op=format pages=2 slots=4@\n";

impl Template {
    pub fn at(self, width: u32) -> Script {
        let filled = |mut text: String| {
            for (sign, width) in [('@', width), ('~', other_width(width))] {
                for n in 1..=8 {
                    text = text.replace(&format!("drawn={n}{sign}"), &format!("drawn={}", n * width));
                }
                text = text.replace(sign, ending(width));
            }
            text.into_bytes()
        };
        Script { name: self.name, input: filled(self.input), output: filled(self.output) }
    }
}

/// How a format line of the width ends.
pub fn ending(width: u32) -> &'static str {
    if width == 64 {
        " width=64"
    } else {
        ""
    }
}

/// The most slots that a format line of the width may have.
pub fn most_slots(width: u32) -> u32 {
    if width == 64 {
        512
    } else {
        1024
    }
}
