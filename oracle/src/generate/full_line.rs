//! Script lines for the line tool, with which a line of the most places is
//! filled.

use std::io::{self, Write};

use super::lines::{word, KINDS};
use super::Lines;
use crate::lines::{MOST_PLACES, PLACE};
use crate::script::hex;

/// Prints lines that fill a first-come line of 4,096 places, and then a turn
/// line.
pub fn generate(output: &mut impl Write) -> io::Result<()> {
    let mut lines = Lines::default();
    for kind in KINDS {
        lines.say(format!("{} {} 255", word(kind), MOST_PLACES * PLACE));
        for number in 0..MOST_PLACES {
            // Suites in turn, from 4 on, so that the two lines differ.
            let suite = (number + 3) % 8 + 1;
            lines.say(format!("offer {suite} {}", counted(number)));
        }
        lines.say("offer 8 ff");
        for _ in 0..5 {
            lines.say("settle");
        }
        lines.say("count");
        for fetch in ["1 4", "2 1", "5 2", "5 0", "6 4", "4096 4", "4097 4"] {
            lines.say(format!("fetch {fetch}"));
        }
        lines.say("offer 1 ff");
        lines.say("agreed");
    }
    lines.print_last(output)
}

/// A number as the digits of a message: one byte if that holds it, else two.
fn counted(number: usize) -> String {
    let bytes = (number as u16).to_be_bytes();
    hex(&bytes[usize::from(number < 256)..])
}
