//! Lines for the tools, with which two implementations of them are compared.
//!
//! The lines come in cases of several families. Each family goes through its
//! ways in turn, so that a hundred cases or some more have all of them; the rest
//! is random, and depends on the seed alone. What is printed ends without a line
//! end.

pub mod bench;
pub mod full_line;
pub mod lines;
pub mod messages;
pub mod random;
mod scenes;
pub mod sessions;
mod slips;
mod spellings;

use std::io::{self, Write};

use random::Random;

/// Lines, each with its line end.
#[derive(Default)]
struct Lines {
    bytes: Vec<u8>,
}

impl Lines {
    fn say(&mut self, line: impl AsRef<[u8]>) {
        self.bytes.extend_from_slice(line.as_ref());
        self.bytes.push(b'\n');
    }

    /// Now and then says a line that a tool passes over.
    fn say_passed_over(&mut self, random: &mut Random) {
        if random.one_in(6) {
            self.say(random.pick(&[&b""[..], b"#", b"# a line \xff\xfe"]));
        }
    }

    /// Prints the lines so far, and begins anew.
    fn print(&mut self, output: &mut impl Write) -> io::Result<()> {
        output.write_all(&self.bytes)?;
        self.bytes.clear();
        Ok(())
    }

    /// Prints the lines so far, the last of them without its line end.
    fn print_last(&mut self, output: &mut impl Write) -> io::Result<()> {
        self.bytes.pop();
        self.print(output)
    }
}

/// The front, as many fillers as the length asks for, and the end.
fn padded(front: &str, filler: u8, end: &str, length: usize) -> Vec<u8> {
    let mut line = front.as_bytes().to_vec();
    line.resize(length - end.len(), filler);
    line.extend(end.bytes());
    line
}
