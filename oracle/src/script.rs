//! Scripts: what the tools and the bench need to read lines of text and to
//! answer them.

use std::io::{self, BufRead, Write};

/// The most bytes that a tool's line has, without its line end.
pub const LONGEST_LINE: usize = 4096;

/// A tool that answers lines.
pub trait Tool {
    /// A line of the right form, taken apart.
    type Command;

    /// The forms of the lines; the first word of each is the command.
    const FORMS: &'static [&'static str];

    /// The command that these fields are, if they have its form.
    fn command(&self, fields: &[&[u8]]) -> Option<Self::Command>;

    /// Does what a command says; gives the lines that answer it, or the words
    /// of an error. An error changes nothing.
    fn meet(&mut self, command: Self::Command) -> Result<String, &'static str>;
}

/// Runs a tool on the lines of the input.
pub fn run(tool: &mut impl Tool, input: impl BufRead, output: &mut impl Write) -> io::Result<()> {
    answer_lines(LONGEST_LINE, input, output, |line| answer(tool, line))
}

/// Answers every line of the input on the output, each before the next is read.
/// Of a line that is longer than the longest one byte more is given.
pub fn answer_lines(
    longest: usize,
    mut input: impl BufRead,
    output: &mut impl Write,
    mut answer: impl FnMut(&[u8]) -> String,
) -> io::Result<()> {
    let mut line = Vec::new();
    while next_line(longest, &mut input, &mut line)? {
        output.write_all(answer(&line).as_bytes())?;
        output.flush()?;
    }
    Ok(())
}

/// Reads the next line without its line end; says whether there was one.
fn next_line(longest: usize, input: &mut impl BufRead, line: &mut Vec<u8>) -> io::Result<bool> {
    line.clear();
    let mut begun = false;
    loop {
        let bytes = input.fill_buf()?;
        if bytes.is_empty() {
            return Ok(begun);
        }
        begun = true;
        let end = bytes.iter().position(|byte| *byte == b'\n');
        let part = &bytes[..end.unwrap_or(bytes.len())];
        let room = longest + 1 - line.len();
        line.extend_from_slice(&part[..part.len().min(room)]);
        let used = part.len() + usize::from(end.is_some());
        input.consume(used);
        if end.is_some() {
            return Ok(true);
        }
    }
}

/// The lines that answer a line; none for a line that is passed over.
pub fn answer<T: Tool>(tool: &mut T, line: &[u8]) -> String {
    if line.len() > LONGEST_LINE {
        return "error: a line has at most 4096 bytes\n".to_string();
    }
    if line.is_empty() || line[0] == b'#' {
        return String::new();
    }
    let fields: Vec<&[u8]> = line.split(|byte| *byte == b' ').collect();
    match form_of::<T>(fields[0]) {
        None => "error: unknown command\n".to_string(),
        Some(form) => match tool.command(&fields) {
            None => format!("error: expected {form}\n"),
            Some(command) => tool
                .meet(command)
                .unwrap_or_else(|words| format!("error: {words}\n")),
        },
    }
}

/// The form of the lines that begin with this field.
fn form_of<T: Tool>(field: &[u8]) -> Option<&'static str> {
    let is_word = |form: &&&str| form.split(' ').next().map(str::as_bytes) == Some(field);
    T::FORMS.iter().find(is_word).copied()
}

/// A number: one or more decimal digits, not above what the type holds.
pub fn number<N: TryFrom<u64>>(field: &[u8]) -> Option<N> {
    if field.is_empty() {
        return None;
    }
    let mut value: u64 = 0;
    for byte in field {
        let digit = char::from(*byte).to_digit(10)?;
        value = value.checked_mul(10)?.checked_add(u64::from(digit))?;
    }
    N::try_from(value).ok()
}

/// Numbers, one in each field.
pub fn numbers(fields: &[&[u8]]) -> Option<Vec<u64>> {
    fields.iter().map(|field| number(field)).collect()
}

/// A signed number of 32 bits: a number with or without one minus in front.
pub fn signed_number(field: &[u8]) -> Option<i32> {
    let value = match field.strip_prefix(b"-") {
        Some(digits) => -i64::from(number::<u32>(digits)?),
        None => i64::from(number::<u32>(field)?),
    };
    i32::try_from(value).ok()
}

/// Bytes as lower-case hexadecimal digits.
pub fn hex(bytes: &[u8]) -> String {
    bytes.iter().map(|byte| format!("{byte:02x}")).collect()
}

/// The bytes that hexadecimal digits of either case stand for; there must be
/// an even number of them.
pub fn bytes_of(digits: &[u8]) -> Option<Vec<u8>> {
    if digits.len() % 2 == 1 {
        return None;
    }
    let digit = |byte: u8| char::from(byte).to_digit(16).map(|digit| digit as u8);
    digits
        .chunks(2)
        .map(|pair| Some(digit(pair[0])? << 4 | digit(pair[1])?))
        .collect()
}

/// What the tests of the tools need.
#[cfg(test)]
pub mod testing {
    use super::*;
    use std::io::BufReader;

    /// What is printed for these bytes, read in pieces of several lengths.
    pub fn printed(
        run: impl Fn(BufReader<&[u8]>, &mut Vec<u8>) -> io::Result<()>,
        input: impl AsRef<[u8]>,
    ) -> String {
        let printed = |capacity| {
            let mut output = Vec::new();
            let input = BufReader::with_capacity(capacity, input.as_ref());
            run(input, &mut output).unwrap();
            String::from_utf8(output).unwrap()
        };
        let whole = printed(1 << 20);
        for capacity in [1, 7, 4096] {
            assert_eq!(printed(capacity), whole);
        }
        whole
    }

    /// The answers of a new tool to these bytes.
    pub fn answers<T: Tool>(new: fn() -> T, input: impl AsRef<[u8]>) -> String {
        printed(|input, output| run(&mut new(), input, output), input)
    }

    /// The lines of the answers of a new tool to these bytes.
    pub fn answer_lines<T: Tool>(new: fn() -> T, input: impl AsRef<[u8]>) -> Vec<String> {
        let answers = answers(new, input);
        answers.lines().map(str::to_string).collect()
    }

    /// Checks that a new tool gives each line this one answer.
    pub fn check<T: Tool>(new: fn() -> T, lines: &[(&str, &str)]) {
        check_printed(|input| answers(new, input), lines);
    }

    /// Checks that each line gets this one answer.
    pub fn check_printed(print: impl Fn(&str) -> String, lines: &[(&str, &str)]) {
        let input: String = lines.iter().map(|(line, _)| format!("{line}\n")).collect();
        let printed = print(&input);
        assert_eq!(printed.lines().count(), lines.len());
        for ((line, expected), answer) in lines.iter().zip(printed.lines()) {
            assert_eq!(answer, *expected, "the answer to {line:?}");
        }
    }
}

#[cfg(test)]
mod tests {
    use super::*;

    #[test]
    fn numbers_may_have_zeros_in_front() {
        let zeros = "0".repeat(100);
        assert_eq!(number::<u8>(format!("{zeros}255").as_bytes()), Some(255));
        assert_eq!(number::<u8>(b"256"), None);
        assert_eq!(number::<u64>(b"18446744073709551615"), Some(u64::MAX));
        assert_eq!(number::<u64>(b"18446744073709551616"), None);
    }

    #[test]
    fn signed_numbers_have_one_minus_at_most() {
        let zeros = "0".repeat(100);
        assert_eq!(signed_number(b"-0"), Some(0));
        assert_eq!(
            signed_number(format!("-{zeros}2147483648").as_bytes()),
            Some(i32::MIN)
        );
        assert_eq!(signed_number(b"2147483648"), None);
        assert_eq!(signed_number(b"-2147483649"), None);
        assert_eq!(signed_number(b"-4294967296"), None);
    }

    #[test]
    fn digits_stand_for_bytes() {
        assert_eq!(hex(&[0x0a, 0xb0]), "0ab0");
        assert_eq!(bytes_of(b"0aB0"), Some(vec![0x0a, 0xb0]));
        assert_eq!(bytes_of(b""), Some(vec![]));
        for digits in [&b"0"[..], b"0ab", b"0g", b"0x", b" 0", b"\xff0"] {
            assert_eq!(bytes_of(digits), None);
        }
    }
}
