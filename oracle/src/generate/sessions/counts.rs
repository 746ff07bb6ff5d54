//! How often each answer comes up in the lines for the session tool, for each
//! combination of kinds.

use std::collections::BTreeMap;
use std::io::{self, Write};

use super::generate;
use super::making::{combination, COMBINATIONS};
use crate::generate::scenes::Program;
use crate::lines::Kind;
use crate::session_tool::SessionTool;
use crate::settings::SettingKind;
use crate::summaries::SummaryKind;

/// For each kind of answer, how often it comes up in the combinations of kinds
/// and, as the last number, with no session.
pub type Counts = BTreeMap<String, [u64; COMBINATIONS + 1]>;

/// Prints how often each answer comes up in the lines of so many seeds.
pub fn count(first: u64, seeds: u64, cases: u64, output: &mut impl Write) -> io::Result<()> {
    let mut counts = Counts::new();
    for seed in first..first + seeds {
        add_counts(seed, cases, &mut counts)?;
    }
    for number in 0..COMBINATIONS {
        writeln!(output, "{}: {}", number + 1, combination(number))?;
    }
    writeln!(output, "{}: no session", COMBINATIONS + 1)?;
    for (kind, counts) in counts {
        for count in counts {
            write!(output, "{count:8}")?;
        }
        writeln!(output, "  {kind}")?;
    }
    Ok(())
}

/// Counts the answers to the lines of a seed. A making that is refused counts
/// for the combination that it asks for.
pub fn add_counts(seed: u64, cases: u64, counts: &mut Counts) -> io::Result<()> {
    let mut bytes = Vec::new();
    generate(seed, cases, &mut bytes)?;
    let mut tool = SessionTool::default();
    for line in bytes.split(|byte| *byte == b'\n') {
        let answer = Program::answer(&mut tool, line);
        let asked = (0..COMBINATIONS).find(|number| {
            answer.starts_with("no") && line.starts_with(making(*number).as_bytes())
        });
        let number = asked.or_else(|| kinds(&tool)).unwrap_or(COMBINATIONS);
        if !answer.is_empty() {
            counts.entry(kind(line, &answer)).or_default()[number] += 1;
        }
    }
    Ok(())
}

/// The front of a line that asks for a session of the combination.
fn making(number: usize) -> String {
    format!("session {} ", combination(number))
}

/// The number of the combination that the session has.
pub fn kinds(tool: &SessionTool) -> Option<usize> {
    let grade = tool.grade.as_ref()?;
    let format = grade.session.format;
    let parts = [
        format.setting == SettingKind::Link,
        format.summary == SummaryKind::Bloom,
        grade.memory.line.kind() == Kind::Turn,
    ];
    Some(
        parts
            .iter()
            .rev()
            .fold(0, |number, part| 2 * number + usize::from(*part)),
    )
}

/// The first field of the line and the words of its answer, without their
/// numbers; but a refusal has its number, and an error stands alone.
fn kind(line: &[u8], answer: &str) -> String {
    if answer.starts_with("error") {
        return answer.to_string();
    }
    let words = match answer.split_once(' ') {
        Some((word, _)) if word != "no" => word,
        _ => answer,
    };
    let field = line.split(|byte| *byte == b' ').next();
    format!(
        "{} {words}",
        String::from_utf8_lossy(field.unwrap_or_default())
    )
}
