//! A second implementation of the message tool, the line tool, the session tool
//! and the bench, written from docs/RULES.md, docs/MESSAGE.md, docs/TOOL.md,
//! docs/LINE_TOOL.md, docs/SESSION_TOOL.md and docs/BENCH.md alone, to compare
//! the first one with.
//!
//! - `oracle message-tool` reads lines from standard input and answers them as
//!   docs/TOOL.md says, `oracle line-tool` as docs/LINE_TOOL.md says, `oracle
//!   session-tool` as docs/SESSION_TOOL.md says, `oracle bench` and `oracle
//!   bench-sessions` as docs/BENCH.md says.
//! - `oracle generate-messages SEED CASES` prints lines for the message tool,
//!   `oracle generate-lines SEED CASES` for the line tool; the same seed and
//!   number of cases always give the same lines.
//! - `oracle generate-full-line` prints lines for the line tool that fill a
//!   line of the most places.
//! - `oracle generate-bench SEED LINES` prints about so many lines for the
//!   bench, which are one session; `oracle count-bench SEED SEEDS LINES` counts
//!   the answers that the sessions of so many seeds get.
//! - `oracle generate-sessions SEED CASES` prints lines for the session tool, one
//!   session for each case; `oracle count-sessions SEED SEEDS CASES` counts the
//!   answers, for each combination of kinds.

mod bench;
mod generate;
mod grade;
mod line_tool;
mod lines;
mod message;
mod message_tool;
mod refusal;
mod script;
mod session;
mod session_tool;
mod settings;
mod summaries;
mod words;

use std::io::{self, BufWriter, Write};
use std::process::ExitCode;

use line_tool::LineTool;
use message_tool::MessageTool;
use session_tool::SessionTool;

/// What the command line asks for.
enum Task {
    MessageTool,
    LineTool,
    SessionTool,
    Bench,
    BenchSessions,
    GenerateMessages { seed: u64, cases: u64 },
    GenerateLines { seed: u64, cases: u64 },
    GenerateFullLine,
    GenerateBench { seed: u64, lines: u64 },
    CountBench { seed: u64, seeds: u64, lines: u64 },
    GenerateSessions { seed: u64, cases: u64 },
    CountSessions { seed: u64, seeds: u64, cases: u64 },
}

fn main() -> ExitCode {
    let arguments: Vec<String> = std::env::args_os()
        .skip(1)
        .map(|argument| argument.to_string_lossy().into_owned())
        .collect();
    match task(&arguments).map(perform) {
        Some(Ok(())) => ExitCode::SUCCESS,
        Some(Err(error)) => {
            eprintln!("oracle: {error}");
            ExitCode::FAILURE
        }
        None => {
            eprintln!("usage: oracle message-tool | line-tool | session-tool");
            eprintln!("       oracle bench | bench-sessions");
            eprintln!("       oracle generate-messages | generate-lines SEED CASES");
            eprintln!("       oracle generate-sessions SEED CASES");
            eprintln!("       oracle generate-full-line");
            eprintln!("       oracle generate-bench SEED LINES");
            eprintln!("       oracle count-bench SEED SEEDS LINES");
            eprintln!("       oracle count-sessions SEED SEEDS CASES");
            ExitCode::from(2)
        }
    }
}

/// Reads the command line.
fn task(arguments: &[String]) -> Option<Task> {
    let words: Vec<&str> = arguments.iter().map(String::as_str).collect();
    Some(match words[..] {
        ["message-tool"] => Task::MessageTool,
        ["line-tool"] => Task::LineTool,
        ["session-tool"] => Task::SessionTool,
        ["bench"] => Task::Bench,
        ["bench-sessions"] => Task::BenchSessions,
        ["generate-messages", seed, cases] => Task::GenerateMessages {
            seed: seed.parse().ok()?,
            cases: cases.parse().ok()?,
        },
        ["generate-lines", seed, cases] => Task::GenerateLines {
            seed: seed.parse().ok()?,
            cases: cases.parse().ok()?,
        },
        ["generate-full-line"] => Task::GenerateFullLine,
        ["generate-bench", seed, lines] => Task::GenerateBench {
            seed: seed.parse().ok()?,
            lines: lines.parse().ok()?,
        },
        ["count-bench", seed, seeds, lines] => Task::CountBench {
            seed: seed.parse().ok()?,
            seeds: seeds.parse().ok()?,
            lines: lines.parse().ok()?,
        },
        ["generate-sessions", seed, cases] => Task::GenerateSessions {
            seed: seed.parse().ok()?,
            cases: cases.parse().ok()?,
        },
        ["count-sessions", seed, seeds, cases] => Task::CountSessions {
            seed: seed.parse().ok()?,
            seeds: seeds.parse().ok()?,
            cases: cases.parse().ok()?,
        },
        _ => return None,
    })
}

/// Does the task on standard input and standard output.
fn perform(task: Task) -> io::Result<()> {
    let input = io::stdin().lock();
    let mut output = BufWriter::new(io::stdout().lock());
    match task {
        Task::MessageTool => script::run(&mut MessageTool::new(), input, &mut output)?,
        Task::LineTool => script::run(&mut LineTool::new(), input, &mut output)?,
        Task::SessionTool => script::run(&mut SessionTool::default(), input, &mut output)?,
        Task::Bench => bench::run(input, &mut output)?,
        Task::BenchSessions => bench::run_sessions(input, &mut output)?,
        Task::GenerateMessages { seed, cases } => {
            generate::messages::generate(seed, cases, &mut output)?;
        }
        Task::GenerateLines { seed, cases } => {
            generate::lines::generate(seed, cases, &mut output)?;
        }
        Task::GenerateFullLine => generate::full_line::generate(&mut output)?,
        Task::GenerateBench { seed, lines } => {
            generate::bench::generate(seed, lines, &mut output)?;
        }
        Task::CountBench { seed, seeds, lines } => {
            generate::bench::count(seed, seeds, lines, &mut output)?;
        }
        Task::GenerateSessions { seed, cases } => {
            generate::sessions::generate(seed, cases, &mut output)?;
        }
        Task::CountSessions { seed, seeds, cases } => {
            generate::sessions::count(seed, seeds, cases, &mut output)?;
        }
    }
    output.flush()
}
