//! The reports of `run`, `size`, `sweep` and `check` by a program without proofs, with which the workbench is compared:
//! in what it answers, and in what that costs. It takes scripts that are accepted, and no `--json`, `--pairs`, or rates
//! of a sweep.

mod attempts;
mod cells;
mod frames;
mod heap;
mod holes;
mod machine;
mod read;
mod report;
mod script;
mod texts;

use attempts::Rule;
use heap::Shape;
use machine::Setup;
use std::io::{self, Read, Write};
use std::{env, fs, process};

/// The status of a command line that isn't for this program.
const COMMAND_LINE: i32 = 6;
const BUDGET: u32 = 10_000;
const COMMITTED: u32 = 4096;

/// What the command line says.
struct Command {
    task: String,
    file: Option<String>,
    setup: Setup,
}

/// Reads the command line; `None` if it isn't for this program.
fn command(mut words: impl Iterator<Item = String>) -> Option<Command> {
    let task = words.next()?;
    let (mut file, mut budget, mut fail, mut rule) = (None, BUDGET, 0, Rule::None);
    let mut shape = Shape { min: COMMITTED, step: COMMITTED, limit: 0 };
    while let Some(word) = words.next() {
        if !word.starts_with("--") {
            file = Some(word);
            continue;
        }
        let (option, number) =
            word.split_once('=').map_or((word.as_str(), None), |(option, number)| (option, Some(number.to_string())));
        let number: u32 = number.or_else(|| words.next())?.parse().ok()?;
        match option {
            "--budget" => budget = number,
            "--min" => shape.min = number,
            "--step" => shape.step = number,
            "--limit" => rule = Rule::Limit(number),
            "--every" => rule = Rule::Every(number),
            "--fail" => fail = number,
            "--also" => rule = Rule::Numbers(0, number),
            _ => return None,
        }
    }
    if fail > 0 {
        let also = if let Rule::Numbers(_, also) = rule { also } else { 0 };
        rule = Rule::Numbers(fail, also);
    }
    Some(Command { task, file, setup: Setup { rule, budget, shape } })
}

/// Answers a command, and returns the status.
fn answer(command: &Command, report: &mut Vec<u8>) -> io::Result<i32> {
    let mut text = Vec::new();
    match &command.file {
        Some(file) => text = fs::read(file)?,
        None => _ = io::stdin().read_to_end(&mut text)?,
    }
    let script = read::read(&text);
    Ok(match command.task.as_str() {
        "run" => report::run(&script, command.setup, report),
        "size" => report::size(&script, command.setup, report),
        "sweep" => report::sweep(&script, command.setup, report),
        "check" => match report::size(&script, command.setup, report) {
            0 => report::sweep(&script, command.setup, report),
            status => status,
        },
        _ => COMMAND_LINE,
    })
}

fn main() -> io::Result<()> {
    let Some(command) = command(env::args().skip(1)) else { process::exit(COMMAND_LINE) };
    let mut report = Vec::new();
    let status = answer(&command, &mut report)?;
    io::stdout().write_all(&report)?;
    process::exit(status)
}
