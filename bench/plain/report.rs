//! What is written of a run.
//!
//! The tasks: a run, the length that the heap must have, and the least attempt whose failure shows a fault.

use crate::attempts::{Answer, Log, Rule};
use crate::heap::CLEANUP;
use crate::machine::{Machine, Panic, Setup, Stop};
use crate::script::Script;

/// The numbers below 100.
const TWO_DIGITS: [[u8; 2]; 100] = {
    let mut digits = [[0; 2]; 100];
    let mut number = 0;
    while number < 100 {
        digits[number] = [b'0' + number as u8 / 10, b'0' + number as u8 % 10];
        number += 1;
    }
    digits
};

/// A line of a report, which is written from its end to its beginning.
pub struct Line {
    bytes: [u8; 64],
    first: usize,
}

impl Line {
    /// A line that ends with these words.
    #[inline(always)]
    pub fn ending<const N: usize>(words: &[u8; N]) -> Line {
        let line = Line { bytes: [0; 64], first: 64 };
        line.after(words)
    }

    #[inline(always)]
    pub fn after<const N: usize>(mut self, words: &[u8; N]) -> Line {
        self.first -= N;
        self.bytes[self.first..self.first + N].copy_from_slice(words);
        self
    }

    #[inline(always)]
    pub fn number(mut self, mut number: u32) -> Line {
        while number > 99 {
            self.first -= 2;
            self.bytes[self.first..self.first + 2].copy_from_slice(&TWO_DIGITS[(number % 100) as usize]);
            number /= 100;
        }
        let [ten, one] = TWO_DIGITS[number as usize % 100];
        self.first -= 1;
        self.bytes[self.first] = one;
        if number > 9 {
            self.first -= 1;
            self.bytes[self.first] = ten;
        }
        self
    }

    #[inline(always)]
    pub fn put_in(self, report: &mut Vec<u8>) {
        report.extend_from_slice(&self.bytes[self.first..]);
    }
}

/// Writes a word and a number behind it.
pub fn push_number(report: &mut Vec<u8>, word: &[u8], number: u32) {
    report.extend_from_slice(word);
    Line::ending(b"").number(number).put_in(report);
}

/// The numbers, lengths and places of the cells that a run has left, in order of place.
fn leaks(run: &Machine) -> Vec<(u32, u32, u32)> {
    let cells = run.attempts.heap.cells.iter();
    let mut found: Vec<_> = cells
        .filter(|cell| cell.number != 0 && cell.kind != CLEANUP)
        .map(|cell| (cell.place, cell.length, cell.number))
        .collect();
    found.sort_unstable();
    found
}

/// Whether a run that has stopped shows a fault: a panic, or a leak.
pub fn is_fault(run: &Machine, stop: &Stop) -> bool {
    match stop {
        Stop::Panic(_) => true,
        Stop::Ended | Stop::Left(_) => run.attempts.count_all() > 0,
        _ => false,
    }
}

/// Why a run was cut, if it was.
pub fn cut(stop: &Stop) -> Option<&'static [u8]> {
    match stop {
        Stop::Budget => Some(b"budget\n"),
        Stop::Ceiling => Some(b"ceiling\n"),
        _ => None,
    }
}

/// Writes the report of a run, of whose attempts the trace was kept.
pub fn write_run(report: &mut Vec<u8>, run: &Machine, stop: &Stop) {
    if let Some(shown) = &run.shown {
        report.extend_from_slice(&shown.lines);
        report.extend_from_slice(&shown.notes);
    }
    write_trace(report, &run.attempts.log);
    write_stop(report, run, stop);
    push_number(report, b"steps ", run.steps());
    report.push(b'\n');
}

fn write_trace(report: &mut Vec<u8>, log: &Log) {
    let Log::Trace(trace) = log else { return };
    for (number, attempt) in (1..).zip(trace) {
        let end = match attempt.answer {
            Answer::Granted => Line::ending(b" granted\n"),
            Answer::Simulated => Line::ending(b" simulated\n"),
            Answer::Refused => Line::ending(b" refused\n"),
        };
        let placed = end.number(attempt.place).after(b" place ").number(attempt.length).after(b" length ");
        placed.number(number).after(b"attempt ").put_in(report);
    }
}

fn write_stop(report: &mut Vec<u8>, run: &Machine, stop: &Stop) {
    match *stop {
        Stop::Ended => {
            report.extend_from_slice(b"ended\n");
            write_leaks(report, run);
        }
        Stop::Left(code) => {
            report.extend_from_slice(format!("left {code}\n").as_bytes());
            write_leaks(report, run);
        }
        Stop::Panic(Panic::User(number)) => report.extend_from_slice(format!("panic USER {number}\n").as_bytes()),
        Stop::Panic(Panic::Alloc(place)) => report.extend_from_slice(format!("panic ALLOC {place:08x}\n").as_bytes()),
        Stop::Panic(Panic::Workbench(number)) => {
            report.extend_from_slice(format!("panic WORKBENCH {number}\n").as_bytes())
        }
        Stop::NoCleanup => report.extend_from_slice(b"nocleanup\n"),
        _ => {
            report.extend_from_slice(b"cut ");
            report.extend_from_slice(cut(stop).unwrap_or_default());
        }
    }
}

fn write_leaks(report: &mut Vec<u8>, run: &Machine) {
    let found = leaks(run);
    push_number(report, b"leaks ", found.len() as u32);
    report.push(b'\n');
    for (place, length, number) in found {
        let placed = Line::ending(b"\n").number(place).after(b" place ").number(length).after(b" length ");
        placed.number(number).after(b"leak ").put_in(report);
    }
}

/// Writes how long the heap must be, and what shorter heaps refuse first.
pub fn write_rises(report: &mut Vec<u8>, rises: &[(u32, u32)]) {
    let required = rises.last().map_or(0, |rise| rise.1);
    push_number(report, b"required ", required);
    let mut from = 0;
    for &(number, end) in rises {
        push_number(report, b"\nfrom ", from);
        push_number(report, b" refuses ", number);
        from = end;
    }
    push_number(report, b"\nenough from ", from);
    report.push(b'\n');
}

pub const FOUND: i32 = 1;
pub const CUT: i32 = 3;

/// Runs a script to its end.
fn whole_run(script: &Script, setup: Setup, log: Log) -> (Machine<'_>, Stop) {
    let mut run = Machine::new(script, setup, log);
    let stop = match run.start() {
        Ok(()) => run.go_on(),
        Err(stop) => stop,
    };
    (run, stop)
}

/// Writes the report of a run, and returns the status.
pub fn run(script: &Script, setup: Setup, report: &mut Vec<u8>) -> i32 {
    let (run, stop) = whole_run(script, setup, Log::Trace(Vec::new()));
    write_run(report, &run, &stop);
    match cut(&stop) {
        Some(_) => CUT,
        None => i32::from(is_fault(&run, &stop)),
    }
}

/// Writes how long the heap must be, and returns the status.
pub fn size(script: &Script, setup: Setup, report: &mut Vec<u8>) -> i32 {
    let (run, stop) = whole_run(script, setup, Log::Rises(Vec::new()));
    if let Some(why) = cut(&stop) {
        return write_cut(report, 0, why);
    }
    if let Log::Rises(rises) = &run.attempts.log {
        write_rises(report, rises);
    }
    0
}

/// Writes which attempt is the least whose failure shows a fault, with the run in which it fails, and returns the
/// status.
///
/// The run without failure is made once to be judged, and once more with a pause before each attempt, where a copy goes
/// on in which the attempt fails.
pub fn sweep(script: &Script, setup: Setup, report: &mut Vec<u8>) -> i32 {
    let (whole, stop) = whole_run(script, setup, Log::Nothing);
    let attempts = whole.attempts.made;
    if let Some(why) = cut(&stop) {
        return write_cut(report, 0, why);
    }
    if is_fault(&whole, &stop) {
        return write_found(script, setup, attempts, 0, report);
    }
    // the failure of attempt 1 is no fault, since nothing is begun
    let mut base = Machine::new(script, setup, Log::Nothing);
    let mut fork = whole;
    base.attempts.pause_before = 2;
    let mut stop = base.start().err().unwrap_or(Stop::Pause);
    for number in 2..=attempts {
        base.attempts.pause_before = number;
        if stop != Stop::Pause {
            break;
        }
        stop = base.go_on();
        fork.become_copy_of(&base);
        fork.attempts.rule = Rule::Numbers(number, 0);
        let end = fork.go_on();
        if let Some(why) = cut(&end) {
            return write_cut(report, number, why);
        }
        if is_fault(&fork, &end) {
            return write_found(script, setup, attempts, number, report);
        }
    }
    push_number(report, b"attempts ", attempts);
    report.extend_from_slice(b"\nnumber none\n");
    0
}

fn write_found(script: &Script, setup: Setup, attempts: u32, number: u32, report: &mut Vec<u8>) -> i32 {
    push_number(report, b"attempts ", attempts);
    push_number(report, b"\nnumber ", number);
    report.push(b'\n');
    run(script, Setup { rule: Rule::Numbers(number, 0), ..setup }, report);
    FOUND
}

fn write_cut(report: &mut Vec<u8>, number: u32, why: &[u8]) -> i32 {
    push_number(report, b"cut ", number);
    report.push(b' ');
    report.extend_from_slice(why);
    CUT
}
