//! Attempts to get a cell: which of them are refused, what is kept of them, and the marks that count cells.

use crate::heap::{CEILING, CLEANUP, Heap, Ptr, Shape, cell_length};

/// What the command line says of attempts.
#[derive(Clone, Copy, PartialEq)]
pub enum Rule {
    None,
    Limit(u32),
    /// The attempts with these two numbers fail; 0 is none.
    Numbers(u32, u32),
    Every(u32),
}

/// What the script says of attempts.
#[derive(Clone, Copy)]
pub enum Setting {
    None,
    /// So many attempts from now on, the last of which fails.
    Next(u32),
    Every {
        rate: u32,
        count: u32,
    },
}

#[derive(Clone, Copy, PartialEq)]
pub enum Answer {
    Granted,
    Simulated,
    Refused,
}

#[derive(Clone, Copy)]
pub struct Attempt {
    pub length: u32,
    pub place: u32,
    pub answer: Answer,
}

/// What is kept of attempts.
#[derive(Clone)]
pub enum Log {
    Nothing,
    /// All, in order.
    Trace(Vec<Attempt>),
    /// Number and end of those that were granted past all before them.
    Rises(Vec<(u32, u32)>),
}

/// Why an attempt has no answer.
#[derive(Debug, PartialEq)]
pub enum Halt {
    Ceiling,
    /// It is the one before which the run is to stop.
    Pause,
}

/// A mark: the attempts made before it, and how many of the live cells granted since belong to it.
#[derive(Clone, Copy)]
struct Mark {
    before: u32,
    count: u32,
}

pub struct Attempts {
    pub heap: Heap,
    pub rule: Rule,
    pub setting: Setting,
    pub log: Log,
    /// How many were made.
    pub made: u32,
    /// The run stops before the attempt with this number.
    pub pause_before: u32,
    /// The first one is that of the whole run.
    marks: Vec<Mark>,
}

impl Attempts {
    pub fn new(base: usize, shape: Shape, rule: Rule, log: Log) -> Attempts {
        let limit = if let Rule::Limit(limit) = rule { limit } else { CEILING };
        let heap = Heap::new(base, Shape { limit, ..shape });
        let marks = vec![Mark { before: 0, count: 0 }];
        Attempts { heap, rule, setting: Setting::None, log, made: 0, pause_before: u32::MAX, marks }
    }

    /// Becomes equal to another, whose log is empty, in memory of its own; without its pause.
    pub fn become_copy_of(&mut self, other: &Attempts) {
        self.heap.become_copy_of(&other.heap);
        self.setting = other.setting;
        self.made = other.made;
        self.marks.clone_from(&other.marks);
    }

    /// Asks for a cell; null is a refusal.
    pub fn alloc(&mut self, bytes: u32, kind: u32) -> Result<Ptr, Halt> {
        let length = cell_length(bytes);
        let place = self.heap.place_for(length);
        if !self.is_granted(place, length)? {
            return Ok(Ptr::default());
        }
        if kind != CLEANUP {
            self.innermost().count += 1;
        }
        Ok(self.heap.grant(place, length, self.made, kind))
    }

    /// Gives a cell another length, which is an attempt where it is greater; null is a refusal.
    pub fn realloc(&mut self, ptr: Ptr, bytes: u32) -> Result<Ptr, Halt> {
        let length = cell_length(bytes);
        if length <= self.heap.cells[ptr.slot as usize].length {
            self.heap.shrink(ptr.slot, length);
            return Ok(ptr);
        }
        let place = self.heap.place_to_grow(ptr.slot, length);
        let granted = self.is_granted(place, length)?;
        Ok(if granted { self.heap.grow(ptr.slot, place, length, self.made) } else { Ptr::default() })
    }

    pub fn release(&mut self, ptr: Ptr) {
        let born = self.heap.cells[ptr.slot as usize].born;
        let of = self.marks.partition_point(|mark| mark.before < born) - 1;
        self.marks[of].count -= 1;
        self.heap.release(ptr.slot);
    }

    /// Counts an attempt, if it isn't cut, and says whether it is granted.
    fn is_granted(&mut self, place: u32, length: u32) -> Result<bool, Halt> {
        let number = self.made + 1;
        if number == self.pause_before {
            return Err(Halt::Pause);
        }
        let (setting, is_due) = self.setting_after();
        let answer = if is_due { Answer::Simulated } else { self.answer_of_rule(number, place + length) };
        if answer == Answer::Granted && place + length > CEILING {
            return Err(Halt::Ceiling);
        }
        self.setting = setting;
        self.made = number;
        match &mut self.log {
            Log::Nothing => {}
            Log::Trace(trace) => trace.push(Attempt { length, place, answer }),
            Log::Rises(rises) => {
                if answer == Answer::Granted && rises.last().is_none_or(|last| last.1 < place + length) {
                    rises.push((number, place + length));
                }
            }
        }
        Ok(answer == Answer::Granted)
    }

    fn setting_after(&self) -> (Setting, bool) {
        match self.setting {
            Setting::None => (Setting::None, false),
            Setting::Next(1) => (Setting::None, true),
            Setting::Next(left) => (Setting::Next(left - 1), false),
            Setting::Every { rate, count } if count + 1 == rate => (Setting::Every { rate, count: 0 }, true),
            Setting::Every { rate, count } => (Setting::Every { rate, count: count + 1 }, false),
        }
    }

    fn answer_of_rule(&self, number: u32, end: u32) -> Answer {
        match self.rule {
            Rule::Limit(limit) if end > limit => Answer::Refused,
            Rule::Numbers(first, second) if number == first || number == second => Answer::Simulated,
            Rule::Every(rate) if rate != 0 && number % rate == 0 => Answer::Simulated,
            _ => Answer::Granted,
        }
    }

    pub fn mark(&mut self) {
        self.marks.push(Mark { before: self.made, count: 0 });
    }

    pub fn is_marked(&self) -> bool {
        self.marks.len() > 1
    }

    /// Ends the innermost mark, whose cells belong to the one around it from then on.
    pub fn end_mark(&mut self) {
        if let Some(ended) = self.marks.pop() {
            self.innermost().count += ended.count;
        }
    }

    /// How many cells of the present level are live.
    pub fn count(&mut self) -> u32 {
        self.innermost().count
    }

    /// How many cells of all levels are live: all but that of the cleanup stack.
    pub fn count_all(&self) -> u32 {
        self.heap.live - 1
    }

    /// The lowest cell of the present level, or of all; 0 if there is none.
    pub fn lowest(&mut self, of_all: bool) -> u32 {
        let before = if of_all { 0 } else { self.innermost().before };
        let counted =
            self.heap.cells.iter().filter(|cell| cell.number != 0 && cell.kind != CLEANUP && cell.born > before);
        counted.map(|cell| cell.place).min().unwrap_or(0)
    }

    fn innermost(&mut self) -> &mut Mark {
        // the first one is never taken off
        self.marks.last_mut().expect("the mark of the whole run")
    }
}
