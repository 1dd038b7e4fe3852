//! A run of a script: what it holds, and how it goes from one statement to the next.

use crate::attempts::{Attempts, Halt, Log, Rule};
use crate::heap::{CLEANUP, Ptr, Shape};
use crate::script::*;

/// How many bodies are run at once.
pub const BODIES: usize = 128;
/// Bytes of the longest buffer.
pub const BUFFER: usize = 512;
/// Slots of the cleanup stack at first, and by how many it grows.
const SLOTS: u32 = 8;
pub const MORE_SLOTS: u32 = 4;
pub const NO_MEMORY: i32 = -4;

#[derive(Debug, Clone, Copy, PartialEq)]
pub enum Panic {
    User(u32),
    /// A heap check, with the place of the lowest cell counted.
    Alloc(u32),
    Workbench(u32),
}

/// Why a run, or a body of it, goes no further.
#[derive(Debug, PartialEq)]
pub enum Stop {
    Ended,
    Left(i32),
    Panic(Panic),
    NoCleanup,
    Budget,
    Ceiling,
    /// Before the attempt that was asked for.
    Pause,
    /// A leave that is on its way to its TRAP.
    Leave(i32),
    /// An operation or a `destroy` body is at its end.
    Returned,
}

impl From<Panic> for Stop {
    fn from(panic: Panic) -> Stop {
        Stop::Panic(panic)
    }
}

impl From<Halt> for Stop {
    fn from(halt: Halt) -> Stop {
        if halt == Halt::Pause { Stop::Pause } else { Stop::Ceiling }
    }
}

/// Refuses with a number of the workbench's own.
pub fn workbench<T>(number: u32) -> Result<T, Panic> {
    Err(Panic::Workbench(number))
}

/// Refuses with a number of Symbian's USER panics.
pub fn user<T>(number: u32) -> Result<T, Panic> {
    Err(Panic::User(number))
}

/// What a frame's caller goes on with.
#[derive(Clone, Copy, PartialEq)]
pub enum Then {
    Nothing,
    Set(Local),
    /// Whoever runs an operation or a `destroy` body has called it.
    Back,
}

/// What a body has begun with, and where its locals begin.
#[derive(Clone, Copy)]
pub struct Frame {
    pub next: Place,
    pub locals: u32,
    pub views: u32,
    pub buffers: u32,
    pub loops: u32,
    pub then: Then,
}

/// A text that a view shows a part of.
#[derive(Clone, Copy, PartialEq)]
pub enum Source {
    Nothing,
    Literal { at: u32, units: u32 },
    Buffer(Local),
    Cell(Ptr),
}

#[derive(Clone, Copy)]
pub struct View {
    pub source: Source,
    pub start: u32,
    pub units: u32,
}

#[derive(Clone, Copy)]
pub struct Trap {
    pub code: Local,
    pub next: Place,
    pub frames: usize,
    pub loops: usize,
    pub floor: usize,
}

#[derive(Clone, Copy)]
pub struct Item {
    pub ptr: Ptr,
    pub undo: Undo,
}

/// What a script writes into the report: the lines that it prints come before its notes.
#[derive(Default)]
pub struct Shown {
    pub lines: Vec<u8>,
    pub notes: Vec<u8>,
}

/// What a run is under.
#[derive(Clone, Copy)]
pub struct Setup {
    pub rule: Rule,
    pub budget: u32,
    pub shape: Shape,
}

pub struct Machine<'s> {
    pub script: &'s Script,
    pub attempts: Attempts,
    /// Where the next statement stands.
    pub next: Place,
    pub frame: Frame,
    /// The frames of those that called, `main`'s first.
    pub callers: Vec<Frame>,
    /// Of all frames: a pointer, or an int in its slot.
    pub locals: Vec<Ptr>,
    pub views: Vec<View>,
    /// How many units the buffers hold.
    pub buffers: Vec<u32>,
    /// Turns that are left.
    pub loops: Vec<u32>,
    pub traps: Vec<Trap>,
    pub items: Vec<Item>,
    pub stack: Ptr,
    pub slots: u32,
    steps_left: u32,
    budget: u32,
    /// `None` if nobody asks for it.
    pub shown: Option<Shown>,
}

impl<'s> Machine<'s> {
    /// A run before its first attempt.
    pub fn new(script: &'s Script, setup: Setup, log: Log) -> Machine<'s> {
        let deepest = script.bodies.iter().chain([&script.main]).map(|body| body.buffers as usize).max().unwrap_or(0);
        let base = script.literals.len() + BODIES * deepest * BUFFER;
        let is_shown = matches!(log, Log::Trace(_));
        let mut attempts = Attempts::new(base, setup.shape, setup.rule, log);
        attempts.heap.bytes[..script.literals.len()].copy_from_slice(&script.literals);
        let mut machine = Machine {
            script,
            attempts,
            next: script.main.start,
            frame: Frame { next: 0, locals: 0, views: 0, buffers: 0, loops: 0, then: Then::Nothing },
            callers: Vec::new(),
            locals: Vec::new(),
            views: Vec::new(),
            buffers: Vec::new(),
            loops: Vec::new(),
            traps: Vec::new(),
            items: Vec::new(),
            stack: Ptr::default(),
            slots: SLOTS,
            steps_left: setup.budget,
            budget: setup.budget,
            shown: is_shown.then(Shown::default),
        };
        machine.make_room(&script.main, 0);
        machine
    }

    /// Becomes equal to another run of the same script that stands before an attempt, but for its rule and its pause.
    pub fn become_copy_of(&mut self, other: &Machine<'s>) {
        self.attempts.become_copy_of(&other.attempts);
        let begin = self.script.literals.len();
        let buffers = begin..begin + BUFFER * other.buffers.len();
        self.attempts.heap.bytes[buffers.clone()].copy_from_slice(&other.attempts.heap.bytes[buffers]);
        self.next = other.next;
        self.frame = other.frame;
        self.callers.clone_from(&other.callers);
        self.locals.clone_from(&other.locals);
        self.views.clone_from(&other.views);
        self.buffers.clone_from(&other.buffers);
        self.loops.clone_from(&other.loops);
        self.traps.clone_from(&other.traps);
        self.items.clone_from(&other.items);
        self.stack = other.stack;
        self.slots = other.slots;
        self.steps_left = other.steps_left;
    }

    /// Makes attempt 1, the cell of the cleanup stack.
    pub fn start(&mut self) -> Result<(), Stop> {
        self.stack = self.attempts.alloc(16 * SLOTS, CLEANUP)?;
        if self.stack.is_null() { Err(Stop::NoCleanup) } else { Ok(()) }
    }

    /// Goes on with a run up to its end, or to its pause.
    pub fn go_on(&mut self) -> Stop {
        loop {
            match self.go_to_stop() {
                Stop::Leave(code) => {
                    if let Err(stop) = self.leave(code) {
                        return stop;
                    }
                }
                stop => return stop,
            }
        }
    }

    pub fn go_to_stop(&mut self) -> Stop {
        let script = self.script;
        loop {
            let at = self.next;
            self.next = at + 1;
            if let Err(stop) = self.step(&script.statements[at as usize]) {
                if stop == Stop::Pause {
                    // the statement is begun anew: it has done nothing but count its step
                    self.next = at;
                    self.steps_left += 1;
                }
                return stop;
            }
        }
    }

    #[inline(always)]
    fn step(&mut self, statement: &Statement) -> Result<(), Stop> {
        match *statement {
            Statement::Jump(place) => self.next = place,
            Statement::Turn(place) => return self.turn(place),
            Statement::TrapEnd => return self.end_trap(),
            Statement::BodyEnd => return self.end_body(Ptr::default()),
            Statement::If(condition, other) => {
                self.count_step()?;
                if !self.holds(condition)? {
                    self.next = other;
                }
            }
            Statement::Add(int, number) => {
                self.count_step()?;
                match self.int(int).checked_add(self.number(number)) {
                    Some(sum) => self.set_int(int, sum),
                    None => workbench(9)?,
                }
            }
            Statement::Cell(ref line) => {
                self.count_step()?;
                return self.do_cells(line);
            }
            _ => {
                self.count_step()?;
                return self.carry_out(statement);
            }
        }
        Ok(())
    }

    /// Counts a step, which the budget may cut.
    #[inline(always)]
    pub fn count_step(&mut self) -> Result<(), Stop> {
        match self.steps_left.checked_sub(1) {
            Some(left) => self.steps_left = left,
            None => return Err(Stop::Budget),
        }
        Ok(())
    }

    /// How many steps were counted.
    pub fn steps(&self) -> u32 {
        self.budget - self.steps_left
    }

    fn carry_out(&mut self, statement: &Statement) -> Result<(), Stop> {
        match *statement {
            Statement::Set(int, number) => self.set_int(int, self.number(number)),
            Statement::Print(number) => self.print_number(self.number(number)),
            Statement::Point(target, pointer) => {
                self.look_at(target)?;
                let ptr = self.pointer(pointer)?;
                self.set_pointer(target, ptr);
            }
            Statement::Null(target) => {
                self.look_at(target)?;
                self.set_pointer(target, Ptr::default());
            }
            Statement::Repeat(number, end) => return self.begin_repeat(number, end),
            Statement::Trap(code, next) => self.begin_trap(code, next),
            Statement::Text(ref line) => return Ok(self.do_texts(line)?),
            Statement::Stack(ref line) => return self.do_stack(line),
            Statement::Heap(ref line) => return Ok(self.do_heap(line)?),
            _ => return self.go_elsewhere(statement),
        }
        Ok(())
    }

    /// Calls, returns and leaves.
    fn go_elsewhere(&mut self, statement: &Statement) -> Result<(), Stop> {
        match *statement {
            Statement::Call { procedure, first, count, into } => self.call(procedure, first, count, into),
            Statement::Return(None) => self.end_body(Ptr::default()),
            Statement::Return(Some(pointer)) => {
                let ptr = self.pointer(pointer)?;
                self.end_body(ptr)
            }
            Statement::Leave(number) => Err(Stop::Leave(self.number(number))),
            Statement::LeaveIfError(number) if self.number(number) < 0 => Err(Stop::Leave(self.number(number))),
            Statement::LeaveIfNull(pointer) if self.pointer(pointer)?.is_null() => Err(Stop::Leave(NO_MEMORY)),
            _ => Ok(()),
        }
    }

    fn holds(&self, condition: Condition) -> Result<bool, Panic> {
        Ok(match condition {
            Condition::Null(pointer) => self.pointer(pointer)?.is_null(),
            Condition::Some(pointer) => !self.pointer(pointer)?.is_null(),
            Condition::Eq(left, right) => self.number(left) == self.number(right),
            Condition::Less(left, right) => self.number(left) < self.number(right),
        })
    }

    fn begin_repeat(&mut self, number: Number, end: Place) -> Result<(), Stop> {
        match self.number(number) {
            0 => self.next = end,
            turns @ 1..=1_048_576 => {
                self.count_step()?;
                self.loops.push(turns as u32);
            }
            _ => workbench(9)?,
        }
        Ok(())
    }

    fn turn(&mut self, start: Place) -> Result<(), Stop> {
        let Some(left) = self.loops.last_mut() else { return Ok(()) };
        *left -= 1;
        if *left == 0 {
            self.loops.pop();
        } else {
            self.count_step()?;
            self.next = start;
        }
        Ok(())
    }
}
