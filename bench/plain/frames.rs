//! Bodies and TRAPs: how they begin and end, and what a leave gives up.
//!
//! Lines that ask of the heap as a whole, make requests fail, or write into the report.

use crate::attempts::Setting;
use crate::heap::Ptr;
use crate::machine::{BODIES, Frame, Machine, Panic, Shown, Source, Stop, Then, Trap, View, workbench};
use crate::report::push_number;
use crate::script::*;

impl Machine<'_> {
    pub fn begin_trap(&mut self, code: Local, next: Place) {
        let (frames, loops, floor) = (self.callers.len(), self.loops.len(), self.items.len());
        self.traps.push(Trap { code, next, frames, loops, floor });
    }

    /// How many items belong to outer TRAPs.
    pub fn floor(&self) -> usize {
        self.traps.last().map_or(0, |trap| trap.floor)
    }

    pub fn end_trap(&mut self) -> Result<(), Stop> {
        if self.items.len() > self.floor() {
            workbench(5)?;
        }
        if let Some(trap) = self.traps.pop() {
            self.set_int(trap.code, 0);
        }
        Ok(())
    }

    /// Gives up what stands inside of the innermost TRAP, destroys its items, and goes on behind it.
    pub fn leave(&mut self, code: i32) -> Result<(), Stop> {
        let (frames, loops) = self.traps.last().map_or((0, 0), |trap| (trap.frames, trap.loops));
        if let Some(&frame) = self.callers.get(frames + 1) {
            self.callers.truncate(frames + 1);
            self.frame = frame;
        }
        while self.callers.len() > frames {
            self.drop_frame();
        }
        self.loops.truncate(loops);
        self.destroy_items(self.items.len() - self.floor())?;
        let Some(trap) = self.traps.pop() else { return Err(Stop::Left(code)) };
        self.set_int(trap.code, code);
        self.next = trap.next;
        Ok(())
    }

    pub fn call(&mut self, procedure: u16, first: u32, count: u8, into: Option<Local>) -> Result<(), Stop> {
        let script = self.script;
        let mut given = [Ptr::default(); 4];
        for (value, argument) in
            given.iter_mut().zip(&script.arguments[first as usize..first as usize + count as usize])
        {
            *value = match *argument {
                Argument::Pointer(pointer) => self.pointer(pointer)?,
                Argument::Number(number) => Ptr { slot: self.number(number) as u32, number: 0 },
            };
        }
        let then = into.map_or(Then::Nothing, Then::Set);
        Ok(self.enter(&script.bodies[procedure as usize], &given[..count as usize], then)?)
    }

    /// Begins a body, whose caller goes on with nothing.
    pub fn enter_plainly(&mut self, body: &Body, argument: Ptr) -> Result<(), Panic> {
        self.enter(body, &[argument], Then::Nothing)
    }

    /// Runs a body that can't leave to its end.
    pub fn run_inside(&mut self, body: &Body, argument: Ptr) -> Result<(), Stop> {
        self.enter(body, &[argument], Then::Back)?;
        match self.go_to_stop() {
            Stop::Returned => Ok(()),
            stop => Err(stop),
        }
    }

    /// Refuses a body if too many are run already.
    pub fn check_depth(&self) -> Result<(), Panic> {
        if self.callers.len() + 1 == BODIES { workbench(7) } else { Ok(()) }
    }

    fn enter(&mut self, body: &Body, arguments: &[Ptr], then: Then) -> Result<(), Panic> {
        self.check_depth()?;
        self.callers.push(self.frame);
        let (views, buffers, loops) = (self.views.len() as u32, self.buffers.len() as u32, self.loops.len() as u32);
        self.frame = Frame { next: self.next, locals: self.locals.len() as u32, views, buffers, loops, then };
        self.locals.extend_from_slice(arguments);
        self.make_room(body, arguments.len());
        self.next = body.start;
        Ok(())
    }

    /// Makes the locals of a body, but for those that it was given.
    pub fn make_room(&mut self, body: &Body, given: usize) {
        let locals = self.locals.len() + body.locals as usize - given;
        self.locals.resize(locals, Ptr::default());
        if body.views > 0 {
            let shown = View { source: Source::Nothing, start: 0, units: 0 };
            self.views.resize(self.views.len() + body.views as usize, shown);
        }
        if body.buffers > 0 {
            self.buffers.resize(self.buffers.len() + body.buffers as usize, 0);
        }
    }

    /// Ends the body that is run, and hands what it returns to its caller.
    pub fn end_body(&mut self, returned: Ptr) -> Result<(), Stop> {
        let Frame { next, then, .. } = self.frame;
        if self.callers.is_empty() {
            return if self.items.is_empty() { Err(Stop::Ended) } else { Ok(workbench(5)?) };
        }
        self.loops.truncate(self.frame.loops as usize);
        self.drop_frame();
        self.next = next;
        match then {
            Then::Nothing => Ok(()),
            Then::Set(pointer) => {
                self.set_pointer(Pointer::Local(pointer), returned);
                Ok(())
            }
            Then::Back => Err(Stop::Returned),
        }
    }

    fn drop_frame(&mut self) {
        self.locals.truncate(self.frame.locals as usize);
        self.views.truncate(self.frame.views as usize);
        self.buffers.truncate(self.frame.buffers as usize);
        if let Some(caller) = self.callers.pop() {
            self.frame = caller;
        }
    }

    #[inline(always)]
    pub fn local(&self, local: Local) -> Ptr {
        self.locals[self.frame.locals as usize + local as usize]
    }

    #[inline(always)]
    pub fn set_local(&mut self, local: Local, value: Ptr) {
        self.locals[self.frame.locals as usize + local as usize] = value;
    }
}

/// How many units of a text are printed.
const SHOWN: u32 = 80;

impl Machine<'_> {
    pub fn do_heap(&mut self, line: &OfHeap) -> Result<(), Panic> {
        match *line {
            OfHeap::Mark => self.attempts.mark(),
            OfHeap::MarkEnd(number) => {
                let expected = self.at_least(number, 0)?;
                if !self.attempts.is_marked() {
                    workbench(6)?;
                }
                self.check(expected, false)?;
                self.attempts.end_mark();
            }
            OfHeap::Check(number) => self.check(self.at_least(number, 0)?, false)?,
            OfHeap::CheckAll(number) => self.check(self.at_least(number, 0)?, true)?,
            OfHeap::FailNext(number) => self.attempts.setting = Setting::Next(self.at_least(number, 1)?),
            OfHeap::FailEvery(number) => {
                self.attempts.setting = Setting::Every { rate: self.at_least(number, 1)?, count: 0 }
            }
            OfHeap::FailNone => self.attempts.setting = Setting::None,
            OfHeap::Note => {
                let heap = &self.attempts.heap;
                let numbers = [heap.live, heap.live_bytes, heap.committed];
                self.note(b"note heap", &numbers);
            }
            OfHeap::Available => {
                let (free, longest) = self.attempts.heap.available();
                self.note(b"note available", &[free, longest]);
            }
            OfHeap::Compress => {
                let given_up = self.attempts.heap.compress();
                self.note(b"note compress", &[given_up]);
            }
        }
        Ok(())
    }

    fn at_least(&self, number: Number, least: i32) -> Result<u32, Panic> {
        let value = self.number(number);
        if value >= least { Ok(value as u32) } else { workbench(9) }
    }

    fn check(&mut self, expected: u32, of_all: bool) -> Result<(), Panic> {
        let counted = if of_all { self.attempts.count_all() } else { self.attempts.count() };
        if counted == expected { Ok(()) } else { Err(Panic::Alloc(self.attempts.lowest(of_all))) }
    }

    fn note(&mut self, words: &[u8], numbers: &[u32]) {
        let Some(Shown { notes: report, .. }) = &mut self.shown else { return };
        report.extend_from_slice(words);
        for &number in numbers {
            push_number(report, b" ", number);
        }
        report.push(b'\n');
    }

    pub fn print_number(&mut self, number: i32) {
        let Some(Shown { lines: report, .. }) = &mut self.shown else { return };
        let word: &[u8] = if number < 0 { b"print -" } else { b"print " };
        push_number(report, word, number.unsigned_abs());
        report.push(b'\n');
    }

    /// Prints the first units of a text, of which so many are there.
    pub fn print_text(&mut self, at: usize, units: u32, there: u32) {
        let Some(Shown { lines: report, .. }) = &mut self.shown else { return };
        report.extend_from_slice(b"print ");
        let shown = units.min(SHOWN);
        let text = &self.attempts.heap.bytes[at..at + 2 * shown.min(there) as usize];
        report.extend(
            text.chunks_exact(2)
                .map(|unit| if unit[1] == 0 && (b' '..=b'~').contains(&unit[0]) { unit[0] } else { b'.' }),
        );
        report.extend((there..shown).map(|_| b'.'));
        report.push(b'\n');
    }
}
