//! Lines of texts and views. All texts stand in one memory, two bytes a unit, so that each edit is a move of bytes.

use crate::cells::UNITS;
use crate::heap::{Cell, Heap, TEXT};
use crate::machine::{BUFFER, Machine, Panic, Source, View, user, workbench};
use crate::script::{Edited, Local, Number, OfTexts, Text};

/// A text, or a part of one that a view shows.
#[derive(Clone, Copy)]
struct Part {
    source: Source,
    start: u32,
    /// `None` if it is the whole text.
    units: Option<u32>,
}

/// Where a text stands that is read. Of its units so many are there; those behind them read as 0.
#[derive(Clone, Copy)]
struct Span {
    at: usize,
    units: u32,
    there: u32,
}

/// A text that is changed.
#[derive(Clone, Copy)]
struct Target {
    source: Source,
    at: usize,
    units: u32,
    most: u32,
}

fn bytes(units: u32) -> usize {
    2 * units as usize
}

impl Machine<'_> {
    pub fn do_texts(&mut self, line: &OfTexts) -> Result<(), Panic> {
        match *line {
            OfTexts::Copy(edited, text) => {
                let (target, _, span) = self.both(edited, text)?;
                self.end_with(target, 0, span)
            }
            OfTexts::Append(edited, text) => {
                let (target, _, span) = self.both(edited, text)?;
                self.end_with(target, target.units, span)
            }
            OfTexts::Insert(edited, position, text) => self.insert(edited, position, text),
            OfTexts::Delete(edited, position, count) => self.delete_units(edited, position, count),
            OfTexts::SetLength(edited, number) => self.set_length(edited, number),
            OfTexts::Length(int, text) => {
                let span = self.span(self.part(text)?)?;
                self.set_int(int, span.units as i32);
                Ok(())
            }
            OfTexts::Most(int, edited) => {
                let target = self.target(edited, self.edited(edited)?)?;
                self.set_int(int, target.most as i32);
                Ok(())
            }
            OfTexts::Print(text) => {
                let span = self.span(self.part(text)?)?;
                self.print_text(span.at, span.units, span.there);
                Ok(())
            }
            OfTexts::Left(view, text, count) => self.show(view, text, |_, _| (Ok(0), count)),
            OfTexts::Right(view, text, count) => {
                self.show(view, text, |run, units| (Ok(units as i64 - run.number(count) as i64), count))
            }
            OfTexts::Mid(view, text, position, count) => {
                self.show(view, text, |run, _| (run.index(position).map(i64::from), count))
            }
        }
    }

    /// Makes a view show a part of a text, from the position that is told for its length.
    fn show(
        &mut self,
        view: Local,
        text: Text,
        begin: impl Fn(&Self, u32) -> (Result<i64, Panic>, Number),
    ) -> Result<(), Panic> {
        let part = self.part(text)?;
        let span = self.span(part)?;
        let (position, count) = begin(self, span.units);
        let (position, units) = (position?, self.index(count)?);
        if position < 0 || position + units as i64 > span.units as i64 {
            user(10)?;
        }
        self.views[self.frame.views as usize + view as usize] =
            View { source: part.source, start: part.start + position as u32, units };
        Ok(())
    }

    /// A number that isn't below 0.
    fn index(&self, number: Number) -> Result<u32, Panic> {
        u32::try_from(self.number(number)).or_else(|_| workbench(9))
    }

    fn part(&self, text: Text) -> Result<Part, Panic> {
        let source = match text {
            Text::Literal { at, units } => Source::Literal { at, units },
            Text::Buffer(index) => Source::Buffer(index),
            Text::Cell(pointer) => Source::Cell(self.pointer(pointer)?),
            Text::View(view) => {
                let View { source, start, units } = self.views[self.frame.views as usize + view as usize];
                return Ok(Part { source, start, units: Some(units) });
            }
        };
        Ok(Part { source, start: 0, units: None })
    }

    fn edited(&self, edited: Edited) -> Result<Source, Panic> {
        Ok(match edited {
            Edited::Buffer { index, .. } => Source::Buffer(index),
            Edited::Cell(pointer) => Source::Cell(self.pointer(pointer)?),
        })
    }

    /// Where a text begins in the memory, and its length.
    fn whole(&self, source: Source) -> Result<(usize, u32), Panic> {
        Ok(match source {
            Source::Nothing => (0, 0),
            Source::Literal { at, units } => (at as usize, units),
            Source::Buffer(index) => {
                let buffer = self.frame.buffers as usize + index as usize;
                (self.script.literals.len() + BUFFER * buffer, self.buffers[buffer])
            }
            Source::Cell(ptr) => {
                let cell = self.cell_of_kind(ptr, TEXT)?;
                (self.attempts.heap.payload(cell) + UNITS as usize, self.text_length(cell))
            }
        })
    }

    pub fn text_length(&self, cell: &Cell) -> u32 {
        let at = self.attempts.heap.payload(cell);
        u32::from_le_bytes(std::array::from_fn(|byte| self.attempts.heap.bytes[at + byte]))
    }

    fn span(&self, part: Part) -> Result<Span, Panic> {
        let (at, length) = self.whole(part.source)?;
        let units = part.units.unwrap_or(length);
        Ok(Span { at: at + bytes(part.start), units, there: length.saturating_sub(part.start).min(units) })
    }

    fn target(&self, edited: Edited, source: Source) -> Result<Target, Panic> {
        let (at, units) = self.whole(source)?;
        let most = match (edited, source) {
            (Edited::Buffer { most, .. }, _) => most as u32,
            (_, Source::Cell(ptr)) => (Heap::usable(self.cell_of_kind(ptr, TEXT)?) - UNITS) / 2,
            _ => 0,
        };
        Ok(Target { source, at, units, most })
    }

    /// Looks at the fields that a line names, then at its cells.
    fn both(&self, edited: Edited, text: Text) -> Result<(Target, Source, Span), Panic> {
        let source = self.edited(edited)?;
        let part = self.part(text)?;
        Ok((self.target(edited, source)?, part.source, self.span(part)?))
    }

    /// Puts a text behind so many units of another, which is to end with it.
    fn end_with(&mut self, target: Target, kept: u32, span: Span) -> Result<(), Panic> {
        if kept + span.units > target.most {
            user(11)?;
        }
        self.write(target, kept, span);
        self.set_units(target, kept + span.units);
        Ok(())
    }

    fn insert(&mut self, edited: Edited, position: Number, text: Text) -> Result<(), Panic> {
        let (target, source, span) = self.both(edited, text)?;
        let position = self.index(position)?;
        if source == target.source {
            workbench(9)?;
        }
        if position > target.units {
            user(10)?;
        }
        if target.units + span.units > target.most {
            user(11)?;
        }
        let gap = target.at + bytes(position);
        self.attempts.heap.bytes.copy_within(gap..target.at + bytes(target.units), gap + bytes(span.units));
        self.write(target, position, span);
        self.set_units(target, target.units + span.units);
        Ok(())
    }

    fn delete_units(&mut self, edited: Edited, position: Number, count: Number) -> Result<(), Panic> {
        let target = self.target(edited, self.edited(edited)?)?;
        let (position, count) = (self.index(position)?, self.index(count)?);
        if position > target.units {
            user(10)?;
        }
        let count = count.min(target.units - position);
        let gap = target.at + bytes(position);
        self.attempts.heap.bytes.copy_within(gap + bytes(count)..target.at + bytes(target.units), gap);
        self.set_units(target, target.units - count);
        Ok(())
    }

    fn set_length(&mut self, edited: Edited, number: Number) -> Result<(), Panic> {
        let target = self.target(edited, self.edited(edited)?)?;
        let units = self.index(number)?;
        if units > target.most {
            user(11)?;
        }
        if units > target.units {
            self.attempts.heap.bytes[target.at + bytes(target.units)..target.at + bytes(units)].fill(0);
        }
        self.set_units(target, units);
        Ok(())
    }

    /// Writes units into a text at a position, where there is room.
    fn write(&mut self, target: Target, position: u32, span: Span) {
        let begin = target.at + bytes(position);
        let memory = &mut self.attempts.heap.bytes;
        memory.copy_within(span.at..span.at + bytes(span.there), begin);
        memory[begin + bytes(span.there)..begin + bytes(span.units)].fill(0);
    }

    fn set_units(&mut self, target: Target, units: u32) {
        match target.source {
            Source::Buffer(index) => self.buffers[self.frame.buffers as usize + index as usize] = units,
            Source::Cell(ptr) => {
                let length = target.at - UNITS as usize;
                self.attempts.heap.bytes[length..target.at].copy_from_slice(&units.to_le_bytes());
                self.attempts.heap.note_written(ptr.slot, UNITS + 2 * units);
            }
            _ => {}
        }
    }
}
