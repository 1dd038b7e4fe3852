//! Lines that make, change and release cells, and those of the cleanup stack.
//!
//! What stands in a line: pointers, fields and numbers, as they are read and written.

use crate::heap::{Cell, Heap, OBJECT, Ptr, RAW, TEXT};
use crate::machine::{Item, MORE_SLOTS, Machine, NO_MEMORY, Panic, Stop, user, workbench};
use crate::script::{Number, OfCells, OfStack, Pointer, Undo};

/// The most bytes, and the most units of a text, that a line asks for.
const MOST_BYTES: i32 = 1_048_576;
const MOST_UNITS: i32 = 524_286;
/// Bytes before a text's units.
pub const UNITS: u32 = 4;

/// The bytes that are asked for a text.
fn text_bytes(units: u32) -> u32 {
    UNITS + 2 * units
}

impl Machine<'_> {
    pub fn do_cells(&mut self, line: &OfCells) -> Result<(), Stop> {
        match *line {
            OfCells::Alloc { target, bytes, leaves } => {
                self.look_at(target)?;
                let bytes = self.within(bytes, MOST_BYTES)?;
                let answer = self.attempts.alloc(bytes, RAW)?;
                self.answer(target, answer, leaves)
            }
            OfCells::Realloc { target, pointer, bytes, leaves } => self.realloc(target, pointer, bytes, leaves),
            OfCells::NewText { target, units, leaves } => {
                self.look_at(target)?;
                let bytes = text_bytes(self.within(units, MOST_UNITS)?);
                let answer = self.attempts.alloc(bytes, TEXT)?;
                self.answer(target, answer, leaves)
            }
            OfCells::GrowText { target, pointer, units } => self.grow_text(target, pointer, units),
            OfCells::New { target, class, leaves } => {
                self.look_at(target)?;
                let bytes = self.script.classes[class as usize].bytes;
                let answer = self.attempts.alloc(bytes, OBJECT + class as u32)?;
                self.answer(target, answer, leaves)
            }
            OfCells::Construct(pointer) => self.construct(pointer),
            OfCells::Delete(pointer) => self.delete(self.pointer(pointer)?),
            OfCells::Free(pointer) => Ok(self.release(self.pointer(pointer)?)?),
            OfCells::Room(int, pointer) => {
                let Some(cell) = self.attempts.heap.cell(self.pointer(pointer)?) else { return Ok(user(42)?) };
                self.set_int(int, Heap::usable(cell) as i32);
                Ok(())
            }
            OfCells::Store(pointer, index, value) => Ok(self.store(pointer, index, value)?),
            OfCells::Load(int, pointer, index) => {
                let (_, at, _) = self.word(pointer, index)?;
                let bytes = &self.attempts.heap.bytes[at..at + 4];
                self.set_int(int, i32::from_le_bytes([bytes[0], bytes[1], bytes[2], bytes[3]]));
                Ok(())
            }
        }
    }

    fn store(&mut self, pointer: Pointer, index: Number, value: Number) -> Result<(), Panic> {
        let (ptr, at, end) = self.word(pointer, index)?;
        let word = self.number(value).to_le_bytes();
        self.attempts.heap.bytes[at..at + 4].copy_from_slice(&word);
        self.attempts.heap.note_written(ptr.slot, end);
        Ok(())
    }

    /// A number from 0 to the most that a line takes.
    fn within(&self, number: Number, most: i32) -> Result<u32, Panic> {
        let value = self.number(number);
        if (0..=most).contains(&value) { Ok(value as u32) } else { workbench(9) }
    }

    /// Hands the heap's answer to the target, or leaves where it is a refusal and the line leaves.
    fn answer(&mut self, target: Pointer, answer: Ptr, leaves: bool) -> Result<(), Stop> {
        if leaves && answer.is_null() {
            return Err(Stop::Leave(NO_MEMORY));
        }
        self.set_pointer(target, answer);
        Ok(())
    }

    fn realloc(&mut self, target: Pointer, pointer: Pointer, bytes: Number, leaves: bool) -> Result<(), Stop> {
        self.look_at(target)?;
        let ptr = self.pointer(pointer)?;
        if !ptr.is_null() {
            match self.attempts.heap.cell(ptr) {
                None => user(42)?,
                Some(cell) if cell.kind != RAW => workbench(2)?,
                Some(_) => {}
            }
        }
        let bytes = self.within(bytes, MOST_BYTES)?;
        let answer =
            if ptr.is_null() { self.attempts.alloc(bytes, RAW)? } else { self.attempts.realloc(ptr, bytes)? };
        self.answer(target, answer, leaves)
    }

    fn grow_text(&mut self, target: Pointer, pointer: Pointer, units: Number) -> Result<(), Stop> {
        self.look_at(target)?;
        let ptr = self.pointer(pointer)?;
        let length = self.text_length(self.cell_of_kind(ptr, TEXT)?);
        let units = self.within(units, MOST_UNITS)?;
        if units < length {
            workbench(8)?;
        }
        let answer = self.attempts.realloc(ptr, text_bytes(units))?;
        self.answer(target, answer, false)
    }

    /// A word of a cell: where it stands in the memory, and where it ends in the payload.
    fn word(&self, pointer: Pointer, index: Number) -> Result<(Ptr, usize, u32), Panic> {
        let ptr = self.pointer(pointer)?;
        let cell = self.cell_of_kind(ptr, RAW)?;
        let index = self.number(index) as u32;
        if index >= Heap::usable(cell) / 4 {
            workbench(9)?;
        }
        Ok((ptr, self.attempts.heap.payload(cell) + 4 * index as usize, 4 * index + 4))
    }

    fn release(&mut self, ptr: Ptr) -> Result<(), Panic> {
        if !ptr.is_null() {
            if self.attempts.heap.cell(ptr).is_none() {
                user(42)?;
            }
            self.attempts.release(ptr);
        }
        Ok(())
    }

    /// The class of an object.
    fn class_of(&self, ptr: Ptr) -> Result<u32, Panic> {
        match self.attempts.heap.cell(ptr) {
            None => workbench(1),
            Some(cell) => cell.kind.checked_sub(OBJECT).map_or_else(|| workbench(2), Ok),
        }
    }

    fn construct(&mut self, pointer: Pointer) -> Result<(), Stop> {
        let ptr = self.pointer(pointer)?;
        let class = self.class_of(ptr)?;
        self.check_depth()?;
        match &self.script.classes[class as usize].construct {
            Some(body) => Ok(self.enter_plainly(body, ptr)?),
            None => Ok(()),
        }
    }

    /// Runs an object's destructor and releases its cell.
    fn delete(&mut self, ptr: Ptr) -> Result<(), Stop> {
        if ptr.is_null() {
            return Ok(());
        }
        self.count_step()?;
        let class = self.class_of(ptr)?;
        self.check_depth()?;
        if let Some(body) = &self.script.classes[class as usize].destroy {
            self.run_inside(body, ptr)?;
        }
        Ok(self.release(ptr)?)
    }

    pub fn do_stack(&mut self, line: &OfStack) -> Result<(), Stop> {
        match *line {
            OfStack::Push(pointer, undo) => {
                let ptr = self.pointer(pointer)?;
                self.push(Item { ptr, undo })
            }
            OfStack::Pop(number) => {
                let count = self.owned(number)?;
                self.items.truncate(self.items.len() - count);
                Ok(())
            }
            OfStack::PopDestroy(number) => {
                let count = self.owned(number)?;
                self.destroy_items(count)
            }
            OfStack::PopCheck(pointer) => {
                let ptr = self.pointer(pointer)?;
                if self.items.len() == self.floor() {
                    workbench(3)?;
                }
                if self.items.last().is_some_and(|item| item.ptr.number != ptr.number) {
                    workbench(4)?;
                }
                self.items.pop();
                Ok(())
            }
        }
    }

    /// How many items are to come off, no more than the innermost TRAP has.
    fn owned(&self, number: Number) -> Result<usize, Panic> {
        let count = self.within(number, i32::MAX)? as usize;
        if count > self.items.len() - self.floor() { workbench(3) } else { Ok(count) }
    }

    /// Puts an item on the stack, whose cell grows where that uses up its room.
    fn push(&mut self, item: Item) -> Result<(), Stop> {
        let is_full = self.items.len() as u32 + 1 == self.slots;
        if !is_full {
            self.items.push(item);
            return Ok(());
        }
        let answer = self.attempts.realloc(self.stack, 16 * (self.slots + MORE_SLOTS))?;
        self.items.push(item);
        if answer.is_null() {
            return Err(Stop::Leave(NO_MEMORY));
        }
        self.stack = answer;
        self.slots += MORE_SLOTS;
        Ok(())
    }

    /// Takes so many items off and destroys them, the newest first.
    pub fn destroy_items(&mut self, count: usize) -> Result<(), Stop> {
        for _ in 0..count {
            let Some(item) = self.items.pop() else { return Ok(()) };
            self.count_step()?;
            match item.undo {
                Undo::Free => self.release(item.ptr)?,
                Undo::Delete => self.delete(item.ptr)?,
                Undo::Call(operation) => {
                    let script = self.script;
                    self.run_inside(&script.bodies[operation as usize], item.ptr)?;
                }
            }
        }
        Ok(())
    }
}

/// Bytes before an object's fields, and of each field.
const FIELDS: usize = 8;

impl Machine<'_> {
    #[inline(always)]
    pub fn int(&self, int: u8) -> i32 {
        self.local(int).slot as i32
    }

    #[inline(always)]
    pub fn set_int(&mut self, int: u8, value: i32) {
        self.set_local(int, Ptr { slot: value as u32, number: 0 });
    }

    #[inline(always)]
    pub fn number(&self, number: Number) -> i32 {
        match number {
            Number::Value(value) => value,
            Number::Local(int) => self.int(int),
        }
    }

    /// Reads a pointer; for a field the object must be there, and of its class.
    #[inline(always)]
    pub fn pointer(&self, pointer: Pointer) -> Result<Ptr, Panic> {
        match pointer {
            Pointer::Local(local) => Ok(self.local(local)),
            Pointer::Field { owner, class, index } => self.field(owner, class, index),
        }
    }

    /// Refuses a target that is a field of no such object.
    #[inline(always)]
    pub fn look_at(&self, target: Pointer) -> Result<(), Panic> {
        if let Pointer::Field { owner, class, .. } = target {
            self.object(self.local(owner), class)?;
        }
        Ok(())
    }

    /// Writes a target that was looked at.
    #[inline(always)]
    pub fn set_pointer(&mut self, target: Pointer, ptr: Ptr) {
        match target {
            Pointer::Local(local) => self.set_local(local, ptr),
            Pointer::Field { owner, class, index } => self.set_field(owner, class, index, ptr),
        }
    }

    /// The cell that a line reads or writes.
    pub fn cell_of_kind(&self, ptr: Ptr, kind: u32) -> Result<&Cell, Panic> {
        match self.attempts.heap.cell(ptr) {
            None => workbench(1),
            Some(cell) if cell.kind != kind => workbench(2),
            Some(cell) => Ok(cell),
        }
    }

    fn object(&self, ptr: Ptr, class: u8) -> Result<&Cell, Panic> {
        self.cell_of_kind(ptr, OBJECT + class as u32)
    }

    fn field(&self, owner: u8, class: u8, index: u8) -> Result<Ptr, Panic> {
        let heap = &self.attempts.heap;
        let at = heap.payload(self.object(self.local(owner), class)?) + FIELDS * (1 + index as usize);
        let word = |at: usize| u32::from_le_bytes(std::array::from_fn(|byte| heap.bytes[at + byte]));
        Ok(Ptr { slot: word(at), number: word(at + 4) })
    }

    fn set_field(&mut self, owner: u8, class: u8, index: u8, ptr: Ptr) {
        let object = self.local(owner);
        let Ok(cell) = self.object(object, class) else { return };
        let payload = self.attempts.heap.payload(cell);
        let heap = &mut self.attempts.heap;
        let end = FIELDS * (2 + index as usize);
        let at = payload + end - FIELDS;
        heap.bytes[at..at + 4].copy_from_slice(&ptr.slot.to_le_bytes());
        heap.bytes[at + 4..at + 8].copy_from_slice(&ptr.number.to_le_bytes());
        heap.note_written(object.slot, end as u32);
    }
}
