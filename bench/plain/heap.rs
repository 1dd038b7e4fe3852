//! The simulated heap: cells in one region of bytes, the free runs between them, and what the heap has committed.
//!
//! Free bytes are always zero: a cell that is released is wiped as far as it was ever written, so that a grant writes
//! nothing.

use crate::holes::Holes;

/// The bytes before each payload, which count in places and lengths. Nothing stands there.
pub const HEADER: u32 = 16;
/// No cell ends past this.
pub const CEILING: u32 = 16_777_216;

pub const RAW: u32 = 0;
pub const TEXT: u32 = 1;
pub const CLEANUP: u32 = 2;
/// The kind of objects of the first class; that of the others follows.
pub const OBJECT: u32 = 16;

/// A cell's slot and the number of its attempt, or twice 0 for null.
#[derive(Clone, Copy, Default, PartialEq, Eq)]
pub struct Ptr {
    pub slot: u32,
    pub number: u32,
}

impl Ptr {
    pub fn is_null(self) -> bool {
        self.number == 0
    }
}

#[derive(Clone, Copy)]
pub struct Cell {
    pub place: u32,
    /// Header included.
    pub length: u32,
    /// That of the attempt that granted it or moved it last; 0 in a slot without a cell.
    pub number: u32,
    /// The number of the attempt that granted it first.
    pub born: u32,
    pub kind: u32,
    /// So many bytes of the payload may be other than zero.
    pub written: u32,
}

/// The least committed length, by what it grows, and what it never passes.
#[derive(Clone, Copy)]
pub struct Shape {
    pub min: u32,
    pub step: u32,
    pub limit: u32,
}

pub struct Heap {
    /// Literals and buffers, and from `base` on the payloads.
    pub bytes: Vec<u8>,
    pub base: usize,
    pub cells: Vec<Cell>,
    empty_slots: Vec<u32>,
    holes: Holes,
    top: u32,
    shape: Shape,
    pub committed: u32,
    pub live: u32,
    pub live_bytes: u32,
}

/// The length of a cell with room for so many bytes.
pub fn cell_length(bytes: u32) -> u32 {
    HEADER + bytes.next_multiple_of(16)
}

impl Heap {
    /// An empty heap, with so many bytes before its own.
    pub fn new(base: usize, shape: Shape) -> Heap {
        let shape = Shape { limit: shape.limit / 16 * 16, ..shape };
        Heap {
            bytes: vec![0; base + CEILING as usize],
            base,
            cells: Vec::new(),
            empty_slots: Vec::new(),
            holes: Holes::new(),
            top: 0,
            committed: shape.min.min(shape.limit),
            shape,
            live: 0,
            live_bytes: 0,
        }
    }

    /// Becomes equal to another heap of the same script, in memory of its own.
    pub fn become_copy_of(&mut self, other: &Heap) {
        for slot in 0..self.cells.len() {
            self.wipe(slot, 0);
        }
        self.cells.clone_from(&other.cells);
        for cell in other.cells.iter().filter(|cell| cell.number != 0 && cell.written != 0) {
            let from = other.payload(cell);
            let written = from..from + cell.written as usize;
            self.bytes[written.clone()].copy_from_slice(&other.bytes[written]);
        }
        self.empty_slots.clone_from(&other.empty_slots);
        self.holes.clone_from(&other.holes);
        self.top = other.top;
        self.committed = other.committed;
        self.live = other.live;
        self.live_bytes = other.live_bytes;
    }

    /// The cell that a pointer names; `None` if it is null or stale.
    pub fn cell(&self, ptr: Ptr) -> Option<&Cell> {
        self.cells.get(ptr.slot as usize).filter(|cell| cell.number == ptr.number)
    }

    /// Where a cell's payload begins in the memory.
    pub fn payload(&self, cell: &Cell) -> usize {
        self.base + (cell.place + HEADER) as usize
    }

    pub fn usable(cell: &Cell) -> u32 {
        cell.length - HEADER
    }

    /// The lowest place where so many bytes are free.
    pub fn place_for(&self, length: u32) -> u32 {
        self.holes.lowest(length).unwrap_or(self.top)
    }

    /// The place where a cell would get a greater length: its own, if the bytes after it are free.
    pub fn place_to_grow(&self, slot: u32, length: u32) -> u32 {
        let cell = &self.cells[slot as usize];
        let end = cell.place + cell.length;
        if end == self.top || self.holes.length_at(end) >= length - cell.length {
            cell.place
        } else {
            self.place_for(length)
        }
    }

    /// Makes a cell at a place that is free.
    pub fn grant(&mut self, place: u32, length: u32, number: u32, kind: u32) -> Ptr {
        self.claim(place, length);
        self.live += 1;
        let cell = Cell { place, length, number, born: number, kind, written: 0 };
        let slot = match self.empty_slots.pop() {
            Some(slot) => {
                self.cells[slot as usize] = cell;
                slot
            }
            None => {
                self.cells.push(cell);
                self.cells.len() as u32 - 1
            }
        };
        Ptr { slot, number }
    }

    pub fn release(&mut self, slot: u32) {
        self.wipe(slot as usize, 0);
        let cell = &mut self.cells[slot as usize];
        cell.number = 0;
        let (place, length) = (cell.place, cell.length);
        self.empty_slots.push(slot);
        self.live -= 1;
        self.give_back(place, length);
    }

    /// Gives a cell a length that isn't greater, at its place.
    pub fn shrink(&mut self, slot: u32, length: u32) {
        self.wipe(slot as usize, length - HEADER);
        let cell = &mut self.cells[slot as usize];
        let (place, old) = (cell.place, cell.length);
        cell.length = length;
        if length < old {
            self.give_back(place + length, old - length);
        }
    }

    /// Gives a cell a greater length, at its place or at another, where it gets the number.
    pub fn grow(&mut self, slot: u32, place: u32, length: u32, number: u32) -> Ptr {
        let old = self.cells[slot as usize];
        if place == old.place {
            self.claim(place + old.length, length - old.length);
            self.cells[slot as usize].length = length;
            return Ptr { slot, number: old.number };
        }
        self.claim(place, length);
        let moved = Cell { place, length, number, ..old };
        let (from, to) = (self.payload(&old), self.payload(&moved));
        self.bytes.copy_within(from..from + old.written as usize, to);
        self.wipe(slot as usize, 0);
        self.cells[slot as usize] = moved;
        self.give_back(old.place, old.length);
        Ptr { slot, number }
    }

    /// Marks so many bytes of a payload as written.
    pub fn note_written(&mut self, slot: u32, bytes: u32) {
        let cell = &mut self.cells[slot as usize];
        cell.written = cell.written.max(bytes);
    }

    /// The free bytes below the committed length, and the longest run of them.
    pub fn available(&self) -> (u32, u32) {
        (self.committed - self.live_bytes, self.holes.longest().max(self.committed - self.top))
    }

    /// Lowers the committed length as far as it goes, and returns by how much.
    pub fn compress(&mut self) -> u32 {
        let least = self.shape.min.min(self.shape.limit);
        let wanted = self.rounded(self.top).max(least).min(self.committed);
        std::mem::replace(&mut self.committed, wanted) - wanted
    }

    fn rounded(&self, end: u32) -> u32 {
        end.next_multiple_of(self.shape.step).min(self.shape.limit)
    }

    /// Takes free bytes, which begin at the top or at the beginning of a free run.
    fn claim(&mut self, place: u32, length: u32) {
        if place == self.top {
            self.top += length;
            if self.top > self.committed {
                self.committed = self.rounded(self.top);
            }
        } else {
            self.holes.take(place, length);
        }
        self.live_bytes += length;
    }

    fn give_back(&mut self, place: u32, length: u32) {
        self.live_bytes -= length;
        if place + length == self.top {
            self.top = self.holes.join_top(place);
        } else {
            self.holes.give(place, length);
        }
    }

    /// Makes what was written past so many bytes of a payload zero again.
    fn wipe(&mut self, slot: usize, kept: u32) {
        let cell = &mut self.cells[slot];
        if cell.number != 0 && cell.written > kept {
            let from = self.base + (cell.place + HEADER) as usize;
            self.bytes[from + kept as usize..from + cell.written as usize].fill(0);
            self.cells[slot].written = kept;
        }
    }
}
