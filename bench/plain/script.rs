//! A script as it is run: the statements of all bodies in one list, and what its bodies and classes are.
//!
//! Reads the lines of a body that are statements.

use crate::read::{Kind, Reader};

/// Where a statement stands in the list of all.
pub type Place = u32;
/// A local of a body, counted among its pointers and ints, its views, or its buffers.
pub type Local = u8;

/// A pointer that is read or written: a local, or a field of the object that a local names.
#[derive(Clone, Copy)]
pub enum Pointer {
    Local(Local),
    Field { owner: Local, class: u8, index: u8 },
}

#[derive(Clone, Copy)]
pub enum Number {
    Value(i32),
    Local(Local),
}

/// A text that is read. A literal is told by its bytes in the memory.
#[derive(Clone, Copy)]
pub enum Text {
    Literal { at: u32, units: u32 },
    View(Local),
    Buffer(Local),
    Cell(Pointer),
}

/// A text that is changed.
#[derive(Clone, Copy)]
pub enum Edited {
    Buffer { index: Local, most: u16 },
    Cell(Pointer),
}

#[derive(Clone, Copy)]
pub enum Condition {
    Null(Pointer),
    Some(Pointer),
    Eq(Number, Number),
    Less(Number, Number),
}

#[derive(Clone, Copy)]
pub enum Argument {
    Pointer(Pointer),
    Number(Number),
}

/// A line of a body, or what an `else` or an `end` comes to. Its tag is a byte of its own, and not mixed with those of the
/// lines inside.
#[derive(Clone, Copy)]
#[repr(u8)]
pub enum Statement {
    Set(Local, Number),
    Add(Local, Number),
    Print(Number),
    Point(Pointer, Pointer),
    Null(Pointer),
    /// Goes on at the place if the condition doesn't hold.
    If(Condition, Place),
    /// No step.
    Jump(Place),
    /// Goes on at the place after the last turn.
    Repeat(Number, Place),
    /// The end of a turn. No step, but each turn that it begins is one.
    Turn(Place),
    /// Goes on at the place after a leave.
    Trap(Local, Place),
    /// No step.
    TrapEnd,
    /// The arguments are so many from this one on.
    Call {
        procedure: u16,
        first: u32,
        count: u8,
        into: Option<Local>,
    },
    Return(Option<Pointer>),
    /// No step.
    BodyEnd,
    Leave(Number),
    LeaveIfError(Number),
    LeaveIfNull(Pointer),
    Cell(OfCells),
    Stack(OfStack),
    Heap(OfHeap),
    Text(OfTexts),
}

/// Lines that make, change and release cells.
#[derive(Clone, Copy)]
pub enum OfCells {
    Alloc { target: Pointer, bytes: Number, leaves: bool },
    Realloc { target: Pointer, pointer: Pointer, bytes: Number, leaves: bool },
    NewText { target: Pointer, units: Number, leaves: bool },
    GrowText { target: Pointer, pointer: Pointer, units: Number },
    New { target: Pointer, class: u8, leaves: bool },
    Construct(Pointer),
    Delete(Pointer),
    Free(Pointer),
    Room(Local, Pointer),
    Store(Pointer, Number, Number),
    Load(Local, Pointer, Number),
}

/// What is done with an item that is destroyed.
#[derive(Clone, Copy)]
pub enum Undo {
    Free,
    Delete,
    Call(u16),
}

/// Lines of the cleanup stack.
#[derive(Clone, Copy)]
pub enum OfStack {
    Push(Pointer, Undo),
    Pop(Number),
    PopDestroy(Number),
    PopCheck(Pointer),
}

/// Lines that ask of the heap as a whole, or make requests fail.
#[derive(Clone, Copy)]
pub enum OfHeap {
    Mark,
    MarkEnd(Number),
    Check(Number),
    CheckAll(Number),
    FailNext(Number),
    FailEvery(Number),
    FailNone,
    Note,
    Available,
    Compress,
}

/// Lines of texts and views.
#[derive(Clone, Copy)]
pub enum OfTexts {
    Copy(Edited, Text),
    Append(Edited, Text),
    Insert(Edited, Number, Text),
    Delete(Edited, Number, Number),
    SetLength(Edited, Number),
    Length(Local, Text),
    Most(Local, Edited),
    Print(Text),
    Left(Local, Text, Number),
    Right(Local, Text, Number),
    Mid(Local, Text, Number, Number),
}

/// A procedure, an operation, or a body of a class: where it begins, and how many locals of each sort it has.
#[derive(Clone, Copy, Default)]
pub struct Body {
    pub start: Place,
    pub locals: u8,
    pub views: u8,
    pub buffers: u8,
}

#[derive(Clone, Default)]
pub struct Class {
    /// The bytes that are asked for an object.
    pub bytes: u32,
    pub construct: Option<Body>,
    pub destroy: Option<Body>,
}

#[derive(Default)]
pub struct Script {
    pub statements: Vec<Statement>,
    pub arguments: Vec<Argument>,
    /// Procedures and operations.
    pub bodies: Vec<Body>,
    pub classes: Vec<Class>,
    pub main: Body,
    /// All literals, two bytes a unit.
    pub literals: Vec<u8>,
}

impl<'a> Reader<'a> {
    /// The statement that a line is.
    pub fn statement(&mut self, words: &[&'a [u8]]) -> Statement {
        let number = |reader: &Self, at: usize| reader.names.number(words[at]);
        match words[0] {
            b"set" => match self.names.locals.kind(words[1]) {
                Some(Kind::Int(int)) => Statement::Set(int, number(self, 2)),
                _ => Statement::Point(self.names.pointer(words[1]), self.names.pointer(words[2])),
            },
            b"add" => Statement::Add(self.names.int(words[1]), number(self, 2)),
            b"null" => Statement::Null(self.names.pointer(words[1])),
            b"call" => self.call(words[1], &words[2..], None),
            b"callto" => match self.names.pointer(words[1]) {
                Pointer::Local(into) => self.call(words[2], &words[3..], Some(into)),
                Pointer::Field { .. } => Statement::BodyEnd,
            },
            b"return" => Statement::Return(words.get(1).map(|pointer| self.names.pointer(pointer))),
            b"leave" => Statement::Leave(number(self, 1)),
            b"leaveiferror" => Statement::LeaveIfError(number(self, 1)),
            b"leaveifnull" => Statement::LeaveIfNull(self.names.pointer(words[1])),
            b"print" => self.print(words[1]),
            _ => self.other(words),
        }
    }

    fn other(&mut self, words: &[&'a [u8]]) -> Statement {
        if let Some(line) = self.of_cells(words) {
            Statement::Cell(line)
        } else if let Some(line) = self.of_stack(words) {
            Statement::Stack(line)
        } else if let Some(line) = self.of_heap(words) {
            Statement::Heap(line)
        } else {
            Statement::Text(self.of_texts(words))
        }
    }

    fn call(&mut self, procedure: &'a [u8], words: &[&'a [u8]], into: Option<Local>) -> Statement {
        let first = self.script.arguments.len() as u32;
        for word in words {
            let is_pointer = word.contains(&b'.') || matches!(self.names.locals.kind(word), Some(Kind::Pointer(..)));
            let argument = if is_pointer {
                Argument::Pointer(self.names.pointer(word))
            } else {
                Argument::Number(self.names.number(word))
            };
            self.script.arguments.push(argument);
        }
        let procedure = self.names.bodies.number(procedure) as u16;
        Statement::Call { procedure, first, count: words.len() as u8, into }
    }

    fn print(&mut self, word: &'a [u8]) -> Statement {
        let is_number = crate::read::is_numeral(word) || matches!(self.names.locals.kind(word), Some(Kind::Int(_)));
        if is_number {
            Statement::Print(self.names.number(word))
        } else {
            Statement::Text(OfTexts::Print(self.text(word)))
        }
    }

    fn of_cells(&mut self, words: &[&'a [u8]]) -> Option<OfCells> {
        let leaves = words[0].ends_with(b"l") || words[0] == b"newleave";
        let names = &mut self.names;
        Some(match words[0] {
            b"alloc" | b"allocl" => {
                OfCells::Alloc { target: names.pointer(words[1]), bytes: names.number(words[2]), leaves }
            }
            b"realloc" | b"reallocl" => {
                let (target, pointer) = (names.pointer(words[1]), names.pointer(words[2]));
                let leaves = words[0] == b"reallocl";
                OfCells::Realloc { target, pointer, bytes: names.number(words[3]), leaves }
            }
            b"hnew" | b"hnewl" => {
                OfCells::NewText { target: names.pointer(words[1]), units: names.number(words[2]), leaves }
            }
            b"hrealloc" => OfCells::GrowText {
                target: names.pointer(words[1]),
                pointer: names.pointer(words[2]),
                units: names.number(words[3]),
            },
            b"new" | b"newleave" => {
                OfCells::New { target: names.pointer(words[1]), class: names.class(words[2]), leaves }
            }
            b"construct" => OfCells::Construct(names.pointer(words[1])),
            b"delete" => OfCells::Delete(names.pointer(words[1])),
            b"free" => OfCells::Free(names.pointer(words[1])),
            b"alloclen" => OfCells::Room(names.int(words[1]), names.pointer(words[2])),
            b"store" => OfCells::Store(names.pointer(words[1]), names.number(words[2]), names.number(words[3])),
            b"load" => OfCells::Load(names.int(words[1]), names.pointer(words[2]), names.number(words[3])),
            _ => return None,
        })
    }

    fn of_stack(&mut self, words: &[&'a [u8]]) -> Option<OfStack> {
        let names = &mut self.names;
        Some(match words[0] {
            b"push" => OfStack::Push(names.pointer(words[1]), Undo::Free),
            b"pushobj" => OfStack::Push(names.pointer(words[1]), Undo::Delete),
            b"pushop" => OfStack::Push(names.pointer(words[1]), Undo::Call(names.bodies.number(words[2]) as u16)),
            b"pop" => OfStack::Pop(names.number(words[1])),
            b"popdestroy" => OfStack::PopDestroy(names.number(words[1])),
            b"popcheck" => OfStack::PopCheck(names.pointer(words[1])),
            _ => return None,
        })
    }

    fn of_heap(&mut self, words: &[&'a [u8]]) -> Option<OfHeap> {
        let number = || self.names.number(words[1]);
        Some(match words[0] {
            b"mark" => OfHeap::Mark,
            b"markend" => OfHeap::MarkEnd(number()),
            b"check" => OfHeap::Check(number()),
            b"checkall" => OfHeap::CheckAll(number()),
            b"failnext" => OfHeap::FailNext(number()),
            b"failevery" => OfHeap::FailEvery(number()),
            b"failnone" => OfHeap::FailNone,
            b"heap" => OfHeap::Note,
            b"available" => OfHeap::Available,
            b"compress" => OfHeap::Compress,
            _ => return None,
        })
    }

    fn of_texts(&mut self, words: &[&'a [u8]]) -> OfTexts {
        let number = |reader: &Self, at: usize| reader.names.number(words[at]);
        match words[0] {
            b"copy" => OfTexts::Copy(self.edited(words[1]), self.text(words[2])),
            b"append" => OfTexts::Append(self.edited(words[1]), self.text(words[2])),
            b"insert" => OfTexts::Insert(self.edited(words[1]), number(self, 2), self.text(words[3])),
            b"deltext" => OfTexts::Delete(self.edited(words[1]), number(self, 2), number(self, 3)),
            b"setlength" => OfTexts::SetLength(self.edited(words[1]), number(self, 2)),
            b"getlen" => OfTexts::Length(self.names.int(words[1]), self.text(words[2])),
            b"getmax" => OfTexts::Most(self.names.int(words[1]), self.edited(words[2])),
            b"left" => OfTexts::Left(self.names.view(words[1]), self.text(words[2]), number(self, 3)),
            b"right" => OfTexts::Right(self.names.view(words[1]), self.text(words[2]), number(self, 3)),
            _ => OfTexts::Mid(self.names.view(words[1]), self.text(words[2]), number(self, 3), number(self, 4)),
        }
    }

    fn edited(&mut self, word: &'a [u8]) -> Edited {
        match self.names.locals.kind(word) {
            Some(Kind::Buffer(index, most)) => Edited::Buffer { index, most },
            _ => Edited::Cell(self.names.pointer(word)),
        }
    }

    fn text(&mut self, word: &'a [u8]) -> Text {
        match (word, self.names.locals.kind(word)) {
            ([b'"', units @ .., b'"'], _) => {
                let at = self.script.literals.len() as u32;
                self.script.literals.extend(units.iter().flat_map(|unit| [*unit, 0]));
                Text::Literal { at, units: units.len() as u32 }
            }
            (_, Some(Kind::Buffer(index, _))) => Text::Buffer(index),
            (_, Some(Kind::View(view))) => Text::View(view),
            _ => Text::Cell(self.names.pointer(word)),
        }
    }
}
