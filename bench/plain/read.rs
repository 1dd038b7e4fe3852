//! Reads a script that is known to be accepted.
//!
//! Names of a script: those of a body's locals, and those of classes with their fields, procedures and operations.

use crate::script::*;

/// What an `end` closes.
enum Open {
    Class,
    Body,
    If(usize),
    Else(usize),
    Repeat(usize),
    Trap(usize),
}

/// Whose body is read.
#[derive(Clone, Copy)]
enum Owner {
    Procedure(usize),
    Construct,
    Destroy,
}

pub struct Reader<'a> {
    pub script: Script,
    pub names: Names<'a>,
    open: Vec<Open>,
    owner: Owner,
    /// The class that is read.
    class: usize,
    /// How many fields each class has, and its extra bytes.
    sizes: Vec<(u32, u32)>,
    /// The locals of the body that is read.
    body: Body,
}

/// Reads a script.
pub fn read(text: &[u8]) -> Script {
    let mut reader = Reader {
        script: Script::default(),
        names: Names::default(),
        open: Vec::new(),
        owner: Owner::Construct,
        class: 0,
        sizes: Vec::new(),
        body: Body::default(),
    };
    let mut words = Vec::new();
    for line in text.split(|byte| *byte == b'\n') {
        cut_words(line, &mut words);
        if !words.is_empty() {
            reader.read_line(&words);
        }
    }
    reader.finish()
}

/// Cuts a line into its words; those of a comment are none.
fn cut_words<'a>(line: &'a [u8], words: &mut Vec<&'a [u8]>) {
    words.clear();
    let mut rest = line.trim_ascii_start();
    if rest.first() == Some(&b'#') {
        return;
    }
    while let Some(&first) = rest.first() {
        let length = if first == b'"' {
            2 + rest[1..].iter().position(|byte| *byte == b'"').unwrap_or(0)
        } else {
            rest.iter().position(u8::is_ascii_whitespace).unwrap_or(rest.len())
        };
        words.push(&rest[..length]);
        rest = rest[length..].trim_ascii_start();
    }
}

impl<'a> Reader<'a> {
    fn read_line(&mut self, words: &[&'a [u8]]) {
        match (words[0], words.len()) {
            (b"class", _) => self.begin_class(words),
            (b"field", _) => {
                self.names.fields[self.class].number(words[1]);
                self.sizes[self.class].0 += 1;
            }
            (b"proc", _) => self.begin_procedure(words),
            (b"op", _) => {
                let operation = self.begin_owned(words[1]);
                self.begin_body(operation);
                self.declare_pointer(words[2], None);
            }
            (b"construct", 1) => self.begin_own_body(Owner::Construct),
            (b"destroy", 1) => self.begin_own_body(Owner::Destroy),
            (b"ptr", _) => {
                let class = words.get(2).map(|class| self.names.class(class));
                self.declare_pointer(words[1], class);
            }
            (b"int", 2) => self.declare_int(words[1]),
            (b"buf", 3) => {
                self.names.locals.declare(words[1], Kind::Buffer(self.body.buffers, numeral(words[2]) as u16));
                self.body.buffers += 1;
            }
            (b"view", 2) => {
                self.names.locals.declare(words[1], Kind::View(self.body.views));
                self.body.views += 1;
            }
            (b"if" | b"repeat" | b"trap", _) => self.begin_block(words),
            (b"else", 1) => self.begin_else(),
            (b"end", 1) => self.end(),
            _ => {
                let statement = self.statement(words);
                self.script.statements.push(statement);
            }
        }
    }

    fn begin_class(&mut self, words: &[&'a [u8]]) {
        self.class = self.names.class(words[1]) as usize;
        self.sizes.resize(self.sizes.len().max(self.class + 1), (0, 0));
        self.sizes[self.class].1 = numeral(words[2]) as u32;
        self.open.push(Open::Class);
    }

    fn begin_procedure(&mut self, words: &[&'a [u8]]) {
        let procedure = self.begin_owned(words[1]);
        self.begin_body(procedure);
        for parameter in &words[2..] {
            let colon = parameter.iter().position(|byte| *byte == b':').unwrap_or(0);
            match (&parameter[..colon], &parameter[colon + 1..]) {
                (name, b"ptr") => self.declare_pointer(name, None),
                (name, b"int") => self.declare_int(name),
                (name, class) => {
                    let class = self.names.class(class);
                    self.declare_pointer(name, Some(class));
                }
            }
        }
    }

    fn begin_owned(&mut self, name: &'a [u8]) -> Owner {
        Owner::Procedure(self.names.bodies.number(name))
    }

    fn begin_own_body(&mut self, owner: Owner) {
        self.begin_body(owner);
        self.declare_pointer(b"self", Some(self.class as u8));
    }

    fn begin_body(&mut self, owner: Owner) {
        self.owner = owner;
        self.names.locals.clear();
        self.body = Body { start: self.here(), ..Body::default() };
        self.open.push(Open::Body);
    }

    fn declare_pointer(&mut self, name: &'a [u8], class: Option<u8>) {
        self.names.locals.declare(name, Kind::Pointer(self.body.locals, class));
        self.body.locals += 1;
    }

    fn declare_int(&mut self, name: &'a [u8]) {
        self.names.locals.declare(name, Kind::Int(self.body.locals));
        self.body.locals += 1;
    }

    fn here(&self) -> Place {
        self.script.statements.len() as Place
    }

    fn begin_block(&mut self, words: &[&'a [u8]]) {
        let at = self.script.statements.len();
        let (statement, open) = match words[0] {
            b"if" => (Statement::If(self.condition(words), 0), Open::If(at)),
            b"repeat" => (Statement::Repeat(self.names.number(words[1]), 0), Open::Repeat(at)),
            _ => (Statement::Trap(self.names.int(words[1]), 0), Open::Trap(at)),
        };
        self.script.statements.push(statement);
        self.open.push(open);
    }

    fn condition(&mut self, words: &[&'a [u8]]) -> Condition {
        match words[1] {
            b"null" => Condition::Null(self.names.pointer(words[2])),
            b"some" => Condition::Some(self.names.pointer(words[2])),
            b"eq" => Condition::Eq(self.names.number(words[2]), self.names.number(words[3])),
            _ => Condition::Less(self.names.number(words[2]), self.names.number(words[3])),
        }
    }

    fn begin_else(&mut self) {
        let Some(Open::If(at)) = self.open.pop() else { return };
        self.open.push(Open::Else(self.script.statements.len()));
        self.script.statements.push(Statement::Jump(0));
        self.close(at);
    }

    fn end(&mut self) {
        match self.open.pop() {
            Some(Open::If(at) | Open::Else(at)) => self.close(at),
            Some(Open::Repeat(at)) => {
                self.script.statements.push(Statement::Turn(at as Place + 1));
                self.close(at);
            }
            Some(Open::Trap(at)) => {
                self.script.statements.push(Statement::TrapEnd);
                self.close(at);
            }
            Some(Open::Body) => self.end_body(),
            Some(Open::Class) | None => {}
        }
    }

    /// Lets a statement go on here.
    fn close(&mut self, at: usize) {
        let here = self.here();
        match &mut self.script.statements[at] {
            Statement::If(_, place)
            | Statement::Jump(place)
            | Statement::Repeat(_, place)
            | Statement::Trap(_, place) => *place = here,
            _ => {}
        }
    }

    fn end_body(&mut self) {
        self.script.statements.push(Statement::BodyEnd);
        let classes = self.script.classes.len().max(self.class + 1);
        match self.owner {
            Owner::Procedure(number) => {
                let bodies = self.script.bodies.len().max(number + 1);
                self.script.bodies.resize(bodies, Body::default());
                self.script.bodies[number] = self.body;
            }
            Owner::Construct => {
                self.script.classes.resize(classes, Class::default());
                self.script.classes[self.class].construct = Some(self.body);
            }
            Owner::Destroy => {
                self.script.classes.resize(classes, Class::default());
                self.script.classes[self.class].destroy = Some(self.body);
            }
        }
    }

    fn finish(mut self) -> Script {
        self.script.classes.resize(self.sizes.len(), Class::default());
        for (class, (fields, extra)) in self.script.classes.iter_mut().zip(&self.sizes) {
            class.bytes = 8 + 8 * fields + extra;
        }
        let main = self.names.bodies.number(b"main");
        self.script.main = self.script.bodies[main];
        self.script
    }
}

/// What a local is, and its place among those of its sort.
#[derive(Clone, Copy)]
pub enum Kind {
    Pointer(Local, Option<u8>),
    Int(Local),
    Buffer(Local, u16),
    View(Local),
}

/// The locals of a body.
#[derive(Default)]
pub struct Locals<'a> {
    /// The first bytes of each name and its length, by which most names differ.
    keys: Vec<u64>,
    names: Vec<(&'a [u8], Kind)>,
}

fn key_of(name: &[u8]) -> u64 {
    let mut first = [0; 8];
    let count = name.len().min(7);
    first[..count].copy_from_slice(&name[..count]);
    first[7] = name.len() as u8;
    u64::from_le_bytes(first)
}

impl<'a> Locals<'a> {
    pub fn declare(&mut self, name: &'a [u8], kind: Kind) {
        self.keys.push(key_of(name));
        self.names.push((name, kind));
    }

    pub fn clear(&mut self) {
        self.keys.clear();
        self.names.clear();
    }

    pub fn kind(&self, name: &[u8]) -> Option<Kind> {
        let key = key_of(name);
        let is_it = |at: &usize| self.keys[*at] == key && self.names[*at].0 == name;
        (0..self.keys.len()).find(is_it).map(|at| self.names[at].1)
    }
}

/// Names that are numbered in the order in which they come up.
#[derive(Default)]
pub struct Numbered<'a>(Vec<&'a [u8]>);

impl<'a> Numbered<'a> {
    /// The number of a name, which is a new one if it hasn't come up.
    pub fn number(&mut self, name: &'a [u8]) -> usize {
        self.0.iter().position(|known| *known == name).unwrap_or_else(|| {
            self.0.push(name);
            self.0.len() - 1
        })
    }
}

/// The names of a script.
#[derive(Default)]
pub struct Names<'a> {
    pub locals: Locals<'a>,
    pub classes: Numbered<'a>,
    /// Of procedures and operations.
    pub bodies: Numbered<'a>,
    /// Of each class's fields.
    pub fields: Vec<Numbered<'a>>,
}

impl<'a> Names<'a> {
    pub fn class(&mut self, name: &'a [u8]) -> u8 {
        let class = self.classes.number(name);
        if class == self.fields.len() {
            self.fields.push(Numbered::default());
        }
        class as u8
    }

    /// A pointer that is named, or a field.
    pub fn pointer(&mut self, word: &'a [u8]) -> Pointer {
        let dot = word.iter().position(|byte| *byte == b'.');
        let (owner, field) = dot.map_or((word, None), |dot| (&word[..dot], Some(&word[dot + 1..])));
        match (self.locals.kind(owner), field) {
            (Some(Kind::Pointer(owner, Some(class))), Some(field)) => {
                let index = self.fields[class as usize].number(field) as u8;
                Pointer::Field { owner, class, index }
            }
            (Some(Kind::Pointer(local, _)), _) => Pointer::Local(local),
            _ => Pointer::Local(0),
        }
    }

    pub fn number(&self, word: &[u8]) -> Number {
        if is_numeral(word) { Number::Value(numeral(word)) } else { Number::Local(self.int(word)) }
    }

    pub fn int(&self, word: &[u8]) -> Local {
        if let Some(Kind::Int(local)) = self.locals.kind(word) { local } else { 0 }
    }

    pub fn view(&self, word: &[u8]) -> Local {
        if let Some(Kind::View(local)) = self.locals.kind(word) { local } else { 0 }
    }
}

pub fn is_numeral(word: &[u8]) -> bool {
    matches!(word.first(), Some(b'-' | b'0'..=b'9'))
}

pub fn numeral(word: &[u8]) -> i32 {
    let (is_negative, digits) = word.strip_prefix(b"-").map_or((false, word), |digits| (true, digits));
    let value = digits.iter().fold(0, |value, digit| 10 * value + (digit - b'0') as i32);
    if is_negative { -value } else { value }
}
