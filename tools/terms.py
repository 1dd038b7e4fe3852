"""Scripts and reports of worked cases as terms of antt: the tree of `wb_tree/src/script.rt` that each script spells, and the values that
the definitions must give for its reports.

Scripts are read by the small reader here, not by the workbench's own, so that the theorems speak of the definitions alone. Where a word is
in none of the tables, Python raises an error: no term leaves out what isn't known."""

import re
from typing import NamedTuple

from tools.language import line_of, lines_by_kind, words_of_roles

# the first words of a run's lines, and the values of the definitions that words in them name, which tools/shorthands.txt imports
RUN_LINES = ("print", "note", "attempt", "ended", "left", "leaks", "leak", "panic", "nocleanup", "cut", "steps")
NOTES = ("heap", "available", "compress")
VALUES = {
    **{it: it.capitalize() for it in (*NOTES, "granted", "simulated", "refused", "budget", "ceiling")},
    **{it: f"P.{it.capitalize()}" for it in ("USER", "ALLOC", "WORKBENCH")},
}

# the statements that are one line with the operands of its kind: its word, the constructor, and what follows the operands there. The
# others are in `Reader.statement`
STATEMENTS = {
    entry.split()[0]: entry.split()[1:]
    for entry in """
    alloc Alloc GivesNull, allocl Alloc Leaves, realloc Realloc GivesNull, reallocl Realloc Leaves, free Free, alloclen AllocLen,
    store Store, load Load, new New GivesNull, newleave New Leaves, construct Construct, delete Delete, null SetNull, add Add, push Push,
    pushobj PushObject, pushop PushOperation, pop Pop, popdestroy PopDestroy, popcheck PopCheck, leave Leave, leaveiferror LeaveIfError,
    leaveifnull LeaveIfNull, mark Mark, markend MarkEnd, check Check, checkall CheckAll, failnext FailNext, failevery FailEvery,
    failnone FailNone, hnew NewText GivesNull, hnewl NewText Leaves, hrealloc ReallocText, copy Copy, append Append, insert Insert,
    deltext DeleteText, setlength SetLength, left Left, right Right, mid Mid, getlen GetLength, getmax GetMaximum, heap NoteHeap,
    available NoteAvailable, compress NoteCompress
    """.split(",")
}
# the conditions by their keywords: the constructor, and the kind of line
CONDITIONS = {"null": ("IsNull", "IfNull"), "some": ("NotNull", "IfSome"), "eq": ("Equal", "IfEqual"), "less": ("Less", "IfLess")}
# lines that mean one thing where the first operand is a number, and another where not, with the places of their operands
OVERLOADED = {
    "set": (("SetNumber", ("Variable", "Value")), ("Set", ("Pointer", "Pointer"))),
    "print": (("PrintNumber", ("Value",)), ("PrintText", ("Readable",))),
}
# lines that open a block
BLOCKS = {"repeat": "Repeat", "trap": "Trap"}

# the words that declare what bodies may name before: no statement begins with such a word
ITEMS = ("class", "proc", "op")
NUMERAL = re.compile("-?[0-9]+")


def apply(name: str, *arguments: str) -> str:
    """A constructor or function with its arguments, or a record by the shorthand that makes it from its fields."""
    return " ".join([name, *(f"({it})" if " " in it else it for it in arguments)])


def listed(items: list[str]) -> str:
    return " ∷ ".join([*(f"({it})" if " " in it else it for it in items), "[]"])


def integer(n: int) -> str:
    return f"pos {n}" if n >= 0 else f"negsuc {-n - 1}"


def option(term: str | None) -> str:
    return "None" if term is None else apply("Some", term)


def text_term(text: str) -> str:
    return listed([str(ord(it)) for it in text])


def cut_term(word: str) -> str:
    return apply("Cut", VALUES[word])


def panic_term(words: list[str]) -> str:
    return apply(VALUES[words[0]], str(int(words[1], 16 if words[0] == "ALLOC" else 10)))


def outcome_term(told: dict[str, list[list[str]]]) -> str:
    if told["panic"]:
        return apply("Panicked", panic_term(told["panic"][0]))
    if told["cut"]:
        return cut_term(told["cut"][0][0])
    if told["nocleanup"]:
        return "NoCleanup"
    leaks = [apply("leak", it[0], it[2], it[4]) for it in told["leak"]]
    return apply("Ended", option(integer(int(told["left"][0][0])) if told["left"] else None), listed(leaks))


def run_term(lines: list[str]) -> str:
    told: dict[str, list[list[str]]] = {key: [] for key in RUN_LINES}
    printed: list[str] = []
    for key, _, rest in (line.partition(" ") for line in lines):
        told[key].append(rest.split(" "))
        printed += [text_term(rest)] if key == "print" else []
    trace = [apply("line", it[0], it[2], it[4], VALUES[it[5]]) for it in told["attempt"]]
    notes = [apply(VALUES[it[0]], *it[1:]) for it in told["note"]]
    return apply("result", outcome_term(told), listed(trace), listed(printed), listed(notes), told["steps"][0][0])


def rises_term(lines: list[str]) -> str:
    """The rises that a size text tells: each with its number and its top, where the next line begins."""
    rows = [line.split(" ") for line in lines[1:]]
    tops = [row[1] for row in rows[1:-1]] + [rows[-1][2]]
    return listed([apply("rise", row[3], top) for row, top in zip(rows, tops)])


def end_term(words: list[str]) -> str:
    """How a run ends, by the words of a range of lengths."""
    match words:
        case ["panic", *panic]:
            return apply("E.Panicked", panic_term(panic))
        case ["leaks", count]:
            return apply("E.Leaked", count)
        case ["left", code]:
            return apply("E.Left", integer(int(code)))
        case ["cut", why]:
            return apply("E.Cut", VALUES[why])
    return {"nocleanup": "E.NoCleanup", "ended": "E.Plain"}[words[0]]


def words_of(line: str) -> list[str]:
    """The words of a line; none for a comment or a line of blanks."""
    words = re.findall(r'"[^"]*"|[^ \t\r]+', line)
    return [] if words and words[0].startswith("#") else words


class Local(NamedTuple):
    sort: str
    index: int
    class_name: str | None = None


def parameter(word: str, index: int) -> tuple[str, Local]:
    """The name and the local of a PARAM."""
    name, _, of = word.partition(":")
    return name, Local("int" if of == "int" else "ptr", index, None if of in ("int", "ptr") else of)


class Reader:
    """Reads an accepted script; faults were refused before, so none are looked for."""

    def __init__(self, text: str) -> None:
        lines = [(number, words) for number, words in enumerate(map(words_of, text.split("\n")), 1) if words]
        # the lines still to read with their numbers, the next one last
        self.lines, self.line = lines[::-1], 0
        # the indexes of what bodies may name before its declaration, and the fields of each class with their classes
        self.indexes: dict[str, dict[str, int]] = {it: {} for it in ITEMS}
        self.fields: dict[str, dict[str, str | None]] = {}
        for _, (word, *rest) in lines:
            if word in ITEMS:
                self.indexes[word][rest[0]] = len(self.indexes[word])
            if word == "class":
                self.fields[rest[0]] = {}
            elif word == "field":
                self.fields[list(self.fields)[-1]][rest[0]] = rest[1] if len(rest) > 1 else None
        self.literals: list[str] = []
        self.locals: dict[str, Local] = {}
        self.this: str | None = None

    def next_line(self) -> list[str]:
        self.line, words = self.lines.pop()
        return words

    def index(self, item: str, name: str) -> str:
        return str(self.indexes[item][name])

    def class_option(self, name: str | None) -> str:
        """The class of a pointer, a field or a parameter, where it has one."""
        return option(None if name is None else self.index("class", name))

    def script(self) -> str:
        items: dict[str, list[str]] = {it: [] for it in ITEMS}
        while self.lines:
            words, line = self.next_line(), str(self.line)
            match words[0]:
                case "class":
                    term = self.class_term(words[1], line, words[2])
                case "proc":
                    given = dict(map(parameter, words[2:], range(len(words))))
                    parameters = [
                        "Par.OfNumber" if it.sort == "int" else apply("Par.OfPointer", self.class_option(it.class_name))
                        for it in given.values()
                    ]
                    term = apply("procedure", line, listed(parameters), self.body(given, None))
                case _:
                    term = apply("operation", line, self.body({words[2]: Local("ptr", 0)}, None))
            items[words[0]].append(term)
        literals = listed(list(map(text_term, self.literals)))
        return apply("script", *map(listed, items.values()), literals, self.index("proc", "main"))

    def class_term(self, name: str, line: str, extra: str) -> str:
        bodies: dict[str, str] = {}
        while (word := self.next_line()[0]) != "end":
            if word != "field":
                bodies[word] = self.body({}, name)
        fields = listed(list(map(self.class_option, self.fields[name].values())))
        return apply("class_of", line, str(int(extra)), fields, *(option(bodies.get(it)) for it in ("construct", "destroy")))

    def body(self, given: dict[str, Local], this: str | None) -> str:
        """A body up to its `end`, with its parameters and the class of `self`."""
        self.locals, self.this = dict(given), this
        begun: list[str] = []
        while self.lines[-1][1][0] in words_of_roles("Declaration"):
            begun.append(self.declaration(*self.next_line()))
        return apply("body", listed(begun), listed(self.block()[0]))

    def declaration(self, sort: str, name: str, *more: str) -> str:
        of = more[0] if sort == "ptr" and more else None
        self.locals[name] = Local(sort, len(self.locals), of)
        if sort == "ptr":
            return apply("OfPointer", self.class_option(of))
        return apply("OfBuffer", str(int(more[0]))) if sort == "buf" else {"int": "OfNumber", "view": "OfView"}[sort]

    def block(self) -> tuple[list[str], str]:
        """Statements with their lines up to an `end` or `else`, and which of these it was."""
        statements: list[str] = []
        while (words := self.next_line())[0] not in ("end", "else"):
            line = str(self.line)
            statements.append(apply("on", line, "Statement-F." + self.statement(words[0], words[1:])))
        return statements, words[0]

    def statement(self, key: str, operands: list[str]) -> str:
        if key in STATEMENTS:
            name, *rest = STATEMENTS[key]
            return apply(name, *self.operands(line_of(key, "Plain").places, operands), *rest)
        if key in OVERLOADED:
            name, places = OVERLOADED[key][self.sort_of(operands[0]) != "int"]
            return apply(name, *self.operands(places, operands))
        if key in ("call", "callto"):
            results, rest = ([self.local(operands[0])], operands[1:]) if key == "callto" else ([], operands)
            arguments = listed([self.operand("Argument", it) for it in rest[1:]])
            return apply("CallTo" if results else "Call", *results, self.index("proc", rest[0]), arguments)
        if key == "return":
            return apply("ReturnPointer", *self.operands(("Pointer",), operands)) if operands else "Return"
        if key == "if":
            return self.choice(operands)
        return apply(BLOCKS[key], *self.operands(line_of(key, "Loop").places, operands), listed(self.block()[0]))

    def choice(self, operands: list[str]) -> str:
        """`if` with its condition and both parts."""
        name, kind = CONDITIONS[operands[0]]
        condition = apply(name, *self.operands(lines_by_kind()[kind].places, operands[1:]))
        first, closed_by = self.block()
        if closed_by == "end":
            return apply("If", condition, listed(first))
        return apply("IfElse", condition, listed(first), listed(self.block()[0]))

    def operands(self, places: tuple[str, ...], words: list[str]) -> list[str]:
        """All operands of a line, by their places in the tables of `wb_lines`."""
        return [self.operand(place, word) for place, word in zip(places, words, strict=True)]

    def operand(self, place: str, word: str) -> str:
        match place:
            case "Pointer" | "Written":
                return self.pointer(word)
            case "Value":
                return apply("Constant", integer(int(word))) if NUMERAL.fullmatch(word) else apply("Variable", self.local(word))
            case "Variable" | "ViewName":
                return self.local(word)
            case "Writable":
                return apply("OwnBuffer", self.local(word)) if self.sort_of(word) == "buf" else apply("InCell", self.pointer(word))
            case "Readable" if word.startswith('"'):
                self.literals.append(word[1:-1])
                return apply("Quoted", str(len(self.literals) - 1))
            case "Readable":
                return apply("ViewOf", self.local(word)) if self.sort_of(word) == "view" else apply("Of", self.operand("Writable", word))
            case "Argument":
                is_number = self.sort_of(word) == "int"
                return apply("Given", self.operand("Value", word)) if is_number else apply("Passed", self.pointer(word))
        return self.index({"Class": "class", "Operation": "op"}[place], word)

    def local(self, word: str) -> str:
        return str(self.locals[word].index)

    def sort_of(self, word: str) -> str:
        """What a word stands for: `ptr`, `int`, `buf`, `view` or `literal`."""
        if word.startswith('"'):
            return "literal"
        if NUMERAL.fullmatch(word):
            return "int"
        return "ptr" if "." in word or word == "self" else self.locals[word].sort

    def pointer(self, word: str) -> str:
        base, mark, name = word.partition(".")
        holder = "H.This" if base == "self" else apply("H.Local", self.local(base))
        if not mark:
            return apply("Held", holder)
        of = (self.this if base == "self" else self.locals[base].class_name) or ""
        return apply("Field", holder, self.index("class", of), str(list(self.fields[of]).index(name)))
