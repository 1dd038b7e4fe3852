"""The worked cases in `cases/`: groups of scripts, with the commands that are run over them and their answers.

`cases/README.md` shows how a group is written, and what stands in its texts behind a backslash. Without repetitions that can be done in one
way only, so that what is read and written again stays as it is. A group is named by its file below `cases/`, and all groups of a folder by
that of the folder: `guide`, `classes/fields`, `classes`.
"""

import re
import shlex
from collections.abc import Iterator
from dataclasses import dataclass, field
from itertools import product, zip_longest
from pathlib import Path
from string import ascii_lowercase

from tools.common import CASES

SUFFIX, TABLE = ".cases", " (table)"
MARKER = re.compile(r"(?:===|---|\$) |\$$", re.MULTILINE)
# lines of a text; a script or a table with what is below it; and a case, with the texts of its answer
TEXT = rf"(?:(?!{MARKER.pattern}).*\n)*"
BLOCK = re.compile(rf"^=== (.*)\n({TEXT})((?:(?!=== ).*\n)*)", re.MULTILINE)
CASE = re.compile(rf"^\$( .*)?\n({TEXT})(?:--- stderr\n({TEXT}))?--- status (0|[1-9][0-9]*)\n", re.MULTILINE)
PLAIN = re.compile(rb"([\x20-\x7e]*\n)*")
NAMED = re.compile(r"(?:^| ) # (\S+)$")

ESCAPES = {"n": "\n", "t": "\t", "r": "\r", "\\": "\\", "e": "", "\n": ""}
REPEAT = r"\\\{([^\\:]*):((?:\\[^}]|[^\\])*)\\\}"
ALONE = re.compile(rf"^{REPEAT}\n", re.DOTALL | re.MULTILINE)
ESCAPE = re.compile(rf"{REPEAT}|\\(?:x([0-9a-f]{{2}})|(\n|.|\Z))", re.DOTALL)
COUNTER = re.compile(r"\\(?:#(\d?)|.)", re.DOTALL)
NUMBERS = re.compile(r"(\d+)\.\.(\d+)(?: by ([1-9]\d*))?")
LETTERS = re.compile(r"([a-z]+)\.\.([a-z]+)")


class CaseError(Exception):
    """Why something is no case, and where that stands."""


def meaning(text: str) -> bytes:
    return meant(text).encode("latin-1")


def meant(text: str) -> str:
    """What a text means, a character for each byte."""

    def one(escape: re.Match[str]) -> str:
        ranges, repeated, byte, code = escape.groups()
        if repeated is not None:
            return meant("".join(repetitions(ranges, repeated)))
        if byte is None and code not in ESCAPES:
            raise CaseError(f"{escape[0].strip()} is no escape")
        return chr(int(byte, 16)) if byte else ESCAPES[code]

    return ESCAPE.sub(one, ALONE.sub(r"\\{\1:\2\n\\}", text))


def repetitions(ranges: str, text: str) -> Iterator[str]:
    """A text for each member of ranges, which stand side by side; or so many times."""
    members = [range_of(it) for it in ranges.split(", ")]
    if len(set(map(len, members))) != 1:
        raise CaseError(f"the ranges {ranges} have not as many members each")
    if other := next((it for it in COUNTER.finditer(text) if it[1] and not 0 < int(it[1]) <= len(members)), None):
        raise CaseError(f"{other[0]} is no range of {ranges}")
    for row in zip(*members):
        yield COUNTER.sub(lambda it: it[0] if it[1] is None else row[int(it[1] or 1) - 1], text)


def range_of(text: str) -> list[str]:
    """The members of a range; of a number as many empty ones."""
    if text.isdecimal():
        return [""] * int(text)
    if numbers := NUMBERS.fullmatch(text):
        return [str(it) for it in range(int(numbers[1]), int(numbers[2]) + 1, int(numbers[3] or 1))]
    letters = LETTERS.fullmatch(text)
    if not letters or len(letters[1]) != len(letters[2]):
        raise CaseError(f"{text} is no range")
    return [it for it in map("".join, product(ascii_lowercase, repeat=len(letters[1]))) if letters[1] <= it <= letters[2]]


def spelled_line(line: str) -> str:
    """A line as it is written, without its line feed. It ends with no blank, and isn't taken for one that begins a part of a case."""
    text = re.sub(" $", r"\\x20", line.encode("unicode_escape").decode("ascii"))
    return f"\\x{ord(text[0]):02x}{text[1:]}" if MARKER.match(text) else text


def spelled(text: bytes) -> list[str]:
    *lines, last = text.decode("latin-1").split("\n")
    return [*map(spelled_line, lines), *([spelled_line(last) + "\\"] if last else [])]


@dataclass(frozen=True)
class Case:
    # the name ends with the command that is run, after a dot; no other case of the group has it
    name: str
    group: str
    script: bytes
    # arguments that name files do so from the top of the repository
    args: list[str]
    stdout: bytes
    status: int
    # None where standard error isn't compared
    stderr: bytes | None

    @property
    def place(self) -> str:
        return f"{self.group}/{self.name}"


@dataclass
class Block:
    """A script with the cases that run it, or the lines of a table; its line in the file, and its name."""

    line: int
    name: str
    script: bytes = b""
    cases: list[Case] = field(default_factory=list)
    table: list[str] | None = None


@dataclass
class Group:
    name: str
    file: Path
    # what is said at its top
    head: list[str] = field(default_factory=list)
    blocks: list[Block] = field(default_factory=list)
    # the lines of texts with repetitions
    spelling: dict[bytes, list[str]] = field(default_factory=dict)

    def cases(self) -> list[Case]:
        return [case for block in self.blocks for case in block.cases]

    def text(self) -> str:
        parts = [*([self.head] if self.head else []), *map(self.lines_of_block, self.blocks)]
        return "\n\n".join("\n".join(part) for part in parts) + "\n"

    def lines_of_block(self, block: Block) -> list[str]:
        if block.table is not None:
            return [f"=== {block.name}{TABLE}", *block.table]
        cases = (line for it in block.cases for line in self.lines_of(it, block.name))
        return [f"=== {block.name}", *self.lines_of_text(block.script), *cases]

    def lines_of(self, case: Case, script_name: str = "") -> list[str]:
        """The lines of a case below its script. Its name is said where it isn't that of the script with the first argument."""
        lines = ["$ " + shlex.join(case.args) if case.args else "$"]
        if case.name != default_name(script_name, case.args):
            lines[0] += f"  # {case.name}"
        messages = [] if case.stderr is None else ["--- stderr", *self.lines_of_text(case.stderr)]
        return [*lines, *self.lines_of_text(case.stdout), *messages, f"--- status {case.status}"]

    def lines_of_text(self, text: bytes) -> list[str]:
        return self.spelling.get(text) or spelled(text)

    def text_of(self, whole: str) -> bytes:
        """What the lines of a text mean. Repetitions are kept for when they are written."""
        # most texts have nothing that means anything else
        text = meaning(whole) if "\\" in whole else whole.encode("ascii")
        if "\\{" in whole and text:
            self.spelling[text] = whole.splitlines()
        return text

    def add(self, line: int, title: str, own: str, below: str) -> None:
        """Adds a script with the cases below it, or a table, that begins in a line of the file."""
        is_table, block = title.endswith(TABLE), Block(line, title.removesuffix(TABLE))
        if other := (below if is_table else CASE.sub("", below)).strip("\n"):
            raise CaseError(f"it can't stand here: {other.splitlines()[0]}")
        self.blocks.append(block)
        if is_table:
            block.table = own.rstrip("\n").splitlines()
            return
        block.script = self.text_of(own)
        for given, stdout, stderr, status in (it.groups() for it in CASE.finditer(below)):
            named, words = NAMED.search(given or ""), shlex.split(NAMED.sub("", given or ""))
            name, messages = named[1] if named else default_name(title, words), None if stderr is None else self.text_of(stderr)
            block.cases.append(Case(name, self.name, block.script, words, self.text_of(stdout), int(status), messages))


def default_name(script_name: str, words: list[str]) -> str:
    """The name of a case of which nothing else is said: that of its script, and its command."""
    return ".".join([script_name, *words[:1]])


def read(file: Path, name: str) -> Group:
    held = file.read_bytes()
    if not PLAIN.fullmatch(held):
        raise CaseError(f"{file}: there are bytes other than printable ASCII, or the last line has no line feed")
    text = held.decode("ascii")
    group = Group(name, file, re.split("^=== ", text, maxsplit=1, flags=re.MULTILINE)[0].rstrip("\n").splitlines())
    for it in BLOCK.finditer(text):
        line = text.count("\n", 0, it.start()) + 1
        try:
            group.add(line, *it.groups())
        except (CaseError, ValueError) as error:
            raise CaseError(f"{file}:{line}: `{it[1]}`: {error}") from None
    look_at(group, text.splitlines())
    return group


def look_at(group: Group, lines: list[str]) -> None:
    """Looks whether a group is one, and written in the one way that there is."""
    pairs = enumerate(zip_longest(group.text().split("\n")[:-1], lines), 1)
    if other := next((f"{at}: there must be {'nothing' if one is None else f'`{one}`'}" for at, (one, it) in pairs if one != it), ""):
        raise CaseError(f"{group.file}:{other}")
    if block := next((it for it in group.blocks if it.table is None and not it.cases), None):
        raise CaseError(f"{group.file}:{block.line}: no case is below {block.name}")
    if other := next((it for it in group.head if it and not it.startswith("#")), ""):
        raise CaseError(f"{group.file}: `{other}` stands above the first script, and is no comment")
    names = [it.name for it in group.cases()] + [it.name for it in group.blocks if it.table is not None]
    if twice := next((it for it in names if names.count(it) > 1), ""):
        raise CaseError(f"{group.file}: two cases are called {twice}")


def files_in(folder: Path, name: str = "") -> dict[str, Path]:
    """The files of a group or of the groups in a folder of `folder`, by the names of the groups; all if none is named."""
    files = {it.relative_to(folder).with_suffix("").as_posix(): it for it in sorted(folder.rglob(f"*{SUFFIX}"))}
    return {group: it for group, it in files.items() if not name or f"{group}/".startswith(f"{name}/")}


def cases_of(name: str) -> list[Case]:
    """The cases of a group, or of all groups of a folder; of all where no name is given."""
    return [case for group, file in files_in(CASES, name).items() for case in read(file, group).cases()]


def case_called(place: str) -> Case:
    """The case with this name, which comes after the name of its group or of a folder of groups: `guide/two-cells.run`."""
    group, _, name = place.rpartition("/")
    found = [it for it in cases_of(group) if it.name == name]
    if len(found) != 1:
        raise LookupError(f"{len(found)} cases are called {place}")
    return found[0]
