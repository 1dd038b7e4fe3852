"""Which wrong bodies were disproved, by a committed file that has a line for each source of a crate that has some.

What the prover says of a wrong body follows from what a check of its function reads: the toolchain, the wrong body, the source that it is
in with the proofs of its functions, and what this sees of the crate and of those below: definitions, lemmas, and code without bodies. A
line holds the checksum of these, so it is valid only while all of them are the same. Of the toolchain its logic counts: kits of one logic
prove the same statements, so a line is valid in each of them. Of the wrong bodies their names and texts count, and not which file each is
in: so one can be moved.

A source is open if it has no such line, or an edit that is none.

Here is also what reads a crate's wrong bodies, as `wrong_bodies` says how they are written, and applies them to its files as they are.
A file of `must-fail/`, which `rt ci` tries by itself, is one edit in the same form; it has its name from the file, and says of which file
its texts are."""

import hashlib
import re
from collections import Counter
from collections.abc import Iterable, Iterator
from dataclasses import dataclass, replace
from datetime import date
from functools import cache
from pathlib import Path
from typing import NamedTuple

from tools.common import ROOT
from tools.crates import Crates, kit_of_readme

# the folders of edits, and how their files end
WRONG_BODIES, MUST_FAIL = "wrong-bodies", "must-fail"
ENDINGS = {WRONG_BODIES: ".edits", MUST_FAIL: ".edit"}

# the line above the edits of a source; a pair of texts, perhaps below the file that it is of; and an edit: its name, function and pairs
SOURCE = re.compile(r"^=== (src/\S+)$", re.MULTILINE)
PAIR = r"(?:file: *({0}\S+) *\n+)?old: ?({0}.*)\nnew: ?({0}.*)\n+"
CHANGE = re.compile(PAIR.format(""))
EDIT = re.compile(rf"^\[([a-z0-9]+(?:-[a-z0-9]+)*)\]\nfunction: (.*)\n+((?:{PAIR.format('?:')})+)", re.MULTILINE)
# how a function begins, by the layout that `rt fmt` gives: what it is indented by, and its name
HEAD = re.compile(r"( *)(?:pub(?:\([^)]*\))? )?(?:const |unsafe )*fn (\w+)")
EVERY_CLAUSE = "every clause of "


class BadEdit(Exception):
    """Why an edit says nothing of its function."""


@dataclass(frozen=True)
class WrittenEdit:
    name: str
    # the function that must be disproved, as its line names it
    function: str
    # the file, the old text and the new text of each change, in the order in which they apply
    changes: tuple[tuple[str, str, str], ...] = ()
    # why it is none, if so
    fault: str = ""


class WrongBody(NamedTuple):
    """Where the body of a function stands, by its lines counted from 0, and the wrong one."""

    file: str
    place: range
    text: str


@dataclass(frozen=True)
class Edit:
    label: str
    # the function that the prover must disprove
    function: str
    # the clauses of its contract each of which must be disproved, where the edit asks for all of them
    clauses: frozenset[str]
    # what it makes of each file that it changes
    files: dict[str, str]
    # where it changes no more than the function's body
    body: WrongBody | None


def written_edits(crate: Path, folders: list[str]) -> list[WrittenEdit]:
    """The edits in these folders of a crate, by their names. Each has a name of its own in the crate."""
    found = [(folder, it) for folder in ENDINGS for it in edits_in(crate / folder)]
    count = Counter(it.name for _, it in found)
    twice = "another edit of the crate has its name"
    marked = ((folder, it if count[it.name] == 1 else replace(it, fault=twice)) for folder, it in found)
    return sorted((it for folder, it in marked if folder in folders), key=lambda it: (it.name, it.function, it.changes))


def edits_in(folder: Path) -> Iterator[WrittenEdit]:
    """The edits of a folder; a file that holds none, or something else too, has a fault by its own name."""
    for path in sorted(it for it in folder.rglob("*") if not it.is_dir()):
        text, other, found = path.read_text(encoding="utf-8", errors="replace") + "\n", "", list[WrittenEdit]()
        # a file of its own has the name of its edit, and names its source itself
        above, *parts = SOURCE.split(f"[{path.stem}]\n{text}" if folder.name == MUST_FAIL else text)
        for source, part in zip(["", *parts[::2]], [above, *parts[1::2]], strict=True):
            found += [WrittenEdit(name, function, tuple(changes_in(pairs, source))) for name, function, pairs in EDIT.findall(part)]
            other += EDIT.sub("", part).strip()
        yield from found
        fault = "" if found else "it holds no edit"
        if other:
            fault = f"what stands there isn't understood: {other.splitlines()[0]}"
        if path.suffix != ENDINGS[folder.name]:
            fault = f"its name doesn't end in {ENDINGS[folder.name]}"
        if fault:
            yield WrittenEdit(path.relative_to(folder).as_posix(), "", fault=fault)


def changes_in(pairs: str, source: str) -> Iterator[tuple[str, str, str]]:
    """The changes of an edit, of that source up to where it names another."""
    for file, old, new in CHANGE.findall(pairs):
        source = file or source
        yield source, old, new


def read_edits(crate: Path, folders: list[str]) -> tuple[list[Edit], dict[str, str]]:
    """The edits in these folders of a crate, and why others there are none, by their labels."""
    good, bad = [], {}
    for it in written_edits(crate, folders):
        label = f"{crate.name}/{it.name}"
        try:
            good.append(applied(it, label, crate))
        except BadEdit as why:
            bad[label] = str(why)
    return good, bad


def applied(edit: WrittenEdit, label: str, crate: Path) -> Edit:
    if edit.fault:
        raise BadEdit(edit.fault)
    function = edit.function.removeprefix(EVERY_CLAUSE)
    if not re.fullmatch(r"\S+", function):
        raise BadEdit("its first line names no function")
    clauses = clauses_of(function, crate) if function != edit.function else frozenset()
    before: dict[str, str] = {}
    after: dict[str, str] = {}
    for file, old, new in edit.changes:
        if file not in before:
            source = crate / file
            if ".." in Path(file).parts or not file.startswith("src/") or not source.is_file():
                raise BadEdit(f"there is no file {file} below src/")
            before[file] = after[file] = source.read_text(encoding="utf-8")
        found = after[file].count(old)
        if found != 1:
            raise BadEdit(f"an 'old:' text is in {file} {found} times, and not once")
        after[file] = after[file].replace(old, new)
    changed = [it for it in before if before[it] != after[it]]
    if not changed:
        raise BadEdit("it changes nothing")
    is_narrow = len(changed) == 1 and not clauses
    body = wrong_body(function.rpartition("::")[2], changed[0], before[changed[0]], after[changed[0]]) if is_narrow else None
    return Edit(label, function, clauses, {it: after[it] for it in changed}, body)


def clauses_of(function: str, crate: Path) -> frozenset[str]:
    """The names of the clauses that a function of the crate ensures."""
    head = re.compile(rf"^ *pub fn {re.escape(function.rpartition('::')[2])}\(.*?^ *\{{", re.MULTILINE | re.DOTALL)
    found = [it[0] for file in sorted((crate / "src").rglob("*.rt")) for it in head.finditer(file.read_text(encoding="utf-8"))]
    clauses = frozenset(re.findall(r"^ *ensures (\w+) \{", found[0], re.MULTILINE)) if len(found) == 1 else frozenset()
    if not clauses:
        raise BadEdit(f"there is no one public function {function} with names for its clauses")
    return clauses


def wrong_body(name: str, file: str, before: str, after: str) -> WrongBody | None:
    """The wrong body of the function of that name, if nothing but its body was changed."""
    lines = before.splitlines(keepends=True)
    for other, body in functions_in(lines):
        head, end = "".join(lines[: body.start]), "".join(lines[body.stop :])
        if other == name and after.startswith(head) and after.endswith(end) and len(after) >= len(head) + len(end):
            return WrongBody(file, body, after[len(head) : len(after) - len(end)])
    return None


def functions_in(lines: list[str]) -> Iterator[tuple[str, range]]:
    """Each function that has a body of some lines, by the layout that `rt fmt` gives: its name, and the lines of its body."""
    for at, line in enumerate(lines):
        if not (head := HEAD.match(line)):
            continue
        last = re.compile(rf"{head[1]}(?:\S.*)?[{{}};]\s*")
        opens = next((to for to in range(at, len(lines)) if last.fullmatch(lines[to])), at)
        end = next((to for to in range(opens, len(lines)) if lines[to].rstrip() == f"{head[1]}}}"), None)
        if end is not None and lines[opens].rstrip().endswith("{"):
            yield head[2], range(opens + 1, end)


def edited_files(edits: list[Edit], crate: Path) -> dict[str, str]:
    """What edits of bodies, each of another function, make of the crate's files together."""
    bodies = [it.body for it in edits if it.body]
    texts = {}
    for file in sorted({it.file for it in bodies}):
        lines = (crate / file).read_text(encoding="utf-8").splitlines(keepends=True)
        # from the end of the file, so that what is still to be changed keeps its place
        for body in sorted((it for it in bodies if it.file == file), key=lambda it: -it.place.start):
            lines[body.place.start : body.place.stop] = [body.text]
        texts[file] = "".join(lines)
    return texts


FILE = "wrong-bodies.txt"
ABOUT = """\
# Written by `./tools/dev wrong-bodies`: the sources whose wrong bodies were all disproved, each after its crate, how many there are, when
# that was, and the checksum of what it followed from. A line whose checksum is another's is no verdict any more.
"""
LINE = re.compile(r"(\w+/[\w/]*) (\d+) (\d{4}-\d\d-\d\d) ([0-9a-f]{64})")
# how the functions of a file are proved, or one is, and how it is compiled
HOW = re.compile(r"\s*#!?\[(?:tactic\(.*\)|inline(?:\(\w+\))?|cold)\]")
COMPILED = re.compile(r"\s*#\[(?:inline(?:\(\w+\))?|cold)\]")
COMMENT = re.compile(r"\s*(?://|--)")
# the proofs of one function, in a folder of its name: nothing else reads them
OF_ONE = {"Answers.antt", "Invariants.antt", "Proof.antt"}
# what `rt version` says of the logic
LOGIC = re.compile(r"\blogic [0-9a-f]+")


def logic_in(said: str) -> str:
    """The logic that is named in what `rt version` prints, or all of that where it names none."""
    named = LOGIC.search(said)
    return named[0] if named else said


class Verdict(NamedTuple):
    # how many wrong bodies were disproved
    count: int
    day: str
    checksum: str


class OpenSource(NamedTuple):
    """A source whose wrong bodies are open. The oldest sorts first: one that never had a line, and then by the day of the last one."""

    # the day of its last verdict; none if it never had one
    day: str
    crate: str
    source: str
    # how many wrong bodies it has
    count: int


class Verdicts:
    """The file of verdicts of a repository. What is read of the crates is read once: what is changed later, another one of these sees."""

    def __init__(self, root: Path, logic: str) -> None:
        self.crates = Crates(root)
        self.logic = logic
        self.file = root / FILE

    def read(self) -> dict[str, Verdict]:
        """The verdicts that the file holds, by crate and source; a line in another form counts for nothing."""
        lines = self.file.read_text(encoding="utf-8").splitlines() if self.file.is_file() else []
        found = (LINE.fullmatch(it) for it in lines)
        return {it[1]: Verdict(int(it[2]), it[3], it[4]) for it in found if it}

    @cache
    def sources(self, crate: str) -> dict[str, list[WrittenEdit]]:
        """The wrong bodies of a crate, by the source that each changes first; those without a change by none."""
        found: dict[str, list[WrittenEdit]] = {}
        for it in written_edits(self.crates.folder(crate), [WRONG_BODIES]):
            source = it.changes[0][0].removeprefix("src/").removesuffix(".rt") if it.changes else ""
            found.setdefault(source, []).append(it)
        return dict(sorted(found.items()))

    def stands(self, crate: str, source: str) -> bool:
        """Whether the file holds a verdict on the source's wrong bodies as they are now."""
        verdict = self.read().get(f"{crate}/{source}")
        return verdict is not None and verdict.checksum == self.checksum(crate, source)

    def open_sources(self, crate: str) -> list[str]:
        """The sources of a crate whose wrong bodies have to be tried: those without such a verdict, and those with an edit that is none."""
        bad = read_edits(self.crates.folder(crate), [WRONG_BODIES])[1]
        return [
            source
            for source, edits in self.sources(crate).items()
            if not self.stands(crate, source) or any(f"{crate}/{it.name}" in bad for it in edits)
        ]

    def open_in(self, crates: Iterable[str]) -> "list[OpenSource]":
        days = {name: it.day for name, it in self.read().items()}
        found = ((crate, it, len(self.sources(crate)[it])) for crate in crates for it in self.open_sources(crate))
        return sorted(OpenSource(days.get(f"{crate}/{source}", ""), crate, source, count) for crate, source, count in found)

    def write(self, crate: str, checksums: dict[str, str]) -> None:
        """Adds that all wrong bodies of these sources are disproved by what has these checksums, in the place of older verdicts."""
        count = {f"{crate}/{source}": len(edits) for crate in self.crates.lines for source, edits in self.sources(crate).items()}
        verdicts = {name: it for name, it in self.read().items() if name in count}
        for name, checksum in ((f"{crate}/{source}", checksum) for source, checksum in checksums.items()):
            verdicts[name] = Verdict(count[name], date.today().isoformat(), checksum)
        lines = (f"{name} {it.count} {it.day} {it.checksum}\n" for name, it in sorted(verdicts.items()))
        self.file.write_text(ABOUT + "".join(lines), encoding="utf-8")

    @cache
    def checksum(self, crate: str, source: str) -> str:
        """The checksum of all that a check of the source's wrong bodies reads."""
        edits = self.sources(crate).get(source, [])
        parts: list[object] = [self.logic, self.crates.lines[crate], *map(self.seen, [*self.crates.below(crate), crate])]
        parts += [(self.name(it), whole(it)) for it in self.own_files(crate, edits)]
        parts += [(it.name, it.function, it.changes, it.fault) for it in edits]
        return hashlib.sha256("\n".join(map(repr, parts)).encode()).hexdigest()

    @cache
    def seen(self, crate: str) -> str:
        """The checksum of what a check of a function sees of a crate, but for what the function's own source has."""
        files = (it for it in self.crates.files(crate) if it.name not in OF_ONE)
        return hashlib.sha256("\n".join(f"{self.name(it)}\n{without_bodies(it)}" for it in files).encode()).hexdigest()

    def name(self, file: Path) -> str:
        return file.relative_to(self.crates.root).as_posix()

    def own_files(self, crate: str, edits: list[WrittenEdit]) -> list[Path]:
        """The files of a crate that count whole for wrong bodies: those that they change, those that have a function of a name that must be
        disproved, where no changed file has it, and the proofs of functions of all these."""
        functions = self.functions(crate)
        own = {file for it in edits for name, _, _ in it.changes if (file := self.crates.folder(crate) / name) in functions}
        named = {it.function.rpartition("::")[2] for it in edits}
        elsewhere = named - set().union(*(functions[it] for it in own))
        own |= {file for file, names in functions.items() if not names.isdisjoint(elsewhere)}
        proved = set().union(*(functions[it] for it in own))
        return [it for it in self.crates.files(crate) if it in own or it.name in OF_ONE and it.parent.name in proved]

    @cache
    def functions(self, crate: str) -> dict[Path, set[str]]:
        """The names of the functions of a crate's files with code."""
        return {it: {found[2] for found in map(HEAD.match, lines_of(it)) if found} for it in self.crates.files(crate) if it.suffix == ".rt"}


def lines_of(file: Path) -> list[str]:
    """The lines of code or definitions that are no comments."""
    return [it for it in file.read_text(encoding="utf-8").splitlines() if not COMMENT.match(it)]


def whole(file: Path) -> str:
    """What a check reads of a file; where a line of code ends is layout."""
    lines = lines_of(file)
    return " ".join(it.strip() for it in lines if not COMPILED.fullmatch(it)) if file.suffix == ".rt" else "\n".join(lines)


def without_bodies(file: Path) -> str:
    """What is seen of a file elsewhere: of code neither bodies, nor how functions are proved and compiled."""
    lines = lines_of(file)
    inside = {at for _, body in functions_in(lines) for at in body} if file.suffix == ".rt" else set()
    return "\n".join(it for at, it in enumerate(lines) if at not in inside and not HOW.fullmatch(it))


def list_of(found: list[OpenSource]) -> str:
    """How many wrong bodies are open, and of which sources, one in a line."""
    count = sum(it.count for it in found)
    said = ((it, f"last disproved on {it.day}" if it.day else "never disproved") for it in found)
    of_sources = f" of {len(found)} source{'s' if len(found) > 1 else ''}" if found else ""
    head = f"open: {count or 'no'} wrong {'bodies' if count > 1 else 'body'}{of_sources}"
    return "\n".join([head, *(f"  {it.crate}/{it.source}: {it.count}, {when}" for it, when in said)])


def number_of_open() -> int:
    """How many wrong bodies of this repository are open, by the toolchain that its README names, whichever is here. By no toolchain all
    would be open, which would say nothing."""
    named = kit_of_readme((ROOT / "README.md").read_text(encoding="utf-8"))
    if not named:
        raise ValueError("README.md doesn't say which toolchain the program was proved with")
    verdicts = Verdicts(ROOT, logic_in(named))
    return sum(it.count for it in verdicts.open_in(verdicts.crates.lines))
