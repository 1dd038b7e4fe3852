"""Tries wrong bodies in batches, by checks of copies of a crate within a time: reads what the checker says of each function, says what came
of each wrong body, and writes the line of each source all of whose wrong bodies were disproved."""

import math
import os
import re
import shutil
import subprocess
import tempfile
import time
from collections import Counter, defaultdict
from collections.abc import Iterator
from contextlib import contextmanager, suppress
from pathlib import Path
from threading import Lock
from typing import IO, NamedTuple

from tools.common import Tally
from tools.crates import Crates, take_as_built
from tools.edits.verdicts import Edit, Verdicts, edited_files

LIBRARY = Path("out/rlib")
STATUS = re.compile(r"fn (\S+): (proved|no proof|not proved)(?:: |; |$)(.*)")
# what is said of a function that calls what isn't proved; of one of the second sort nothing else is said before that is proved
WAITS = re.compile(
    r"(?:; )?(?:it calls .*, which (?:is|are) not proved"
    r"|the borrow checker's part in its proof is not made yet: a call of `[^`]*`, which has no proof: .*)$"
)
GOAL = re.compile(r"note: (?:\./)?src/\S+: it is not proved that ")
CLAUSE = re.compile(r"\(`[^`]*\bclause-(\w+)`\)")
PROOF_FILE = re.compile(r"((?:\./)?proofs/(\S+)/[A-Za-z]+\.antt:\d+):\d+: error: (.*)")
# an error of a text that the checker cannot read, where a false statement reads well
UNREAD = re.compile(r"(?:\./)?(?:src|specs)/\S+?:\d+:\d+: error: (`[^`]*`: )?(.*)")
NO_TEXT = re.compile(r"is not in scope|has no field|is no name|operand is missing|expected the end|cannot continue")


class OutOfTime(Exception):
    """That a check was ended before it had said all."""


class Checks:
    """Checks that may run for so many seconds together, by the clock, from now on."""

    def __init__(self, seconds: float = math.inf) -> None:
        self.end = time.monotonic() + seconds

    def stop(self) -> None:
        self.end = -math.inf

    def are_over(self) -> bool:
        return time.monotonic() >= self.end

    def run(self, words: list[str], folder: Path, log: IO[str]) -> None:
        """Runs a check in a folder, and adds what it prints to a log. Where the time is over before its end, ends it, and raises
        `OutOfTime`: all that `rt` starts ends with it."""
        if self.are_over():
            raise OutOfTime
        # in a session of its own an interrupt of this process doesn't reach it
        with subprocess.Popen(
            words, cwd=folder, stdin=subprocess.DEVNULL, stdout=log, stderr=subprocess.STDOUT, start_new_session=True
        ) as check:
            while check.poll() is None:
                if self.are_over():
                    check.kill()
                    raise OutOfTime
                with suppress(subprocess.TimeoutExpired):
                    check.wait(0.2)


class Said(NamedTuple):
    """What a check says of a function: `PROVED`, or `disproved` for its own sake; nothing if it only waits for what it calls."""

    text: str
    # the clauses of its contract that are open goals
    clauses: frozenset[str] = frozenset()


class Verdict(NamedTuple):
    """What a check says of each function, and why it says nothing of a proof, if so."""

    functions: dict[str, Said]
    unread: str = ""


def is_disproof(text: str) -> bool:
    """Whether this says that a function was disproved for its own sake."""
    return text == "disproved" or text.startswith("disproved, ")


def read_verdict(text: str) -> Verdict:
    functions: dict[str, Said] = {}
    # where a function has an error in a proof file of its own
    errors: dict[str, str] = {}
    goals: list[str] = []
    unread = ""
    for line in text.splitlines():
        if broken := UNREAD.match(line):
            if not broken[1] or NO_TEXT.search(re.sub(r"`[^`]*`", "", broken[2])):
                unread = unread or line
        elif error := PROOF_FILE.match(line):
            # a file that another one's error leaves out says nothing of its function
            if "was not admitted" not in error[3]:
                errors.setdefault(error[2].replace("/", "::"), f"disproved, by {error[1]}")
        elif GOAL.match(line):
            goals.append(line)
        elif told := STATUS.match(line):
            name, word, rest = told.groups()
            disproof = "disproved" if goals or WAITS.sub("", rest) else errors.get(name.partition("::")[2], "")
            functions[name] = Said("PROVED" if word == "proved" else disproof, frozenset(CLAUSE.findall("\n".join(goals))))
            goals = []
    if not unread and not re.search(r"^only=\d+", text, re.M):
        # what a check that ended early said
        lines = text.strip().splitlines() or ["the check printed nothing"]
        unread = next((it for it in lines if re.search(r"error|killed", it)), lines[-1])
    return Verdict(functions, unread)


def check(checks: Checks, room: Path, crate: str, functions: list[str], jobs: int) -> Verdict:
    """Checks some functions of the crate in a room, and what they call."""
    only = [word for it in functions for word in ("--only", it)]
    with tempfile.TemporaryFile("w+", errors="replace") as log:
        checks.run(["rt", "check", "--jobs", str(jobs), *only], room / "crates" / crate, log)
        log.seek(0)
        return read_verdict(log.read())


def make_room(crates: Crates, crate: str, room: Path) -> None:
    """Copies what a check of the crate needs into a new folder, with the libraries below it as they are built."""
    room.mkdir()
    lower = crates.below(crate)
    (room / "crates.txt").write_text("".join(f"{crates.lines[it]}\n" for it in [*lower, crate]), encoding="utf-8")
    shutil.copy2(crates.root / "HANDLES", room)
    for name in [*lower, crate]:
        crates.copy(name, room / "crates" / name)
    for name in lower:
        shutil.copytree(crates.folder(name) / LIBRARY, room / "crates" / name / LIBRARY, copy_function=link)
    take_as_built(room, crate)


def link(source: str, target: str) -> str:
    """Gives a file that is only ever removed, and not written again, a second name; or else copies it."""
    try:
        os.link(source, target)
    except OSError:
        shutil.copy2(source, target)
    return target


class Batch(NamedTuple):
    """Edits that are tried together, each of another function."""

    crate: str
    edits: list[Edit]


def batches(crate: str, edits: list[Edit], most: int) -> Iterator[Batch]:
    """Batches of at most so many edits, in their order as far as that can be."""
    while edits:
        of_function: dict[str, Edit] = {}
        for it in edits:
            of_function.setdefault(it.function, it)
        some = list(of_function.values())[:most]
        yield Batch(crate, some)
        edits = [it for it in edits if it not in some]


class Trial:
    """Tries wrong bodies on copies of their crates, as long as there is time for checks."""

    def __init__(self, verdicts: Verdicts, folder: Path, checks: Checks, sources: dict[str, list[str]]) -> None:
        self.verdicts, self.crates, self.checks, self.folder = verdicts, verdicts.crates, checks, folder
        # the sources, of each crate, whose lines are to be written, with what these follow from now
        self.unsettled = {crate: {it: verdicts.checksum(crate, it) for it in its} for crate, its in sources.items()}
        # what is said of each edit so far, by its label, and of functions that have none
        self.said: dict[str, str] = {}
        self.tally = Tally()
        # the copies of each crate, and those that no check is in
        self.rooms: Counter[str] = Counter()
        self.idle: dict[str, list[Path]] = defaultdict(list)
        self.lock = Lock()

    @contextmanager
    def room(self, crate: str) -> Iterator[Path]:
        """A copy of the crate that no other check is in."""
        with self.lock:
            is_new = not self.idle[crate]
            self.rooms[crate] += is_new
            name = crate if self.rooms[crate] == 1 else f"{crate}-{self.rooms[crate]}"
            room = self.folder / name if is_new else self.idle[crate].pop()
        if is_new:
            make_room(self.crates, crate, room)
        yield room
        self.idle[crate].append(room)

    def judge(self, batch: Batch, jobs: int) -> None:
        """Judges a batch, up to where the time is over. What is said of each edit is kept as soon as it is known."""
        if self.checks.are_over():
            return
        crate, said = batch.crate, dict[str, str]()
        # one that changes more than its function's body is checked by itself
        together, alone = [it for it in batch.edits if it.body], [it for it in batch.edits if not it.body]
        with self.room(crate) as room, suppress(OutOfTime):
            while together:
                verdict = self.check(room, crate, together, jobs)
                strays = {name for name, it in verdict.functions.items() if is_disproof(it.text)} - {it.function for it in together}
                said |= {f"{crate}: {it}": "is disproved, and has no wrong body" for it in sorted(strays)}
                judged = [(it, what_is_said(it, verdict)) for it in together]
                said |= {it.label: text for it, text in judged if text}
                waiting = [it for it, text in judged if not text]
                # those that only waited for others are tried again without these, as long as some are judged so
                if len(waiting) == len(together):
                    alone += waiting
                    break
                together = waiting
            for it in alone:
                said[it.label] = what_is_said(it, self.check(room, crate, [it], jobs)) or "disproved only through what it calls"
        with self.lock:
            self.say(said)
            self.settle(crate)

    def check(self, room: Path, crate: str, edits: list[Edit], jobs: int) -> Verdict:
        copy = room / "crates" / crate
        for part in ("src", "proofs"):
            shutil.rmtree(copy / part, ignore_errors=True)
        self.crates.copy(crate, copy)
        for file, text in (edited_files(edits, self.crates.folder(crate)) if edits[0].body else edits[0].files).items():
            (copy / file).write_text(text, encoding="utf-8")
        return check(self.checks, room, crate, sorted(it.function for it in edits), jobs)

    def say(self, said: dict[str, str]) -> None:
        """Prints what is said of edits, and counts it."""
        self.said |= said
        disproved = sum(map(is_disproof, said.values()))
        print("".join(f"{label}: {text}\n" for label, text in sorted(said.items())), end="", flush=True)
        self.tally.add(disproved, len(said) - disproved)

    def settle(self, crate: str) -> None:
        """Writes the lines of those sources of a crate all of whose edits were disproved, if what they follow from is the same still: none
        where a function without a wrong body was disproved."""
        unsettled, sources = self.unsettled.get(crate, {}), self.verdicts.sources(crate)
        done = [it for it in unsettled if all(is_disproof(self.said.get(f"{crate}/{edit.name}", "")) for edit in sources[it])]
        if not done or any(it.startswith(f"{crate}: ") for it in self.said):
            return
        now = Verdicts(self.crates.root, self.verdicts.logic)
        settled = {it: unsettled[it] for it in done if unsettled[it] == now.checksum(crate, it)}
        if settled:
            now.write(crate, settled)
        self.unsettled[crate] = {it: checksum for it, checksum in unsettled.items() if it not in settled}


def what_is_said(edit: Edit, verdict: Verdict) -> str:
    """What a check says of an edit's function; nothing where it only waits for what it calls."""
    if verdict.unread:
        return f"BAD EDIT: the edited text can't be checked: {verdict.unread}"
    if edit.function not in verdict.functions:
        return f"BAD EDIT: a check of the crate names no function {edit.function}"
    said = verdict.functions[edit.function]
    standing = edit.clauses - said.clauses
    return f"PROVED in its clauses {', '.join(sorted(standing))}" if standing and said.text != "PROVED" else said.text
