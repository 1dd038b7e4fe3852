"""What all tools share: where the repository's parts stand, one run of a program within a time, and how much passed and failed."""

import argparse
import os
import re
import subprocess
import sys
from collections.abc import Iterable
from dataclasses import dataclass
from inspect import cleandoc
from pathlib import Path
from typing import Any, NamedTuple

ROOT = Path(__file__).resolve().parent.parent
TOOLS, CASES, EXAMPLES, DOCS = (ROOT / it for it in ("tools", "cases", "examples", "docs"))

# the crate whose `main` the program is, and the program once it is built
PROGRAM_CRATE = "wb_main"
PROGRAM = ROOT / "crates" / PROGRAM_CRATE / "out" / PROGRAM_CRATE


def examples() -> list[Path]:
    return sorted(EXAMPLES.glob("*.oom"))


# the exit statuses of the program
FINE, FOUND, REFUSED, CUT, WANT_OF_MEMORY, READ_OR_WRITE_FAULT, COMMAND_LINE_FAULT = range(7)
# the greatest length of a heap, in bytes
CEILING = 16_777_216
# how long a run may take, in seconds, if a tool says nothing else
SECONDS = 120
# the variable that says how many columns messages may have, and the environment without it
COLUMNS = "COLUMNS"
ENVIRONMENT = {name: value for name, value in os.environ.items() if name != COLUMNS}

Word = str | bytes | Path


class Answer(NamedTuple):
    output: bytes
    messages: bytes
    status: int

    def lines(self) -> list[str]:
        return self.output.decode("ascii").splitlines()


class NoAnswer(Exception):
    """That a run took too long."""


def answer_of(program: Path, *words: Word, script: bytes = b"", seconds: float | None = SECONDS, **how: Any) -> Answer:
    """What a program answers to words and a script on standard input. `how` is handed to `subprocess.run`: other streams, for example."""
    if not program.exists():
        sys.exit(f"there is no program {program}: ./build builds that of the workbench, and `rt run` in its crate another")
    given: dict[str, Any] = {} if "stdin" in how else {"input": script}
    streams: dict[str, Any] = {"stdout": subprocess.PIPE, "stderr": subprocess.PIPE, "env": ENVIRONMENT} | given | how
    try:
        ran = subprocess.run([program, *words], timeout=seconds, **streams)
    except subprocess.TimeoutExpired as late:
        raise NoAnswer(f"no answer within {seconds} s") from late
    return Answer(ran.stdout or b"", ran.stderr or b"", ran.returncode)


def parser_of(about: str | None) -> argparse.ArgumentParser:
    """A parser of a command's words, whose help is what its module or function says of itself."""
    return argparse.ArgumentParser(description=cleandoc(about or ""), formatter_class=argparse.RawDescriptionHelpFormatter)


def program_parser(about: str | None, default: Path | None = PROGRAM) -> argparse.ArgumentParser:
    """A parser of the words of a command that runs the program, which has its whole path, since it may be run in another folder."""
    parser = parser_of(about)
    parser.add_argument("--program", type=lambda it: Path(it).resolve(), default=default, metavar="PATH", help="if not that of ./build")
    return parser


LAST_LINE = re.compile(r"^(\d+) passed, (\d+) failed\s*\Z", re.MULTILINE)


@dataclass
class Tally:
    passed: int = 0
    failed: int = 0

    def check(self, holds: bool, fault: str = "") -> None:
        """Counts whether something holds, and says what is wrong where it doesn't."""
        self.passed += holds
        self.failed += not holds
        if not holds and fault:
            print(fault, flush=True)

    def add(self, passed: int, failed: int) -> None:
        self.passed += passed
        self.failed += failed

    def end(self, may_be_none: bool = False) -> int:
        """Prints the last line, and gives the exit status: 0 where nothing failed, and something was tried or need not be."""
        print(f"{self.passed} passed, {self.failed} failed", flush=True)
        return 0 if not self.failed and (self.passed or may_be_none) else 1


class Trials(Tally):
    """Runs of a program that are tried, with a folder for their files, and how much was as it must be."""

    def __init__(self, program: Path, room: Path = ROOT) -> None:
        super().__init__()
        self.program, self.room = program, room

    def run(self, *words: Word, script: str | bytes = "", **how: Any) -> Answer:
        """What the program answers, where file names start at the top of the repository."""
        return answer_of(self.program, *words, script=script.encode() if isinstance(script, str) else script, **{"cwd": ROOT} | how)

    def look(self, what: str, holds: bool, shown: object = "") -> None:
        """Counts whether something holds, and says so where it doesn't."""
        self.check(holds, f"{what}: not so: {shown!r}")


def summed(tallies: Iterable[Tally]) -> Tally:
    known = list(tallies)
    return Tally(sum(it.passed for it in known), sum(it.failed for it in known))


def tally_of(said: str, status: int, may_be_none: bool = False) -> Tally:
    """What a command counts as that prints this and ends with this status. One that tries nothing has failed, unless there may be nothing
    to try."""
    last = LAST_LINE.search(said)
    told = Tally(*map(int, last.groups())) if last else Tally(0, 1)
    # a command that fails without a failure in its tally counts as one
    is_fault = status != 0 or not (told.passed or told.failed or may_be_none)
    return Tally(told.passed, told.failed or int(is_fault))
