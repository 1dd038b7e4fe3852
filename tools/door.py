"""The one door to the tools: finds the module behind a command, and hands it the further words. And what the gate runs: tools side by side,
with how long each took.

What a tool of the gate prints is shown as a whole once it has ended, below its name. Some tools spread their runs of the program over
processors themselves. Such a tool gets several where no other one waits for them, or where it takes long; RT_JOBS tells it how many."""

import contextlib
import io
import os
import subprocess
import sys
import time
from collections.abc import Iterator, Sequence
from functools import partial
from importlib import import_module
from pathlib import Path
from threading import Lock
from typing import Any, NamedTuple

from tools.common import ROOT, TOOLS, Tally, tally_of
from tools.crates import Step, run_steps

# the module of each command, with its function if that isn't `main`, in the order in which they are listed
COMMANDS = {
    "cases": "run_cases",
    "lost-messages": "run_cases:lose_messages",
    "broken-streams": "sessions:run_broken_streams",
    "progress": "progress",
    "failing-allocations": "failing_allocations",
    "pictures": "documents.pictures",
    "sarif": "documents.pictures:check_logs",
    "mistakes": "damaged_scripts:count_mistakes",
    "compare": "comparisons.compare",
    "fuzz": "damaged_scripts:fuzz",
    "theorems": "cases_to_theorems",
    "wrong-bodies": "edits.wrong_bodies",
    "pages": "documents.pages",
    "editors": "language:compare_editors",
    "help-files": "documents.help_files",
    "ci-examples": "sessions:try_examples_for_ci",
    "style": "layout:look_at_style",
    "layout": "layout",
    "build": "build",
    "workbench": "workbench",
}

HELP = ("-h", "--help", "help")


def about(command: str) -> str:
    """What a command does: the first paragraph of what its module or its function says of itself, as one line."""
    module, _, function = COMMANDS[command].partition(":")
    found: object = import_module(f"tools.{module}")
    return " ".join(((getattr(found, function) if function else found).__doc__ or "").partition("\n\n")[0].split())


def listed() -> str:
    width = max(map(len, COMMANDS))
    rows = (f"  {command:{width}}  {about(command)}" for command in COMMANDS)
    return "\n".join(["./tools/dev COMMAND [..]; ./tools/dev COMMAND --help says more of one.", "", *rows])


def main(words: list[str]) -> int:
    if not words or words[0] in HELP:
        print(listed())
        return 0
    command, *rest = words
    if command not in COMMANDS:
        print(f"./tools/dev: there is no command {command}\n\n{listed()}", file=sys.stderr)
        return 2
    # the name that its help has
    sys.argv[0] = f"dev {command}"
    module, _, function = COMMANDS[command].partition(":")
    return int(getattr(import_module(f"tools.{module}"), function or "main")(rest))


class Said(NamedTuple):
    status: int
    output: str
    messages: str


def said_by(command: str, *words: str | Path) -> Said:
    """How a command ends, and what it writes: for tests of tools."""
    with contextlib.redirect_stdout(io.StringIO()) as output, contextlib.redirect_stderr(io.StringIO()) as messages:
        try:
            status: int | str | None = main([command, *map(str, words)])
        except SystemExit as ended:
            status = ended.code
        if isinstance(status, str):
            print(status, file=sys.stderr)
    return Said(status if isinstance(status, int) else int(status is not None), output.getvalue(), messages.getvalue())


class ToolRun(NamedTuple):
    # its command and further words
    words: tuple[str, ...]
    # whether it spreads its runs over processors itself, and whether it takes so long that it begins with half of all
    is_spread: bool = False
    is_long: bool = False

    def name(self) -> str:
        return " ".join(self.words)


class Outcome(NamedTuple):
    name: str
    tally: Tally
    # how long it took by the clock
    seconds: float


def tool(command: str, *words: str | Path) -> list[str | Path]:
    return [sys.executable, "-I", TOOLS / "dev", command, *words]


class ToolRuns:
    def __init__(self) -> None:
        self.outcomes: list[Outcome] = []
        self.printing = Lock()

    def run(self, it: ToolRun, jobs: int) -> None:
        """Runs a tool with so many processors, and shows what it printed."""
        begun = time.monotonic()
        how: dict[str, Any] = {"stdin": subprocess.DEVNULL, "stdout": subprocess.PIPE, "stderr": subprocess.STDOUT, "errors": "replace"}
        ran = subprocess.run(tool(*it.words), cwd=ROOT, env={**os.environ, "RT_JOBS": str(jobs)}, text=True, **how)
        with self.printing:
            print(f"== {it.name()}\n{ran.stdout}", end="", flush=True)
            self.outcomes.append(Outcome(it.name(), tally_of(ran.stdout, ran.returncode), time.monotonic() - begun))

    def run_all(self, tools: Sequence[ToolRun], lanes: int) -> None:
        """Runs tools side by side on so many processors. They begin in this order."""
        steps = []
        for at, it in enumerate(tools):
            most = lanes if it.is_spread else 1
            steps.append(Step(it.name(), partial(self.run, it), -at, most=most, least=min(most, lanes // 2) if it.is_long else 1))
        run_steps(steps, lanes)

    def times(self) -> Iterator[str]:
        width = max(len(it.name) for it in self.outcomes)
        yield from (f"    {it.name:{width}} {it.seconds:6.1f} s" for it in sorted(self.outcomes, key=lambda it: -it.seconds))
