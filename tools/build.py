"""Proves and builds the program.

    ./build
    ./build --install PREFIX    and copies it below PREFIX, with its man page and its completions

It says how far it is, in a line for each crate. Where a crate isn't proved, it shows what the prover says of it. The exit status is 0 where
the program is built, and installed if that is asked for, and else 70. `RT_JOBS` says how many processors to use, in the place of all.

`rt` builds the libraries of a program one after another. This takes the same steps by the module behind `rt`, and then
calls `rt run`, which builds whatever is missing."""

import os
import shutil
import subprocess
import sys
import tempfile
import time
from collections.abc import Callable
from functools import partial
from pathlib import Path
from threading import Lock
from typing import IO

from tools.common import PROGRAM, PROGRAM_CRATE, ROOT, parser_of
from tools.crates import NOT_BUILT, Crates, Step, alone_with, as_rt_has_them, building, is_library_built, processors, run_steps
from tools.documents.help_files import BASH, FISH, MAN_PAGE, NAME, ZSH

# the most processes for one crate: further ones would find nothing to do
AT_ONCE = 8
# a crate of fewer lines gains nothing from further processes: most of its time is what it loads
LARGE = 2_000
# a crate of so many lines is what all that stands on it waits for longest: it gets half of the processors at once
LARGEST = 10_000
# where each file goes that is installed, below the prefix
PLACES = {
    PROGRAM: f"bin/{NAME}",
    MAN_PAGE: f"share/man/man1/{NAME}.1",
    BASH: f"share/bash-completion/completions/{NAME}",
    ZSH: f"share/zsh/site-functions/_{NAME}",
    FISH: f"share/fish/vendor_completions.d/{NAME}.fish",
}


class Unproved(Exception):
    """That a crate isn't proved."""


class Build:
    """Builds the libraries that some crates stand on, and the program where its crate is among them; says how far it is."""

    def __init__(self, crates: Crates, names: list[str]) -> None:
        self.crates, self.names = crates, names
        self.libraries = list(dict.fromkeys(it for name in names for it in crates.below(name)))
        self.asked = as_rt_has_them(crates.root, self.libraries)
        self.count, self.begun, self.done = len(self.libraries) + names.count(PROGRAM_CRATE), time.monotonic(), 0
        self.lock = Lock()

    def steps(self, lanes: int) -> list[Step]:
        """The steps that build the libraries. Where the way from a crate up is long, by its lines, it is built soon."""
        lines = {it: self.crates.lines_of(it) for it in self.libraries}
        way: dict[str, int] = {}
        for crate in reversed(self.libraries):
            way[crate] = lines[crate] + max((way[it] for it in way if crate in self.crates.uses(it)), default=0)
        most = {it: AT_ONCE if lines[it] >= LARGE else 1 for it in self.libraries}
        least = {it: lanes // 2 if lines[it] >= LARGEST else 1 for it in self.libraries}
        return [Step(it, partial(self.build_library, it), way[it], self.crates.uses(it), most[it], least[it]) for it in self.libraries]

    def prove(self, crate: str, is_proved_by: Callable[[IO[str]], bool]) -> None:
        """Has a crate proved by what writes into a log; shows that and raises `Unproved` where it isn't, and else says how far the build
        is."""
        with tempfile.TemporaryFile("w+", errors="replace") as log:
            is_proved = is_proved_by(log)
            log.seek(0)
            with self.lock:
                self.done += is_proved
                minutes, seconds = divmod(round(time.monotonic() - self.begun), 60)
                far = f"{crate} proved, {self.done} of {self.count}, {minutes} min {seconds:02} s"
                print(far if is_proved else f"{log.read()}{crate} is not proved", file=sys.stderr, flush=True)
        if not is_proved:
            raise Unproved(f"{crate} is not proved")

    def build_library(self, name: str, jobs: int) -> None:
        self.prove(name, partial(is_library_built, self.asked[name], jobs))

    def build_program(self, jobs: int, log: IO[str]) -> bool:
        """Builds the program once its libraries are built. `rt` does so as it runs it: an empty script is refused, so that the
        status says nothing of the build."""
        PROGRAM.unlink(missing_ok=True)
        words = ["rt", "run", "--jobs", str(min(jobs, AT_ONCE)), "--", "run", os.devnull]
        subprocess.run(words, cwd=self.crates.folder(PROGRAM_CRATE), stdin=subprocess.DEVNULL, stdout=log, stderr=log)
        return PROGRAM.exists()

    def run(self, lanes: int) -> None:
        """Builds the libraries while no other `rt` works on them, and then the program if it is wanted; raises `Unproved` where a crate
        isn't proved."""
        with alone_with(self.asked.values()):
            run_steps(self.steps(lanes), lanes)
        if PROGRAM_CRATE in self.names:
            self.prove(PROGRAM_CRATE, partial(self.build_program, lanes))


def build_if_older() -> int:
    """Builds the program, if it isn't built or is older than what it is made of."""
    crates = Crates()
    with building():
        if PROGRAM.exists() and not crates.why_old():
            print(f"{PROGRAM.relative_to(ROOT)} is built, and newer than its sources")
            return 0
        try:
            Build(crates, [PROGRAM_CRATE]).run(processors())
        except Unproved as why:
            print(f"the program was not built: {why}", file=sys.stderr, flush=True)
            # what is still being proved ends with this process
            os._exit(NOT_BUILT)
    print(f"{PROGRAM.relative_to(ROOT)} is proved and built")
    return 0


def install(prefix: Path, places: dict[Path, str] = PLACES) -> None:
    """Copies all files below the prefix, and names them. Each replaces the one before as a whole, so that a program that runs keeps its
    own."""
    for source, place in places.items():
        target = prefix / place
        target.parent.mkdir(parents=True, exist_ok=True)
        beside = target.with_name(f".{target.name}.new")
        shutil.copyfile(source, beside)
        beside.chmod(0o755 if os.access(source, os.X_OK) else 0o644)
        beside.replace(target)
        print(target)


def main(words: list[str]) -> int:
    parser = parser_of(__doc__)
    parser.add_argument("--install", type=Path, metavar="PREFIX", help="copy the program, its man page and its completions below PREFIX")
    given = parser.parse_args(words)
    status = build_if_older()
    try:
        if given.install and not status:
            install(given.install)
    except OSError as fault:
        print(f"the program was not installed: {fault}", file=sys.stderr, flush=True)
        return NOT_BUILT
    return status
