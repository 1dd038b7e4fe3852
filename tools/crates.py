"""The repository's crates: which stand on which, what each is made of, where the program is built, and how work on several crates is done
side by side; and what the tools take of the toolchain's own module behind `rt`, step by step. What a tool does with a crate stands in that
tool.

The parts of that module are private to the toolchain, and all that the tools take of them is here. Where another toolchain lacks one, or
has it with other words, Python names it, and it is to be mended here; until then `rt run` in crates/wb_main builds the program."""

import fcntl
import os
import re
import shutil
import subprocess
import sys
import tempfile
import time
from collections.abc import Callable, Iterable, Iterator
from concurrent.futures import FIRST_COMPLETED, Future, ThreadPoolExecutor, wait
from contextlib import contextmanager
from dataclasses import dataclass, field
from functools import cache
from importlib import import_module
from itertools import chain
from pathlib import Path
from typing import IO, Any

from tools.common import PROGRAM, PROGRAM_CRATE, ROOT, TOOLS

# the folders that a crate is made of: its wrong bodies, and what it is run on, are no part of it
PARTS = ("src", "specs", "proofs")
# the exit status of ./workbench and ./build where there is no program to answer
NOT_BUILT = 70
# what a process of the prover takes at most, and a tool with the program that it runs, in bytes
MEMORY, RUN_MEMORY = 3 << 30, 512 << 20


class Crates:
    def __init__(self, root: Path = ROOT) -> None:
        self.root = root
        rows = (it.partition("#")[0].strip() for it in (root / "crates.txt").read_text(encoding="utf-8").splitlines())
        self.lines = {it.partition(":")[0].split()[0]: it for it in rows if it}

    def folder(self, crate: str) -> Path:
        return self.root / "crates" / crate

    def uses(self, crate: str) -> list[str]:
        return [it for it in self.lines[crate].partition(":")[2].split() if it in self.lines]

    def below(self, crate: str) -> list[str]:
        """The crates that this one stands on, each after those that it stands on itself."""
        found: list[str] = []
        for name in self.uses(crate):
            found += [it for it in [*self.below(name), name] if it not in found]
        return found

    def files(self, crate: str) -> list[Path]:
        walked = (it for part in PARTS for it in (self.folder(crate) / part).rglob("*"))
        return sorted(it for it in walked if it.is_file())

    def lines_of(self, crate: str) -> int:
        return sum(it.read_bytes().count(b"\n") for it in self.files(crate))

    def copy(self, crate: str, target: Path) -> None:
        for part in PARTS:
            if (source := self.folder(crate) / part).is_dir():
                shutil.copytree(source, target / part, dirs_exist_ok=True)

    def why_old(self) -> str:
        """Why the program of ./build gives old answers; nothing where it is newer than its sources: files, and folders, which show what was
        removed."""
        parts = [self.folder(crate) / part for crate in [*self.below(PROGRAM_CRATE), PROGRAM_CRATE] for part in PARTS]
        inside = (Path(folder, it) for part in parts for folder, _, files in os.walk(part) for it in [*sorted(files), "."])
        built = PROGRAM.stat().st_mtime
        newer = next((it for it in chain([self.root / "crates.txt"], inside) if it.stat().st_mtime > built), None)
        return f"the program is older than its sources: {newer.relative_to(self.root)} is newer" if newer else ""


@contextmanager
def alone_in(folder: Path, waiting: str) -> Iterator[None]:
    """Keeps other calls that take this folder from going on meanwhile, and says so where it waits for one."""
    lock = os.open(folder, os.O_RDONLY)
    try:
        try:
            fcntl.flock(lock, fcntl.LOCK_EX | fcntl.LOCK_NB)
        except BlockingIOError:
            print(waiting, file=sys.stderr, flush=True)
            fcntl.flock(lock, fcntl.LOCK_EX)
        yield
    finally:
        os.close(lock)


@contextmanager
def building() -> Iterator[None]:
    """Keeps other calls from building the program meanwhile. What is changed after it has begun counts as newer than the
    program that is built."""
    with alone_in(TOOLS, "waiting for another call to build the program"):
        began = time.time()
        before = PROGRAM.stat().st_ino if PROGRAM.exists() else None
        yield
        if PROGRAM.exists() and PROGRAM.stat().st_ino != before:
            os.utime(PROGRAM, (began, began))


def is_being_built() -> bool:
    lock = os.open(TOOLS, os.O_RDONLY)
    try:
        fcntl.flock(lock, fcntl.LOCK_SH | fcntl.LOCK_NB)
    except BlockingIOError:
        return True
    finally:
        os.close(lock)
    return False


def processors(memory: int = MEMORY) -> int:
    """How many processes that take so much memory the processors and the free memory hold at once, or as many as the variable RT_JOBS
    says."""
    if (given := os.environ.get("RT_JOBS", "")).isdigit():
        return max(1, int(given))
    lines = Path("/proc/meminfo").read_text(encoding="utf-8").splitlines()
    kibibytes = next(int(it.split()[1]) for it in lines if it.startswith("MemAvailable:"))
    return max(1, min(len(os.sched_getaffinity(0)), kibibytes * 1024 // memory))


@dataclass
class Step:
    crate: str
    # does it, with so many processors
    work: Callable[[int], None]
    # those of the highest rank begin first
    rank: int
    # the crates whose steps must have ended
    waits: list[str] = field(default_factory=list)
    # how many processors it can use, and how many it is given at once, even where others are still at work on them
    most: int = 4
    least: int = 1


def run_steps(steps: list[Step], lanes: int) -> None:
    """Runs steps side by side, each once those that it waits for have ended. Several processes for one crate cost more in all than one,
    since each loads what the others do: so a step mostly gets a further processor only where no other step could use it."""
    waiting = sorted(steps, key=lambda it: -it.rank)
    ended: set[str] = set()
    running: dict[Future[None], tuple[Step, int]] = {}
    pool = ThreadPoolExecutor(lanes)
    try:
        while waiting or running:
            ready = [it for it in waiting if ended.issuperset(it.waits)]
            idle = lanes - sum(jobs for _, jobs in running.values())
            for at, step in enumerate(ready):
                if idle <= 0:
                    break
                spare = idle - (len(ready) - at - 1)
                jobs = min(step.most, max(1, spare, step.least))
                running[pool.submit(step.work, jobs)] = step, jobs
                waiting.remove(step)
                idle -= jobs
            for it in wait(running, return_when=FIRST_COMPLETED).done:
                step, _ = running.pop(it)
                it.result()
                ended.add(step.crate)
    finally:
        # where a step has failed, those that are running end by themselves
        pool.shutdown(wait=False, cancel_futures=True)


# the line of the README that names the toolchain
NAMED = re.compile(r"\b[Pp]roved with `(rattle-kit-[^`]*)`")


@cache
def rtlib() -> Any:
    """The toolchain's own module behind `rt`."""
    command = shutil.which("rt")
    if command is None:
        sys.exit("the toolchain's command rt is not on the path")
    # nothing is written into the toolchain's folder
    sys.dont_write_bytecode = True
    sys.path.append(str(Path(command).resolve().parent))
    return import_module("rtlib")


def as_rt_has_them(root: Path, names: Iterable[str]) -> dict[str, Any]:
    """Crates as the module has them."""
    known: dict[str, Any] = {}
    return {it: rtlib().Crate(str(root / "crates" / it), str(root), known) for it in names}


def is_library_built(crate: Any, jobs: int, log: IO[str]) -> bool:
    """Builds the library of a crate, if it isn't built, and tells whether it is proved; what the prover says goes into the log."""
    os.makedirs(f"{crate.folder}/out", exist_ok=True)
    crate.out = log
    return bool(crate.build_rlib(["--jobs", str(jobs)], False) == 0)


@contextmanager
def alone_with(crates: Iterable[Any]) -> Iterator[None]:
    """Keeps every `rt` from working on these crates meanwhile. What the module runs ends with this process, so it is entered before any
    thread starts."""
    rtlib().guarded()
    held = rtlib().lock(list(crates))
    try:
        yield
    finally:
        for it in held:
            os.close(it)


def fault_of_layout(crate: Path) -> str:
    """What the toolchain says of the files of the crate in that folder, if `rt fmt` lays them out otherwise."""
    with tempfile.TemporaryFile("w+", errors="replace") as said:
        if rtlib().fmt(str(crate), "--check", said) == 0:
            return ""
        said.seek(0)
        return said.read().strip() or "its files have another layout"


def take_as_built(root: Path, crate: str) -> None:
    """Has `rt` take the libraries below a crate as they are: `rt ci`, which may have built them, leaves no stamp with them."""
    for it in as_rt_has_them(root, [crate])[crate].below():
        Path(it.rlib).with_name("stamp").write_text(it.stamp(), encoding="utf-8")


def version() -> str:
    return subprocess.run(["rt", "version"], stdout=subprocess.PIPE, text=True).stdout.strip() if shutil.which("rt") else "no toolchain"


def kit_of_readme(readme: str) -> str:
    named = NAMED.search(readme)
    return named[1] if named else ""
