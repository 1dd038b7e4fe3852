"""Turns into the workbench, on the same words and streams.

Where the program isn't built, or is older than what it is made of, its sources are compiled without their proof. What is compiled is kept
below the repository until its sources or the toolchain change; where it can't be kept, it gives one answer.

`rt try` compiles a program, runs it once and removes it. So it is run on a script that is a pipe, and the program is copied while it waits
for the script."""

import contextlib
import hashlib
import os
import shutil
import signal
import subprocess
import sys
import tempfile
import time
from collections.abc import Iterator
from contextlib import contextmanager
from pathlib import Path
from typing import NoReturn

from tools.common import PROGRAM, PROGRAM_CRATE, REFUSED
from tools.crates import NOT_BUILT, Crates, alone_in, is_being_built

# the name by which the program calls itself
NAME = "workbench"
# where the programs are kept, below the repository, and how many: those that were used last
FOLDER = Path("out", "unproved")
KEPT = 3
# what `rt try` reads of a crate
SOURCES = "src"


class NoProgram(Exception):
    """Why the sources gave no program, in the toolchain's words."""


class Unproved:
    """The programs that are kept for a repository, as the toolchain of a command `rt` compiles them."""

    def __init__(self, crates: Crates, command: Path) -> None:
        self.crates, self.command = crates, command
        self.toolchain = command.resolve().parent.parent
        self.folder = crates.root / FOLDER

    def place(self, crates: Crates) -> Path:
        """Where the program of these sources is kept, by their checksum and the toolchain's."""
        # the toolchain says by this file which one it is
        checksum = hashlib.sha256((self.toolchain / "KIT-ID").read_bytes() + listed(crates).encode())
        for crate in program_crates(crates):
            for file in sorted(it for it in (crates.folder(crate) / SOURCES).rglob("*") if it.is_file()):
                text = file.read_bytes()
                checksum.update(f"\n{file.relative_to(crates.root)} {len(text)}\n".encode() + text)
        return self.folder / checksum.hexdigest()

    def kept(self) -> Path | None:
        """The program of the sources as they stand, if it is kept."""
        place = self.place(self.crates)
        # so that it is among those that were used last
        with contextlib.suppress(OSError):
            os.utime(place)
        return place if place.exists() else None

    def keep(self) -> Path:
        """Compiles the program and keeps it, unless another call has done so meanwhile. Raises `OSError` where it can't be kept."""
        self.folder.mkdir(parents=True, exist_ok=True)
        with alone_in(self.folder, f"{NAME}: waiting for another call, which compiles them"), self.room() as room:
            # of the copy, since the sources may be changed meanwhile
            place, new = self.place(Crates(room)), self.folder / ".new"
            if not place.exists():
                # where the folder can't be written, this fails before anything is compiled
                new.touch()
                new.unlink()
                self.compile(room, new)
                new.replace(place)
                # one that runs stays until it ends, and only its name is gone
                for old in sorted(self.folder.iterdir(), key=lambda it: it.stat().st_mtime)[:-KEPT]:
                    old.unlink(missing_ok=True)
            return place

    def once(self) -> Path:
        """Compiles the program for one answer: its file has no other name than the one that this process has for it."""
        with self.room() as room:
            self.compile(room, room / NAME)
            held = os.open(room / NAME, os.O_RDONLY)
        os.set_inheritable(held, True)
        return Path(f"/proc/self/fd/{held}")

    @contextmanager
    def room(self) -> Iterator[Path]:
        """A folder with a copy of what the program is compiled from, since `rt` works alone in a crate's folder. `rt try` reads no
        definitions and no proofs."""
        with tempfile.TemporaryDirectory(prefix=f"{NAME}-") as folder:
            for crate in program_crates(self.crates):
                shutil.copytree(self.crates.folder(crate) / SOURCES, Path(folder, "crates", crate, SOURCES))
            Path(folder, "crates.txt").write_text(listed(self.crates), encoding="utf-8")
            yield Path(folder)

    def compile(self, room: Path, target: Path) -> None:
        """Has `rt try` compile the sources in a room, and copies the program to the target while it runs. Raises `NoProgram` where there
        is none."""
        pipe, made, messages = room / "script", room / "made", room / "messages"
        os.mkfifo(pipe)
        made.mkdir()
        # its interpreter, which runs the program before, ends at once
        command = [self.command, "try", "--steps", "1", "--", "run", pipe]
        with messages.open("wb") as said, subprocess.Popen(
            command,
            cwd=room / "crates" / PROGRAM_CRATE,
            env={**os.environ, "TMPDIR": str(made)},
            stdin=subprocess.DEVNULL,
            stdout=subprocess.DEVNULL,
            stderr=said,
        ) as running:
            try:
                while running.poll() is None and not target.exists():
                    time.sleep(0.05)
                    copy_held(target, pipe, made)
            finally:
                # it removes what it has made, and ends what it runs
                running.terminate()
        if not self.answers(target):
            target.unlink(missing_ok=True)
            lines = messages.read_text(encoding="utf-8", errors="replace").splitlines()
            raise NoProgram("; ".join(lines[-3:]) or "nothing was said")

    def answers(self, program: Path) -> bool:
        """Whether there is such a program, and it runs: an empty script is refused."""
        words = [*self.words(program), "run", os.devnull]
        with contextlib.suppress(OSError):
            return program.exists() and subprocess.run(words, capture_output=True, env=environment()).returncode == REFUSED
        return False

    def words(self, program: Path) -> list[str]:
        """The words that run a program with the libraries that it was linked with, as `rt try` does."""
        libraries = self.toolchain / "toolchain" / "lib"
        return [str(libraries / "ld-linux-x86-64.so.2"), "--inhibit-cache", "--library-path", str(libraries), "--argv0", NAME, str(program)]


def copy_held(target: Path, pipe: Path, made: Path) -> None:
    """Copies the program that waits for its script, if one does. It is whole, since it runs."""
    try:
        # refused until somebody reads it; the script ends as it is closed
        held = os.open(pipe, os.O_WRONLY | os.O_NONBLOCK)
    except OSError:
        return
    try:
        # there is none where the toolchain's interpreter is what reads
        for program in made.rglob("program"):
            shutil.copyfile(program, target)
            target.chmod(0o755)
            # whole on the disk too, before it gets its name
            with target.open("rb") as copied:
                os.fsync(copied.fileno())
    finally:
        os.close(held)


def program_crates(crates: Crates) -> list[str]:
    return [*crates.below(PROGRAM_CRATE), PROGRAM_CRATE]


def listed(crates: Crates) -> str:
    return "".join(f"{crates.lines[it]}\n" for it in program_crates(crates))


def environment() -> dict[str, str]:
    # this would change the checks that are compiled in
    return {name: value for name, value in os.environ.items() if name != "ASAN_OPTIONS"}


def say(text: str) -> None:
    print(f"{NAME}: {text}", file=sys.stderr, flush=True)


def why_not_built(crates: Crates) -> str:
    """Why there is no program that answers; nothing if there is one."""
    if is_being_built():
        return "the program is being built by another call"
    return crates.why_old() if PROGRAM.exists() else "not built yet"


def answer_unproved(why: str, crates: Crates, words: list[str]) -> int:
    """Turns into the program without its proof: one that is kept, else one that is compiled now, and kept where it can be."""
    command = shutil.which("rt")
    if command is None:
        say(f"{why}, and the toolchain's command rt is not on the path")
        return NOT_BUILT
    unproved = Unproved(crates, Path(command))
    program = unproved.kept()
    if program:
        say(f"{why}, so this is what the same sources answer, compiled without their proof;")
    else:
        say(f"{why}, so these sources are compiled without their proof, in about two to three minutes, and the next answer comes at once;")
    say("./build proves and builds the program, in one to two hours")
    try:
        program = program or compiled(unproved)
    except NoProgram as why_none:
        say(f"this way there is no answer: {why_none}; `rt try` in crates/{PROGRAM_CRATE} says more")
        return NOT_BUILT
    become([*unproved.words(program), *words], environment())


def compiled(unproved: Unproved) -> Path:
    """The program as it is compiled now."""
    try:
        return unproved.keep()
    except OSError as fault:
        say(f"it is compiled for this one answer, since it can't be kept: {fault}")
        return unproved.once()


def become(words: list[str], environment: dict[str, str], file: str = "") -> NoReturn:
    """Turns into a program; its file is the first word, if it isn't given."""
    # Python ignores these, and the program would too
    for ignored in (signal.SIGPIPE, signal.SIGXFSZ):
        signal.signal(ignored, signal.SIG_DFL)
    os.execve(file or words[0], words, environment)


def main(words: list[str]) -> int:
    crates = Crates()
    try:
        if why := why_not_built(crates):
            return answer_unproved(why, crates, words)
        # the name by which it calls itself in its help
        become([NAME, *words], dict(os.environ), str(PROGRAM))
    except KeyboardInterrupt:
        # what was begun is removed by now, and this ends as the program itself would
        signal.signal(signal.SIGINT, signal.SIG_DFL)
        signal.raise_signal(signal.SIGINT)
        raise
