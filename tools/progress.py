"""Runs long runs and sweeps of the program, and looks at what is said of their progress on standard error.

The sweeps are of single failures, rates, pairs, sets and lengths. On a terminal one line says which failure or length is being tried, and
what is known to show nothing, or how many steps a run has taken. It appears once a run or a sweep has taken two seconds, is rewritten in
place, and is wiped before the report. Elsewhere a line is written each minute, and with --quiet nothing. Nor is anything said of a sweep
that is shorter. The scripts are made longer and longer until their sweeps take long enough on this machine.

A script that is typed on a terminal is announced there, since the program would wait without a word.
"""

import os
import pty
import re
import select
import subprocess
import termios
import time
from collections.abc import Callable, Iterator
from concurrent.futures import ThreadPoolExecutor
from pathlib import Path
from threading import Timer
from typing import Any, NamedTuple

from tools.common import CEILING, Answer, Trials, answer_of, program_parser, summed
from tools.crates import processors

# how long a sweep goes on before anything is said of it, the shortest time between two lines, for how much longer a sweep that is
# looked at goes on, and how late the first line may be, in seconds
QUIET, PAUSE, LONGER, LATE = 2.0, 0.1, 0.4, 1.0
# how often a line is written where standard error is no terminal, in seconds
MINUTE = 60.0
# how many seconds a run takes at least of which the sweep is long enough
LEAST = QUIET + LONGER
# how long a run may take; how long one takes at most that shows no line, before that counts as a fault; and a budget that is enough
LIMIT, PATIENCE, BUDGET = 300, 20.0, ("--budget", "1000000")

LEFT = r"(?:, (?P<done>\d+)% done, (?P<left>\d+) (?:s|min|h) left)?"
FINE = r"(?:, (?:nothing|none) up to (?P<fine>\d+))?"
LINE = re.compile(rf"trying (?P<what>attempt|rate) (?P<at>\d+) of (?P<of>\d+){FINE}{LEFT}")
# the line of what is tried, where that is neither an attempt nor a rate; and how many steps lie between two that are said
LINES = {
    "heap": re.compile(r"trying a heap of (?P<at>\d+) bytes, (?P<done>\d+)% of the lengths done"),
    "steps": re.compile(r"running, (?P<at>\d+) steps taken"),
    "set": re.compile(rf"trying (?P<size>\d+) attempts, attempt (?P<at>\d+) of (?P<of>\d+) first{FINE}{LEFT}"),
}
STEPS = 4096
# what any line on progress has in it
SAID = re.compile(rb"trying |running, ")
TYPED = b"workbench: the script is read from the terminal; end it with Ctrl-D on a line of its own\r\n"


class Kind(NamedTuple):
    words: list[str]
    # the script, with a place for how many attempts fail one by one
    text: str
    # how many attempts are begun with, and by which power of them the time grows
    attempts: int
    power: int
    # what a line calls what is tried
    calls: str
    # of how many attempts the largest sets are
    most: int = 1

    def script(self, attempts: int) -> bytes:
        return self.text.format(attempts).encode()

    def lines(self, shown: "Shown") -> list[re.Match[str]]:
        return list(LINES.get(self.calls, LINE).finditer(shown.bytes().decode("ascii")))

    def run(self, program: Path, script: bytes, **streams: Any) -> Answer:
        """A run with standard error no terminal."""
        return answer_of(program, *self.words, *BUDGET, script=script, seconds=LIMIT, **streams)


class Shown(NamedTuple):
    """What a run wrote to a terminal, each piece with the second that it came in, and how it ended."""

    pieces: list[tuple[float, bytes]]
    status: int
    seconds: float

    def bytes(self) -> bytes:
        return b"".join(piece for _, piece in self.pieces)


# scripts of so many attempts, and the sum of the turns in which they fail: so no run under a failure ends early, and few are ever in the
# same state, so that sets must be tried one by one. No failure shows anything
QUIET_SCRIPT = (
    "proc main\nptr a\nptr b\nint turn\nint failed\n"
    "repeat {0}\nadd turn 1\nalloc a 16\nif null a\nadd failed turn\nend\nfree a\nend\nend\n"
)
# the same with a leak if the last attempt alone fails
LEAKING = QUIET_SCRIPT.removesuffix("end\n") + "if eq failed 0\nalloc b 16\nalloc a 16\nif some a\nfree b\nend\nfree a\nend\nend\n"
# a script that no other heap serves from one attempt to the next: a cell grows at its place
GROWING = "proc main\nptr a\nint n\nalloc a 16\nset n 16\nrepeat {0}\nadd n 16\nrealloc a a n\nend\nfree a\nend\n"
# a script of which only the runs take long in which attempt 4 or 5 fails: each copies a long text so many times
FALLING_BACK = "alloc a 16\nif null a\nrepeat {0}\ncopy t s\nend\nend\nfree a\n"
LONG_TEXTS = "proc main\nptr a\nptr s\nptr t\nhnewl s 500000\npush s\nhnewl t 500000\npush t\nsetlength s 500000\n"
SLOW_FAILURES = f"{LONG_TEXTS}{FALLING_BACK}{FALLING_BACK}popdestroy 2\nend\n"
# a run that copies such a text so many times
COPYING = LONG_TEXTS + "repeat {0}\ncopy t s\nend\npopdestroy 2\nend\n"

KINDS = [
    Kind(["sweep"], LEAKING, 100, 2, "attempt"),
    # it finds a leak, and so searches no further
    Kind(["check", "--every"], LEAKING, 100, 2, "rate"),
    Kind(["sweep", "--pairs", "--json"], QUIET_SCRIPT, 20, 3, "set", most=2),
    Kind(["lengths"], GROWING, 200, 2, "heap"),
    Kind(["sweep", "--failures", "3"], QUIET_SCRIPT, 10, 4, "set", most=3),
    Kind(["run"], COPYING, 1000, 1, "steps"),
    Kind(["size"], COPYING, 1000, 1, "steps"),
]
SLOW = Kind(["sweep"], SLOW_FAILURES, 20, 1, "attempt")


def pieces_from(master: int, seconds: float, stop: Callable[[], None]) -> Iterator[bytes]:
    """What comes from a terminal until the program has closed its end, or is stopped since nothing comes for so long."""
    while select.select([master], [], [], seconds)[0]:
        try:
            yield os.read(master, 65_536)
        except OSError:
            break
    else:
        stop()
    os.close(master)


def show(program: Path, kind: Kind, script: bytes) -> Shown:
    """A run with standard output and standard error on one terminal."""
    master, slave = pty.openpty()
    begun = time.monotonic()
    running = subprocess.Popen([program, *kind.words, *BUDGET], stdin=subprocess.PIPE, stdout=slave, stderr=slave)
    os.close(slave)
    assert running.stdin
    with running.stdin as given:
        given.write(script)
    pieces = [(time.monotonic() - begun, piece) for piece in pieces_from(master, LIMIT, running.kill)]
    return Shown(pieces, running.wait(LIMIT), time.monotonic() - begun)


def long_run(program: Path, kind: Kind, seconds: float = LEAST, has_estimate: bool = False) -> tuple[bytes, Shown]:
    """A script whose run on a terminal takes so long, and that run. Where an estimate is asked for, some line of the run has one: else most
    of its time may be taken by what comes before or after the sweep."""
    attempts = kind.attempts
    while True:
        script = kind.script(attempts)
        shown = show(program, kind, script)
        is_told = not has_estimate or any(kind.calls == "steps" or it["done"] for it in kind.lines(shown))
        if shown.seconds >= seconds and (is_told or shown.seconds >= PATIENCE):
            return script, shown
        # somewhat more than is wanted, by what this run took, which may have been too short to be timed
        attempts = int(attempts * max(1.15, min(64.0, 1.15 * seconds / shown.seconds) ** (1 / kind.power)))


def losing_terminal(program: Path, kind: Kind, script: bytes) -> Answer:
    """A run whose standard error is a terminal that goes away before anything is said."""
    master, slave = pty.openpty()
    Timer(QUIET / 2, os.close, [master]).start()
    ran = kind.run(program, script, stderr=slave)
    os.close(slave)
    return ran


def screen(written: bytes) -> list[str]:
    """The lines of a terminal that was wide enough, once this was written to it."""
    lines: list[str] = []
    for line in written.decode("ascii").split("\n"):
        shown = ""
        for text in line.split("\r"):
            shown = text + shown[len(text) :]
        lines.append(shown.rstrip(" "))
    return lines


def look_at_lines(checks: Trials, kind: Kind, name: str, attempts: int, shown: Shown) -> None:
    """What is said while a sweep goes on."""
    lines = kind.lines(shown)
    numbers = [int(it["at"]) for it in lines]
    checks.look(f"{name}: a line", len(lines) > 0, shown.bytes()[:200])
    said_at = [at for at, piece in shown.pieces if SAID.search(piece)]
    checks.look(f"{name}: none before two seconds", all(at >= QUIET - PAUSE for at in said_at))
    checks.look(f"{name}: the first soon after them", min(said_at, default=0.0) <= QUIET + LATE, said_at[:1])
    checks.look(f"{name}: no more than ten a second", len(lines) <= 1 + (shown.seconds - QUIET + PAUSE) / PAUSE, len(lines))
    if kind.calls == "steps":
        checks.look(f"{name}: more and more steps", numbers == sorted({it for it in numbers if it % STEPS == 0}), numbers)
        return
    if kind.calls == "heap":
        checks.look(f"{name}: each shorter", numbers == sorted(set(numbers), reverse=True), numbers)
        shares = [100 * (CEILING - number) // CEILING for number in numbers]
        checks.look(f"{name}: the share of the lengths", shares == [int(it["done"]) for it in lines], numbers)
        return
    # sets come by their sizes, those of one size by their first attempts; more and more is done of each size, and never yet all
    is_set = kind.calls == "set"
    sizes = [int(it["size"]) if is_set else 1 for it in lines]
    places, said = list(zip(sizes, numbers)), [it[0] for it in lines]
    done = [(size, int(it["done"])) for size, it in zip(sizes, lines) if it["done"]]
    checks.look(f"{name}: of how many", all(int(it["of"]) == attempts >= int(it["at"]) >= 1 for it in lines), said)
    checks.look(f"{name}: one after another", places == sorted(places if is_set else set(places)), said)
    checks.look(f"{name}: what is done, more and more", len(done) > 0 and done == sorted(done), said)
    checks.look(f"{name}: not yet all", all(percent < 100 for _, percent in done), done)
    checks.look(f"{name}: no estimate before the last sets", all(size == kind.most for size, _ in done), done)
    fine = [int(it["fine"] or 0) == int(it["at"]) - 1 for it in lines]
    checks.look(f"{name}: what shows nothing", all(fine), said)
    checks.look(f"{name}: what is left", is_set or all(int(it["left"]) >= 1 for it in lines if it["done"]), said)
    checks.look(f"{name}: its kind", is_set or all(it["what"] == kind.calls for it in lines), said)


def look_at(program: Path, kind: Kind) -> Trials:
    """A kind of sweep: long ones and a short one, on a terminal and elsewhere."""
    checks, name = Trials(program), " ".join(kind.words)
    script, shown = long_run(program, kind, has_estimate=True)
    ran, gone = kind.run(program, script), losing_terminal(program, kind, script)
    checks.look(f"{name}: nothing is said without a terminal", not SAID.search(ran.messages) and b"\r" not in ran.messages, ran.messages)
    told = re.search(rb'attempts"?[ :](\d+)', ran.output)
    checks.look(f"{name}: the report where the terminal goes away", gone[0] == ran.output and gone.status == ran.status, gone)
    look_at_lines(checks, kind, name, int(told[1]) if told else 0, shown)
    checks.look(f"{name}: the status", shown.status == ran.status, shown.status)
    whole = (ran.output + ran.messages).decode("ascii").split("\n")
    checks.look(f"{name}: the line is wiped, and the report whole", screen(shown.bytes()) == whole)
    short = kind.script(3)
    ran, shown = kind.run(program, short), show(program, kind, short)
    wanted = (ran.output + ran.messages).replace(b"\n", b"\r\n")
    checks.look(f"{name}: a short one", shown.bytes() == wanted and shown.status == ran.status, shown)
    return checks


def look_at_quiet(program: Path) -> Trials:
    """A long sweep that is to show no progress: a terminal shows nothing but the report."""
    checks, kind = Trials(program), KINDS[0]._replace(words=[*KINDS[0].words, "--quiet"])
    script, shown = long_run(program, kind)
    ran = kind.run(program, script)
    checks.look("quiet: nothing but the report", shown.bytes() == (ran.output + ran.messages).replace(b"\n", b"\r\n"), shown)
    return checks


def look_at_minutes(program: Path) -> Trials:
    """A sweep of hours whose standard error is no terminal: a line after a minute, and none before."""
    checks, words = Trials(program), ["sweep", "--pairs", *BUDGET]
    running = subprocess.Popen([program, *words], stdin=subprocess.PIPE, stdout=subprocess.DEVNULL, stderr=subprocess.PIPE)
    assert running.stdin and running.stderr
    with running.stdin as given:
        given.write(QUIET_SCRIPT.format(20_000).encode())
    begun = time.monotonic()
    with running.stderr as said:
        early = select.select([said], [], [], MINUTE - 2 * PAUSE)[0]
        line = b"" if early or not select.select([said], [], [], LATE + 2)[0] else os.read(said.fileno(), 65_536)
        checks.look("minutes: none before the first", not early and running.poll() is None)
        checks.look("minutes: a line of its own", re.fullmatch(rb"workbench: trying [ -~]+\n", line) is not None, line)
        checks.look("minutes: after one", MINUTE - PAUSE <= time.monotonic() - begun <= MINUTE + LATE + 2)
        running.kill()
    running.wait(LIMIT)
    return checks


def look_at_slow_failures(program: Path) -> Trials:
    """A failure is named before its run and not after it: where the last two runs take two seconds each, the last one alone is
    named, since the one before it begins too early."""
    # half of it is the last run
    checks, (_, shown) = Trials(program), long_run(program, SLOW, 2 * LEAST)
    named = [(it["at"], it["of"]) for it in LINE.finditer(shown.bytes().decode("ascii"))]
    checks.look("a failure is named before its run", named == [("5", "5")], named)
    return checks


def look_at_typed_scripts(program: Path) -> Trials:
    """A script that is typed on a terminal: it is announced where what is said goes there too, and nowhere else."""
    checks, script = Trials(program), QUIET_SCRIPT.format(3).encode()
    wanted = answer_of(program, "run", script=script, seconds=LIMIT)
    for is_told, line in ((True, TYPED), (False, b"")):
        master, slave = pty.openpty()
        modes = termios.tcgetattr(slave)
        modes[3] &= ~termios.ECHO
        termios.tcsetattr(slave, termios.TCSANOW, modes)
        running = subprocess.Popen([program, "run"], stdin=slave, stdout=subprocess.PIPE, stderr=slave if is_told else subprocess.DEVNULL)
        os.close(slave)
        os.write(master, script + b"\x04")
        report, _ = running.communicate(timeout=LIMIT)
        shown = b"".join(pieces_from(master, 0, running.kill))
        checks.look("a typed script", report == wanted.output, report)
        checks.look("a typed script is announced", shown == line, shown)
    checks.look("a script that isn't typed", wanted.messages == b"", wanted.messages)
    return checks


def main(words: list[str]) -> int:
    """Looks at all kinds, so few side by side that none waits for a processor when its line is due, and prints the totals."""
    program = program_parser(__doc__).parse_args(words).program
    with ThreadPoolExecutor() as beside, ThreadPoolExecutor(max(1, processors() // 2)) as few:
        minutes = beside.submit(look_at_minutes, program)
        others = [few.submit(look, program) for look in (look_at_slow_failures, look_at_typed_scripts, look_at_quiet)]
        looked = [*few.map(lambda kind: look_at(program, kind), KINDS), *(other.result() for other in others), minutes.result()]
    return summed(looked).end()
