"""Lets allocations of the program itself fail, and looks at what it answers then.

The program is asked to `check` a script; a case, named as GROUP/NAME, has arguments of its own. Without a name these are the examples and
some cases. For each number up to that of its last allocation the program runs three times: that one fails alone, with all later ones, and
with all multiples of its number; where there are very many, some of the later ones are tried. Each run must give the report and the status
that it gives with enough memory, or write the line `no memory` and end with 4, or write nothing and end with 4 where the command line
itself finds no memory. Standard error may say less. Some runs that write `no memory` must end with 5 where standard output takes nothing.

With `--same` the program is one that makes a call once more where it found no memory: `wb_call_tests`, which `rt run` in its crate builds.
So where a single allocation fails, it must write exactly what it writes with enough memory. An attempt that isn't a rise must make no
allocation, but for the last one of a run, whose turn also lists the leaks. In the other two ways it may also stop, with 4, behind some of
those lines and `no memory`.

It needs a C compiler (`cc`), which builds tools/failing_allocation.c.
"""

import os
import re
import subprocess
import tempfile
from bisect import bisect_left
from concurrent.futures import ThreadPoolExecutor
from functools import partial
from itertools import accumulate, pairwise, takewhile, zip_longest
from pathlib import Path
from typing import Any

from tools.common import PROGRAM, READ_OR_WRITE_FAULT, ROOT, WANT_OF_MEMORY, Answer, NoAnswer, Tally, answer_of, examples, program_parser
from tools.crates import RUN_MEMORY, processors
from tools.worked_cases import case_called

SOURCE = Path(__file__).with_name("failing_allocation.c")
# the cases that are tried beside the examples, if nothing else is named
TRIED = """
sweep/first-fit-reuses-hole.check sweep/eighth-push-grows-the-cleanup-cell.check sweep/unpushed-object-leaks-when-construction-fails.check
sweep/top-cell-grows-in-place.check sweep/marks-never-count-the-cleanup-cell.check sweep/procedure-returns-a-pushed-cell.check
descriptors/refused-text-growth-keeps-the-text.run operations/leave-runs-a-cleanup-operation.run raw-heap/forged-header-in-a-payload.run
json/empty-main-json-with-kind.size sweep/eighth-push-grows-the-cleanup-cell.sweep
sweep/unpushed-object-leaks-when-construction-fails.sweep sweep/failure-that-outruns-the-budget.sweep
sweep/leak-that-needs-two-failures.sweep sweep/pushed-object-survives-every-failure.sweep
cleanup/limit-stops-the-stack-above-a-large-hole.run cleanup/push-past-the-limit-destroys-all-items.run
rates/leak-that-needs-two-failures-every.run rates/leak-that-needs-two-failures-every-json.sweep
rates/eighth-push-grows-the-cleanup-cell-every.sweep examples/fallback-leaks-every-json.check pairs/leak-that-needs-two-failures-pair.run
pairs/leak-that-needs-two-failures-pairs.sweep pairs/leak-that-needs-two-failures-pairs-json.sweep
pairs/eighth-push-grows-the-cleanup-cell-pairs.sweep examples/clean-up-fails-pairs-json.check explained/files/two-runs.check
explained/sets/three-given-failures.run explained/sets/picture-of-a-set.run lengths/unpushed-object-leaks-when-construction-fails.lengths
lengths/small-minimum-and-step.lengths lengths/failure-that-outruns-the-budget-json.lengths lengths/more-leaks-in-longer-heaps.lengths
examples/loader-leaks-json.lengths explained/runs/courses/loop-forgets-two-failures-pairs.sweep
explained/runs/courses/trap-in-a-loop-forgets-two-failures-pairs.sweep explained/runs/courses/second-retry-outruns-the-budget-pairs.sweep
explained/runs/courses/retries-outrun-the-budget-all.sweep explained/follow/items-that-a-leave-destroys.run
explained/sets/sweep-finds-three-failures.sweep explained/sets/picture-of-a-sweep-over-sets.sweep
failures/leak-that-needs-three-failures-json.sweep failures/retry-that-fails-again.check failures/cut-set-before-a-bad-one.sweep
failures/leak-that-needs-three-failures-of-two-json.check every-set/leak-that-needs-three-failures.sweep
every-set/pointer-to-another-cell.sweep every-set/steps-before-a-budget.sweep every-set/more-states-than-one.sweep
every-set/every-answer-is-looked-at-json.sweep
""".split()
# the program that makes a call once more where it found no memory
CALLS = ROOT / "crates/wb_call_tests/out/wb_call_tests"
WAYS = ("once", "from", "each")
# how many allocations are tried from the first one on, and how many of those that follow
FIRST, LATER = 1_500, 250

# which panic a line of an explanation is about, before it says what raised it
PANIC = re.compile(rb".*:\d+: panic [A-Z]+ [0-9a-f]+: \w+: ")
# what is said of a question that `check` asks unasked and doesn't decide
UNDECIDED = re.compile(rb".*: .+ take more than is tried unasked; `workbench .+` tries them$")

# what the program that makes calls once more writes of a rise of a run, before a turn that asks for an attempt, and after it
RISE_OF_RUN = re.compile(r"rise (\d+) of the run to \d+")
TURN_TO_COME = "an attempt is to come"
ATTEMPT_OF_RUN = re.compile(r"attempt (\d+) of the run, at line \d+")
# what it writes of an attempt on a heap that isn't a rise; it makes at least so many attempts that aren't
NO_RISE = re.compile(r"(?:re)?alloc .*, rise false, trace 0")
FEWEST_WITHOUT_RISE = 180

NO_MEMORY = Answer(b"no memory\n", b"", WANT_OF_MEMORY)
NO_MEMORY_FOR_THE_COMMAND = (Answer(b"", b"error: no memory\n", WANT_OF_MEMORY), Answer(b"", b"", WANT_OF_MEMORY))


def says_less(answer: Answer, plain: Answer) -> bool:
    """Whether an answer is the plain one, but that its messages leave out what raised a panic, or a question is left undecided."""
    lines = plain.messages.splitlines()
    # what was asked and found behind a question that isn't decided is another one's
    said = takewhile(lambda line: line in lines or not UNDECIDED.match(line), answer.messages.splitlines())
    panics = {it[0] for it in map(PANIC.match, lines) if it}
    is_fine = (line in lines or line.startswith((b"note: ", b"help: ")) or (it := PANIC.match(line)) and it[0] in panics for line in said)
    return answer._replace(messages=b"") == plain._replace(messages=b"") and all(is_fine)


def shown(answer: Answer, plain: Answer) -> str:
    pairs = zip_longest(answer.output.splitlines(), plain.output.splitlines())
    other = next((f"line {at} is {it!r} in place of {right!r}" for at, (it, right) in enumerate(pairs, 1) if it != right), "all lines")
    return f"{other}, and {answer.messages!r}"


class Trial:
    """A program with the library that refuses allocations, whose runs go side by side; one that makes calls once more where it found no
    memory is given no script."""

    def __init__(self, program: Path, script: Path | None, room: Path, pool: ThreadPoolExecutor) -> None:
        self.program, self.library, self.pool = program, room / "failing_allocation.so", pool
        self.words, self.given, self.is_same = list[str](), b"", script is None
        self.count = room / f"{(script or program).stem}.count"
        if script and (script.is_absolute() or script.exists()):
            self.words = ["check", str(script.resolve())]
        elif script:
            # what is no file is a case by its place
            case = case_called(script.as_posix())
            self.words, self.given = case.args, case.script

    def run(self, how: str, fail_at: int, **streams: Any) -> Answer:
        """What comes of a run whose allocation with this number fails in this way; at 0 none does, and they are counted. File names in
        the words of a case start at the top of the repository."""
        world = dict(os.environ, LD_PRELOAD=str(self.library), FAIL_AT=str(fail_at), FAIL_HOW=how)
        if not fail_at:
            world["COUNT_TO"] = str(self.count)
        return answer_of(self.program, *self.words, script=self.given, env=world, cwd=ROOT, **streams)

    def numbers(self, last: int) -> list[int]:
        first = last if self.is_same else min(FIRST, last)
        later = range(first + 1, last + 1)
        return [*range(1, first + 1), *later[:: max(1, len(later) // LATER)]]

    def unwritten(self, how: str, wanted: list[int]) -> str | None:
        """What is wrong where some of the runs that ended for want of memory have a standard output that takes nothing, or None."""
        # all write the same line
        for number in {wanted[at] for at in (0, len(wanted) // 2, -1)} if wanted else set():
            with open("/dev/full", "wb") as full:
                status = self.run(how, number, stdout=full).status
            if status != READ_OR_WRITE_FAULT:
                return f"{how} {number}: status {status} where standard output takes nothing"
        return None

    def wants(self, answer: Answer, plain: Answer) -> bool:
        """Whether a run ended for want of memory; where it makes calls once more, it may have written some of the plain one's lines before,
        from the first one on."""
        written = answer.output.removesuffix(NO_MEMORY.output) if self.is_same else b""
        begins = plain.output.startswith(written) and (not written or written.endswith(b"\n"))
        return begins and answer == NO_MEMORY._replace(output=written + NO_MEMORY.output)

    def is_fine(self, how: str, answer: Answer, plain: Answer, was_read: bool) -> bool:
        """Whether a run may give this answer; earlier numbers showed whether the command had been read by then."""
        if self.is_same:
            return answer == plain or how != "once" and self.wants(answer, plain)
        is_early = answer in NO_MEMORY_FOR_THE_COMMAND and not was_read
        return self.wants(answer, plain) or is_early or says_less(answer, plain)

    def fault(self) -> tuple[str | None, int, int]:
        """What is wrong with an answer, or None; how many allocations the plain run makes, and how many runs ended for want of memory."""
        plain = self.run("once", 0)
        last, wanting = int(self.count.read_text().splitlines()[-1]), 0
        if self.is_same and (asked := self.asked_needlessly(plain)):
            return asked, last, 0
        for how in WAYS:
            was_read, wanted, numbers = False, list[int](), self.numbers(last)
            for number, answer in zip(numbers, self.pool.map(partial(self.run, how), numbers)):
                was_read |= answer == NO_MEMORY
                wanted += [number] if self.wants(answer, plain) else []
                if not self.is_fine(how, answer, plain, was_read):
                    return f"{how} {number} of {last}: status {answer.status}, {shown(answer, plain)}", last, wanting
            wanting += len(wanted)
            # one that makes calls once more ends with 4 whether its last line is written or not
            if not self.is_same and (unwritten := self.unwritten(how, wanted)):
                return unwritten, last, wanting
        return None, last, wanting

    def asked_needlessly(self, plain: Answer) -> str | None:
        """Which line is of what takes no memory, and made an allocation; None if none did."""
        lines = plain.lines()
        rises = {it[1] for it in map(RISE_OF_RUN.match, lines) if it}
        # the run ends with the turn of its last attempt, which lists the leaks
        ending = max((at for at, it in enumerate(lines) if ATTEMPT_OF_RUN.match(it)), default=0)

        def is_without_rise(at: int) -> bool:
            attempt = ATTEMPT_OF_RUN.match(lines[at])
            is_none_of_run = lines[at - 1] == TURN_TO_COME and attempt is not None and attempt[1] not in rises
            return at != ending and bool(NO_RISE.match(lines[at]) or is_none_of_run)

        without = list(filter(is_without_rise, range(1, len(lines))))
        if len(without) < FEWEST_WITHOUT_RISE:
            return f"no more than {len(without)} attempts that aren't rises"
        made = self.made_by_line(plain.output)
        asking = next((at for at in without if made[at]), None)
        return None if asking is None else f"{made[asking]} allocations for `{lines[asking]}`, which is no rise"

    def made_by_line(self, output: bytes) -> list[int]:
        """How many allocations were made for each line of the output, after the line before it was written."""
        pieces = [[int(it) for it in line.split()] for line in self.count.read_text().splitlines()[:-1]]
        ends = list(accumulate(size for size, _ in pieces))
        if ends[-1:] != [len(output)]:
            raise RuntimeError("the pieces that were counted aren't those that were written")
        totals = accumulate(map(len, output.splitlines(keepends=True)))
        made = [pieces[bisect_left(ends, total)][1] for total in totals]
        return [now - before for before, now in pairwise([0, *made])]


def passes(trial: Trial, tried: Path) -> bool:
    """Whether allocations may fail, with what came of it."""
    name = os.path.relpath(tried) if tried.exists() else str(tried)
    try:
        fault, last, wanting = trial.fault()
    except NoAnswer as late:
        fault, last, wanting = str(late), 0, 0
    said = f"failed: {fault}" if fault else f"passed: {last} allocations, and {wanting} runs end in `no memory`"
    print(f"{name}: {said}", flush=True)
    # a program that makes none, or none that matters, shows nothing
    return not fault and wanting > 0


def main(words: list[str]) -> int:
    parser = program_parser(__doc__)
    parser.add_argument("--same", action="store_true", help="the program makes a call once more where it found no memory")
    parser.add_argument("scripts", type=Path, nargs="*", metavar="SCRIPT")
    given = parser.parse_args(words)
    if given.same and given.scripts:
        parser.error("either scripts or --same")
    program, tally = CALLS if given.same and given.program == PROGRAM else given.program, Tally()
    scripts: list[Path | None] = [None] if given.same else given.scripts or [*examples(), *map(Path, TRIED)]
    with tempfile.TemporaryDirectory() as folder, ThreadPoolExecutor(processors(RUN_MEMORY)) as pool:
        room = Path(folder)
        subprocess.run(["cc", "-O1", "-shared", "-fPIC", "-o", room / "failing_allocation.so", SOURCE, "-ldl"], check=True)
        for script in scripts:
            tally.check(passes(Trial(program, script, room, pool), script or program))
    return tally.end()
