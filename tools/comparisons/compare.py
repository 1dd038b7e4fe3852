"""Compares what the program answers of many scripts in one way with what it answers in another, by kinds.

`./tools/dev compare` compares all kinds, or those that are named. This is done for the examples and for scripts that are made. Each
answer that differs is printed with its script, which is kept in a folder where one is given. So that a program which finds nothing can't
pass, each outcome that a kind wants must come often enough among the scripts that are made. So that a comparison which sees nothing can't
pass, each kind must see so many wrong answers: those of the program about a few scripts, each but for one line, number or status.
"""

import argparse
import json
import re
import zlib
from collections import Counter
from collections.abc import Callable, Iterator
from concurrent.futures import ThreadPoolExecutor
from dataclasses import dataclass
from fnmatch import fnmatchcase
from functools import partial
from itertools import islice
from pathlib import Path

from tools.common import CUT, FINE, FOUND, PROGRAM, ROOT, Answer, NoAnswer, Tally, examples, program_parser
from tools.comparisons.scripts import SCRIPTS, SEED, SORTS, Difference, Script, scripts
from tools.comparisons.single_runs import compare_lengths, compare_lists, compare_moving, compare_steps
from tools.comparisons.sweeps import BY_NUMBER, FAILURES, LISTINGS, PAIRS, SETS, SINGLE, Sweep, Swept
from tools.crates import RUN_MEMORY, processors
from tools.worked_cases import case_called

# the program that compares forks of a run, which `rt run` in its crate builds
FORKS = ROOT / "crates/wb_fork_tests/out/wb_fork_tests"
# the cases whose scripts it is given, beside the examples
FORKED = """
sweep/eighth-push-grows-the-cleanup-cell.check sweep/unpushed-object-leaks-when-construction-fails.check
first-path/freed-neighbours-merge.run
""".split()
# longer scripts, as code is that is tested, in which some sets of failures or none show a mistake
PROGRAMS = [
    *(f"programs/applications/{it}.sweep" for it in ("album", "browser", "calendar", "contacts", "editor")),
    *(f"programs/services/{it}.sweep" for it in ("installer", "mailbox", "messages", "player", "selftest")),
]
# the cases whose tables of lengths have so many rows that most runs go on from copies of others
MANY_ROWS = """
lengths/cells-that-halve-count-in-binary.lengths lengths/cells-that-halve-past-a-failure-of-the-script.lengths
""".split()
# the cases about whose scripts wrong answers are given: one failure shows something, none, only two, and one that is cut
LIED = """
sweep/unpushed-object-leaks-when-construction-fails.sweep sweep/pushed-object-survives-every-failure.sweep
sweep/leak-that-needs-two-failures.sweep sweep/failure-that-outruns-the-budget.sweep
""".split()
# a budget that cuts the last of them soon; how many lines of an answer are changed; and the numbers that steps tell of cells and attempts
LIED_BUDGET, CHANGED = ("--budget", "200"), 30
OF_STEPS = re.compile(rb"(?<=place )\d+|(?<=attempt )\d+|(?<=cell )\d+|\d+(?= bytes)")
# what ends the comparison of a script: an answer that differs, is late, or is no report at all
FAULTS = (Difference, NoAnswer, ValueError, LookupError)


@dataclass(frozen=True)
class Kind:
    # compares the answers for a script, and gives what comes of it: one outcome or several
    compare: Callable[[Script], list[str]]
    # how many wrong answers it must see at least
    seen: int
    # how many of a hundred made scripts must at least have each outcome, with the pattern of its words
    wanted: str = ""
    # the sorts of parts that scripts are made of
    sorts: str = SORTS
    # whether one of two scripts has few steps, so that some of its runs are cut
    has_budgets: bool = False
    # the cases whose scripts are compared beside those of the examples and those that are made
    cases: tuple[str, ...] = ()
    program: Path = PROGRAM

    def scripts(self, count: int, seed: int) -> list[tuple[str, bytes]]:
        """The scripts that are compared, with their names, those that are made last."""
        named = [(it.name, it.read_bytes()) for it in examples()] + [(it, case_called(it).script) for it in self.cases]
        return named + [(f"made {at}", it.encode("ascii")) for at, it in enumerate(scripts(count, seed, self.sorts))]


def compare_sweep(script: Script, sweep: Sweep) -> list[str]:
    """Compares all that is answered of a sweep, and says what is found in the words of `wanted`: alone is a number where no single failure
    shows anything, and late are numbers of which the run without failure doesn't make the last."""
    swept = Swept(sweep, script)
    found = swept.compare()
    if found is None:
        outcome = "none"
    elif swept.told.status == CUT:
        outcome = f"cut {f'{len(found)} numbers' if len(found) > 1 else 'number'} at the {swept.told.lines[0].split(' ')[-1]}"
    elif len(found) > 1:
        outcome = f"{len(found)} numbers{' late' if found[-1] > swept.attempts else ''}"
    elif sweep.one != SINGLE.one and script.answer("sweep").lines[1:2] == ["number none"]:
        outcome = "number alone"
    else:
        number = (found or (0,))[0]
        outcome = f"number {number}" if number < 3 else "number above 2"
    outcomes = [outcome, *map(swept.compare_listing, LISTINGS if sweep.most == 1 else ())]
    if sweep == SETS:
        outcomes += swept.compare_states(found)
        if found is None or len(found) > 1:
            outcomes.append("each set run" if swept.compare_each(found) else "too many sets to run")
    return outcomes


def compare_parts(script: Script) -> list[str]:
    """Compares the sweeps that are cut into parts most, of a script of which some runs may be cut."""
    return [compare_sweep(script, sweep) for sweep in (SINGLE, *BY_NUMBER.values(), PAIRS)][0]


def compare_forks(script: Script) -> list[str]:
    """Whether the program that compares forks of a run with whole runs finds none that differs."""
    told = script.ask()
    script.must(told.status == 0, told.output.decode("utf-8", "replace").strip())
    return []


# how often the outcomes of a sweep over numbers of an option come, which aren't those of single attempts: under a failure that persists
# a script asks for little more
OF_NUMBERS = {
    "every": "20 none; 2 number 0; 10 number 2; 10 number above 2; 5 number alone; 2 cut number at the budget; "
    "1 cut number at the ceiling",
    "persistent": "20 none; 1 number 0; 5 number above 2; 3 number alone; 5 cut number at the budget",
}
# the kinds of comparison, those that take longest first
KINDS = {
    "sets": Kind(
        partial(compare_sweep, sweep=SETS), 1_020,
        "15 none; 3 number*; 1 cut number*; 8 2 numbers*; 3 3 numbers*; 5 [4-9]* numbers*; 2 cut [2-9]* numbers*; "
        "20 cut states; 2 cut states past one failure; 30 each set run",
        "one two three four four remembered remembered remembered",
        cases=tuple(PROGRAMS),
    ),
    "steps": Kind(compare_steps, 790, "10 a panic; 2 a cell that moves; 20 a leave that a TRAP catches"),
    "failures": Kind(
        partial(compare_sweep, sweep=FAILURES), 860,
        "15 none; 8 number*; 2 cut number*; 8 2 numbers*; 12 3 numbers*; 2 cut 2 numbers*; 2 cut 3 numbers*",
        "one two three three",
    ),
    "lengths": Kind(
        compare_lengths, 500,
        "20 no bad length; 8 a cut and no bad length; 8 a bad length alone; 10 a bad length below good ones; "
        "2 bad lengths up to the ceiling",
        cases=tuple(MANY_ROWS),
    ),
    "lists": Kind(compare_lists, 950, "20 runs that find nothing; 30 a run that leaks or panics; 3 a run that is cut"),
    "moving": Kind(
        compare_moving, 420,
        "20 the same run, whose cells don't move; 20 the same run in other places; 5 a run that is bad where cells move",
        "one two moving",
    ),
    "parts": Kind(
        compare_parts, 2_290,
        "15 --all: nothing; 10 --all: one number; 10 --all: more numbers; 1 --all: a cut beside others; "
        "1 --all: a cut run without failure",
        has_budgets=True,
    ),
    "pairs": Kind(
        partial(compare_sweep, sweep=PAIRS), 630,
        "15 none; 20 number*; 3 cut number*; 10 2 numbers; 5 2 numbers late; 2 cut 2 numbers at the budget; "
        "1 cut 2 numbers at the ceiling",
    ),
    **{name: Kind(partial(compare_sweep, sweep=sweep), 620, OF_NUMBERS[name]) for name, sweep in BY_NUMBER.items()},
    "forks": Kind(compare_forks, 4, cases=tuple(FORKED), program=FORKS),
}


def compared(kind: Kind, program: Path, name: str, text: bytes) -> tuple[list[str], int, str]:
    """What comes of a script, how much of it was compared, and what is wrong."""
    # which scripts have few steps, and how few, depends on the script alone
    few = zlib.crc32(text) if kind.has_budgets else 0
    script = Script(program, text, [] if few % 2 == 0 else ["--budget", str(16 + few % 64)])
    try:
        return kind.compare(script), script.compared, ""
    except FAULTS as fault:
        return [], script.compared, f"{name}: {fault}"


def lies_about(answer: Answer, words: tuple[str, ...], keys: set[str]) -> Iterator[Answer]:
    """An answer with other statuses, and without each of its first lines, with it twice, and with each number greater; an object with
    another value for each of the keys that are compared."""
    yield from (answer._replace(status=it) for it in (FINE, FOUND, CUT) if it != answer.status)
    held = json.loads(answer.output) if keys else {}
    yield from (answer._replace(output=json.dumps(held | {key: [held[key]]}).encode()) for key in sorted(keys))
    is_followed = "--follow" in words
    lines = [] if keys else (answer.messages if is_followed else answer.output).splitlines(keepends=True)
    for at, line in enumerate(lines[:CHANGED]):
        numbers = re.finditer(OF_STEPS if is_followed else rb"\d+", line)
        changed = [line[: it.start()] + str(int(it[0]) + 1).encode() + line[it.end() :] for it in numbers]
        for other in (b"", 2 * line, *changed):
            text = b"".join([*lines[:at], other, *lines[at + 1 :]])
            yield answer._replace(messages=text) if is_followed else answer._replace(output=text)


def seen_lies(kind: Kind, program: Path, place: str) -> int:
    """How many wrong answers about a case's script a kind sees, of each third that there is to what it asks for."""

    def is_seen(script: Script) -> bool:
        try:
            kind.compare(script)
        except FAULTS:
            return True
        return False

    script = Script(program, case_called(place).script, LIED_BUDGET)
    if is_seen(script):
        return 0
    known = dict(script.known)
    lies = ((words, lie) for words, told in known.items() for lie in lies_about(told, words, script.keys.get(words, set())))
    return sum(is_seen(Script(program, script.text, LIED_BUDGET, {**known, words: lie})) for words, lie in islice(lies, 0, None, 3))


def too_few(wanted: str, outcomes: Counter[str], count: int) -> list[str]:
    """Which outcomes the made scripts don't show often enough, of so many."""
    rows = [it.split(" ", 1) for it in wanted.split("; ") if it]
    found = {it: sum(often for outcome, often in outcomes.items() if fnmatchcase(outcome, it)) for _, it in rows}
    least = {it: int(often) * count // 100 for often, it in rows}
    return [f"{it}: {found[it]} of {count}, and {least[it]} are wanted" for it in found if found[it] < least[it]]


def compare_scripts(name: str, given: argparse.Namespace, tally: Tally) -> None:
    """Compares the answers of a kind for all scripts, counts what agrees, and prints what comes how often."""
    kind = KINDS[name]
    named = kind.scripts(given.scripts, given.seed)
    # the program that is given is not that of another kind beside it
    is_given = given.program and (kind.program == PROGRAM or given.kinds == [name])
    program = given.program if is_given else kind.program
    with ThreadPoolExecutor(processors(RUN_MEMORY)) as pool:
        told = list(pool.map(lambda it: compared(kind, program, *it), named))
        seen = sum(pool.map(partial(seen_lies, kind, program), LIED))
    tally.check(seen >= kind.seen, f"{name}: {seen} wrong answers are seen, and {kind.seen} are wanted")
    for (title, text), (_, _, fault) in zip(named, told):
        tally.check(not fault, f"{name}: {fault}")
        if given.keep and fault:
            given.keep.mkdir(parents=True, exist_ok=True)
            (given.keep / f"{name}-{title.replace(' ', '-').removesuffix('.oom')}.oom").write_bytes(text)
    outcomes = Counter(outcome for found, _, _ in told[len(told) - given.scripts :] for outcome in found)
    for rare in too_few(kind.wanted, outcomes, given.scripts):
        tally.check(False, f"{name}: too few scripts with {rare}")
    listed = ", ".join(f"{often} with {it}" for it, often in sorted(outcomes.items()))
    comparisons = sum(count for _, count, _ in told)
    print(f"{name}: {comparisons} comparisons of {len(named)} scripts; of those that are made {listed or 'all agree'}")


def main(words: list[str]) -> int:
    parser = program_parser(__doc__, None)
    parser.add_argument("kinds", nargs="*", metavar="KIND", help=f"one of {', '.join(KINDS)} [default: all]")
    parser.add_argument("--scripts", type=int, default=SCRIPTS, metavar="N", help=f"how many scripts are made [default: {SCRIPTS}]")
    parser.add_argument("--seed", type=int, default=SEED, metavar="N", help=f"which scripts [default: {SEED}]")
    parser.add_argument("--keep", type=Path, metavar="FOLDER", help="where scripts go that differ")
    given, tally = parser.parse_args(words), Tally()
    for it in given.kinds:
        if it not in KINDS:
            parser.error(f"there is no kind {it}")
    for it in given.kinds or KINDS:
        compare_scripts(it, given, tally)
    return tally.end()
