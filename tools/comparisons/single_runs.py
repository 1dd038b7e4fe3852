"""Compares what runs tell with what other runs and commands tell of the same.

**Lists.** A run by `--set` must be the run by each other option that makes the same attempts fail, and just those may fail.
**Moving.** Where a run by `--moving` is fine, the same run in a heap whose cells may stay, or of another shape, must be the same but for
places.
**Lengths.** Runs in heaps of the first and the last length of each range of the table, and of some at random, must end as the range says.
**Steps.** The rows of `run --follow` must tell of the report's attempts, and what they say of cells must come to the cells that it lists as
leaks. With few steps the first and the last rows must be the same.
"""

import random
import re
from collections.abc import Callable, Iterable
from itertools import pairwise
from typing import NamedTuple

from tools.common import CEILING, CUT, FINE, FOUND
from tools.comparisons.scripts import Numbers, Report, Script, Words, spelled
from tools.comparisons.sweeps import PAIRS, listed

# which attempts fail by an option with a number, as far as a list goes, which has at most so many
LONGEST = 256
RULES: dict[str, Callable[[int], Iterable[int]]] = {
    "--fail": lambda number: [number],
    "--every": lambda rate: range(rate, (LONGEST + 1) * rate, rate),
    "--fail-from": lambda first: range(first, first + LONGEST),
}
# how many numbers of a script are tried, and the distances between the numbers of longer lists
MOST, DISTANCES = 6, (1, 2, 3)
# a number past the last attempt of any run
PAST = 16_777_216
# which first attempts fail alone where cells move, and which together; the shape of another heap
MOST_MOVED, LISTS = 4, ("2,3", "3,4", "2,4,5,6")
OTHER_SHAPE: Words = ("--min", 0, "--step", 16)
# how many lengths are drawn at random
DRAWN = 50
# the line of an explanation that names the command which shows the steps
FOLLOWED = re.compile(rb"^help: see it step by step: .*\n", re.MULTILINE)
# how many attempts are made to fail, one after the other; how many steps are shown of each end, where not all are
MOST_FAILED, FEW, ALL = 6, 3, 1_000_000
# what rows say of a cell, each at the beginning of what the step does or behind a semicolon
ATTEMPT = re.compile(
    r"(?:  |; )attempt (\d+) (is granted|makes (?:cell (\d+)|the cleanup stack) longer|"
    r"moves (?:cell (\d+)|the cleanup stack) from place (\d+)|is made to fail|is denied): (\d+) bytes at place (\d+)"
)
FREED = re.compile(r"(?:  |; )frees cell (\d+): (\d+) bytes at place (\d+)")
SHORTER = re.compile(r"(?:  |; )makes cell (\d+) shorter: (\d+) bytes at place (\d+)")
LEAK = re.compile(r"leak (\d+) length (\d+) place (\d+)")
ANSWERS = {"is made to fail": "simulated", "is denied": "refused"}
# the heading of the column in which a row says what its step does, and the most columns of a row
EFFECTS, COLUMNS = "what it does", 80
# what of a script's runs is told of by some row
OUTCOMES = {
    "a panic": "panic ",
    "a cell that moves": "moves cell ",
    "a leave that a TRAP catches": "caught by the TRAP of line",
    "a leave out of main": "out of `main`",
    "nothing of these": "",
}


def compare_lists(script: Script) -> list[str]:
    attempts = script.run().attempts()
    last = min(attempts, MOST)
    runs = [same_run(script, (option, number), rule(number)) for option, rule in RULES.items() for number in range(1, last + 1)]
    pairs: set[Numbers] = {(first, second) for second in range(2, last + 1) for first in (1, second - 1) if first < second}
    runs += [same_run(script, PAIRS.run(pair), pair) for pair in sorted(pairs)]
    runs += [run_of_list(script, range(first, attempts + 2, step)) for first in (2, 3) for step in DISTANCES]
    statuses = {it.status for it in runs}
    if CUT in statuses:
        return ["a run that is cut"]
    return ["runs that find nothing" if statuses == {FINE} else "a run that leaks or panics"]


def same_run(script: Script, words: Words, numbers: Iterable[int]) -> Report:
    """The run by some options, which must be the run in which the attempts with these numbers fail, if a list can have them all."""
    wanted, failing = script.run(*words), list(numbers)
    if len(failing) < LONGEST or wanted.attempts() <= failing[-1]:
        script.compare(wanted, "run", *listed(failing))
    return wanted


def run_of_list(script: Script, numbers: range) -> Report:
    """The run in which the attempts of a longer list fail, and no others but by the script's own setting."""
    asked = list(numbers) or [1]
    words = listed(asked)
    told = script.run(*words)
    made = [it for it in asked if it <= told.attempts()]
    failed = {int(line.split(" ")[1]) for line in told.begins("attempt") if line.endswith(" simulated")}
    script.must(set(made) <= failed, f"`run {spelled(*words)}` grants one of its attempts")
    if b"failnext" not in script.text and b"failevery" not in script.text:
        script.must(failed == set(made), f"`run {spelled(*words)}` fails {sorted(failed)}")
    script.compare(told, "run", "--set", f"{words[1]},{PAST}")
    if made:
        script.compare(told, "run", *listed(made))
    script.compare_object(told, {"version": 2, "kind": None, "number": None}, "run", *words)
    return told


def compare_moving(script: Script) -> list[str]:
    last = min(script.run("--moving").attempts(), MOST_MOVED)
    found = {moved_run(script, text) for text in (str(PAST), *map(str, range(1, last + 1)), *LISTS)}
    bad, other, same = "a run that is bad where cells move", "the same run in other places", "the same run, whose cells don't move"
    return [next((it for it in (bad, other, same) if it in found), "a run that isn't fine in either")]


def moved_run(script: Script, text: str) -> str:
    """What the runs come to in which the attempts of a list fail."""
    moved, still = script.run("--moving", "--set", text), script.run("--set", text)
    if moved.status != FINE:
        return "a run that is bad where cells move" if (moved.status, still.status) == (FOUND, FINE) else "neither is fine"
    for words, told in (((), still), (OTHER_SHAPE, script.run("--set", text, *OTHER_SHAPE))):
        is_same = without_places(moved) == without_places(told)
        script.must(is_same, f"`run {spelled('--set', text, *words)}` gives {told.shown()} beside {moved.shown()}")
    places = [[line.split(" ")[5] for line in run.begins("attempt")] for run in (moved, still)]
    return "the same run, whose cells don't move" if places[0] == places[1] else "the same run in other places"


def without_places(run: Report) -> Report:
    """A run but for the places of its cells, and for its notes, which tell of the heap itself."""
    lines = [line.split(" ") for line in run.lines if not line.startswith("note ")]
    return Report([spelled(*(line[:4] + line[6:] if line[0] == "attempt" else line)) for line in lines], run.status)


class Range(NamedTuple):
    first: int
    last: int
    words: str


def compare_lengths(script: Script) -> list[str]:
    told, chance = script.answer("lengths"), random.Random(script.text)
    table, rest = table_of(script, told.lines)
    tried = {length for it in table for length in (it.first, it.last, chance.randint(it.first, it.last))}
    nearby = min(2 * table[-1].first, CEILING)
    for length in sorted(tried | {chance.randint(0, nearby if at % 2 else CEILING) for at in range(DRAWN)}):
        end, wanted = script.run("--limit", length).end(), next(it.words for it in table if it.first <= length <= it.last)
        script.must(end == wanted, f"a run in a heap of {length} bytes is `{end}`, and the table says `{wanted}`")
    bad = [it.first for it in table if it.words.startswith(("leaks ", "panic "))]
    found = [f"length {bad[0]}", *script.run("--limit", bad[0]).lines] if bad else ["length none"]
    script.must(rest == found, f"`lengths` says {rest[:4]} in place of {found[:4]}")
    status = FOUND if bad else CUT if any(it.words.startswith("cut ") for it in table) else FINE
    script.must(told.status == status, f"`lengths` ends with {told.status} in place of {status}")
    values: dict[str, object] = {"attempts": None, "kind": "lengths", "required": None, "rises": None, "version": 3}
    values |= {"number": bad[0] if bad else "none", "ranges": [[it.first, it.words] for it in table]}
    script.compare_object(told, values, "lengths", is_all=True)
    script.compare_check(script.answer("sweep"))
    size = script.answer("size")
    if size.status == FINE:
        required, end = int(size.lines[0].removeprefix("required ")), script.run().end()
        script.must(table[-1].first <= required, f"the last range begins at {table[-1].first}, past the required {required}")
        script.must(end == table[-1].words, f"the run without a limit is `{end}`, and the last range says `{table[-1].words}`")
    if not bad:
        return ["a cut and no bad length" if told.status == CUT else "no bad length"]
    if script.answer("sweep").lines[1:2] == ["number none"]:
        return ["a bad length alone"]
    return ["bad lengths up to the ceiling" if bad[-1] == table[-1].first else "a bad length below good ones"]


def table_of(script: Script, lines: list[str]) -> tuple[list[Range], list[str]]:
    """The ranges that a text of lengths begins with, and its other lines."""
    count = next((at for at, line in enumerate(lines) if not line.startswith("from ")), len(lines))
    rows = [line.split(" ", 2)[1:] for line in lines[:count]]
    firsts = [int(first) for first, _ in rows]
    script.must(firsts[:1] == [0], f"the table begins with {lines[:1]}")
    script.must(all(one < other for one, other in pairwise([*firsts, CEILING + 1])), f"the table has the lengths {firsts}")
    script.must(all(one[1] != other[1] for one, other in pairwise(rows)), f"neighbours of the table say the same: {lines[:count]}")
    lasts = [first - 1 for first in firsts[1:]] + [CEILING]
    return [Range(first, last, words) for first, last, (_, words) in zip(firsts, lasts, rows)], lines[count:]


class Cell(NamedTuple):
    """A live cell: the number of the attempt that made it or moved it last, and its length in bytes."""

    number: str
    length: str


def compare_steps(script: Script) -> list[str]:
    attempts = script.run().attempts()
    fails: list[Words] = [("--fail", number) for number in range(2, min(attempts, MOST_FAILED) + 1)]
    told = "\n".join(row for words in ((), ("--every", 2), ("--limit", 300), *fails) for row in compare_rows(script, *words))
    return [next(it for it, text in OUTCOMES.items() if text in told)]


def compare_rows(script: Script, *words: str | int) -> list[str]:
    """The rows of a run under these words, which must be those of its report."""
    plain, rows = script.run(*words), rows_of(script, ALL, *words)
    steps = int(plain.lines[-1].removeprefix("steps "))
    numbers = [it.split()[0] for it in rows]
    script.must(numbers == [*map(str, range(steps + 1)), "end"], f"the rows aren't those of {steps} steps, under {words}")
    attempts = [it for row in rows for it in ATTEMPT.finditer(row)]
    found = [f"attempt {it[1]} length {it[6]} place {it[7]} {ANSWERS.get(it[2], 'granted')}" for it in attempts]
    script.must(found == plain.begins("attempt"), f"the rows tell of {found[:4]} .., and the report of {plain.lines[:4]} ..")
    live: dict[str, Cell] = {}
    for row in rows:
        see_row(script, live, row)
    if any(it == "ended" or it.startswith("left ") for it in plain.lines):
        leaks = {it[3]: Cell(it[1], it[2]) for it in map(LEAK.fullmatch, plain.lines) if it}
        others = {place: cell for place, cell in live.items() if leaks.get(place) != cell}
        script.must(len(live) == len(leaks) + 1 and len(others) == 1, f"the rows leave {live}, and the report {leaks}")
    left_out = steps - 2 * FEW
    counted = "1 step is" if left_out == 1 else f"{left_out} steps are"
    marked = f"{'..':>{max(4, len(str(steps)))}}  {'..':>4}  {counted} left out"
    wanted = [*rows[: FEW + 1], marked, *rows[-FEW - 1 :]] if left_out > 0 else rows
    script.must(rows_of(script, FEW, *words) == wanted, f"of {steps} steps others are shown, under {words}")
    return rows


def rows_of(script: Script, steps: int, *words: str | int) -> list[str]:
    """The rows of a run under these words, without the heading, of so many steps of each end."""
    asked = tuple(map(str, words))
    plain, told = script.ask("run", *asked), script.ask("run", *asked, "--follow", f"--follow-steps={steps}")
    script.must(told[::2] == plain[::2], f"`run --follow {spelled(*words)}` has another report")
    # who follows the steps isn't told how to
    explained = FOLLOWED.sub(b"", plain.messages)
    script.must(told.messages.endswith(explained), "the explanation isn't behind the steps")
    rows = told.messages.removesuffix(explained).decode("ascii").splitlines()
    script.must(len(rows) > len(("name", "headings")), "there are no rows")
    script.must(all(len(it) <= COLUMNS for it in rows[1:]), f"a row has more than {COLUMNS} columns")
    return joined(rows[2:], rows[1].index(EFFECTS))


def joined(lines: list[str], column: int) -> list[str]:
    """The rows in these lines, of which those go on with a row that have nothing before this column."""
    rows, between = list[str](), ""
    for line in lines:
        if line[:column].strip():
            rows.append(line)
            # behind a long statement it is the next line that begins to say what the step does
            between = " " if line[column - 2 : column] == "  " else "  "
        else:
            rows[-1] += between + line[column:]
            between = " "
    return rows


def see_row(script: Script, live: dict[str, Cell], row: str) -> None:
    """Takes the cells off that a row says are freed, and adds those that it says are granted, by their places."""
    if attempt := ATTEMPT.search(row):
        number, what, grown, moved, before, length, place = attempt.groups()
        if before:
            cell = live.pop(before, None)
            script.must(cell is not None and moved in (None, cell.number), f"no such cell is at place {before}: {row}")
        if what.endswith(" longer"):
            script.must(place in live and grown in (None, live[place].number), f"no such cell is at place {place}: {row}")
            live[place] = Cell(live[place].number, length)
        elif what not in ANSWERS:
            script.must(place not in live, f"another cell is at place {place}: {row}")
            live[place] = Cell(number, length)
    for number, length, place in SHORTER.findall(row):
        script.must(place in live and live[place].number == number, f"no such cell is at place {place}: {row}")
        live[place] = Cell(number, length)
    for number, length, place in FREED.findall(row):
        script.must(live.pop(place, None) == Cell(number, length), f"no such cell is at place {place}: {row}")
