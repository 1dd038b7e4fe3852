"""Compares what a sweep claims with the single runs that it stands for. Each sweep is a row: what it must answer follows from its row.

The numbers that a sweep makes fail are tried in the order of their count, and those of one count in the order of the numbers. The least
whose run leaks, panics or is cut must be what the sweep tells, with just the lines of that run; numbers before it must show nothing. So
must parts, lists, and sweeps over fewer numbers as far as they go. `check` and `--json` must say the same. With few states a sweep over all
sets must tell the same, or `cut states` after a number of failures which grows with the states, to which `--failures` finds nothing; and
there must be more states than may be met.
"""

import math
from collections.abc import Callable, Iterable, Iterator
from dataclasses import dataclass
from itertools import islice
from typing import TypeVar

from tools.common import CEILING, CUT, FINE, FOUND
from tools.comparisons.scripts import Numbers, Report, Script, Words, spelled

T = TypeVar("T")

# how many sets of a size are looked at; how many of these are run where none is found, and further ones that the run without failure
# doesn't make; how many are run with a number past the last attempt
MET, TRIED, TRIED_LATE, TRIED_PAST = 4_000, 50, 10, 10
# of how many attempts the run without failure makes at most where every set is run, and how many runs there may be
FEW_ATTEMPTS, RUNS = 12, 3_000
# the options that list numbers, with the runs that have a line
LISTINGS: dict[str, Callable[[Report], bool]] = {"--all": lambda run: run.status != FINE, "--ends": lambda run: True}
# how many states may be met, in ascending order, of which one is passed by each script of more than so many attempts; and the greatest
# number of failures that `--failures` is compared for
STATES, ATTEMPTS_PAST_ONE, MOST_COMPARED = (1, 20, 60), 2, 4


def listed(numbers: Iterable[int]) -> Words:
    """The words of a run in which the attempts of a list fail."""
    text = ",".join(map(str, numbers))
    return ("--set", text) if text else ()


@dataclass(frozen=True)
class Sweep:
    """A sweep, and the runs that it stands for."""

    # how its JSON calls it, its flags, and the version of its JSON
    kind: str
    flags: Words
    version: int = 2
    # the option of a run in which one number fails, and how lines begin that tell of one number and of more
    option: str = "--fail"
    one: str = "number"
    more: str = ""
    # how many numbers fail at most
    most: float = 1
    # sweeps that must find the same, up to as many numbers as they try; and others that must find none where this one does
    fewer: tuple["Sweep", ...] = ()
    none_of: tuple["Sweep", ...] = ()
    # how many sets before the one that is found are run, of each size, and how large those are that are run where none is found
    before: int = MET
    largest: int = 3

    def run(self, numbers: Numbers) -> Words:
        """The words of the run in which these numbers fail; an option that takes one makes nothing fail with 0."""
        if self.kind == "sets":
            return listed(numbers)
        return (self.option, *(numbers or (0,))) if len(numbers) < 2 else ("--fail", numbers[0], "--also", numbers[1])

    def values(self) -> dict[str, object]:
        """What its JSON has beside the lines of all sweeps."""
        most = {"most": None if self.most == math.inf else self.most} if self.kind == "sets" else {}
        return {"kind": self.kind, "version": self.version, **most}

    def answer(self, attempts: int, numbers: Numbers | None, run: Report) -> Report:
        """What it must answer where these are the least numbers whose run isn't fine, and this is that run."""
        if numbers is None:
            last = f" to {self.most}" if self.kind == "sets" and self.most < math.inf else ""
            return Report([f"attempts {attempts}", f"{self.more or self.one} none{last}"], FINE)
        told = spelled(*numbers or (0,))
        if run.status == CUT:
            return Report([f"cut {told} {run.begins('cut')[0].removeprefix('cut ')}"], CUT)
        return Report([f"attempts {attempts}", f"{self.one if len(numbers) < 2 else self.more} {told}", *run.lines], FOUND)

    def listed(self, plain: Report, runs: dict[int, Report], flag: str) -> Report:
        """What it must list with this flag, where these are the run without failure, and the runs under the numbers that are asked for."""
        if plain.status == CUT:
            return self.answer(plain.attempts(), (), plain)
        bad = [run for run in runs.values() if run.status == FOUND]
        lines = [f"{self.one} {number} {run.end()}" for number, run in runs.items() if LISTINGS[flag](run)]
        status = FOUND if bad else max([FINE, *(run.status for run in runs.values())])
        return Report([f"attempts {plain.attempts()}", *lines, f"bad {len(bad)}", *(bad[0].lines if bad else [])], status)


def failures(most: int, *fewer: Sweep) -> Sweep:
    """The sweep over sets of at most so many attempts, and others that try fewer."""
    return Sweep("sets", ("--failures", most), 3, more="set", most=most, fewer=fewer, before=400)


SINGLE = Sweep("single", ())
# the sweeps over numbers of which each makes attempts of all the run fail
BY_NUMBER = {
    "every": Sweep("every", ("--every",), option="--every", one="every"),
    "persistent": Sweep("persistent", ("--persistent",), 3, "--fail-from", "persistent"),
}
PAIRS = Sweep("pairs", ("--pairs",), more="pair", most=2, fewer=(SINGLE,))
FAILURES = failures(3, SINGLE, PAIRS, failures(1), failures(2))
SETS = Sweep(
    "sets", ("--sets",), 3, more="set", most=math.inf, before=400, largest=2,
    fewer=(SINGLE, PAIRS, failures(4)), none_of=tuple(BY_NUMBER.values()),
)


class Swept:
    def __init__(self, sweep: Sweep, script: Script) -> None:
        self.sweep, self.script, self.must = sweep, script, script.must
        self.words = spelled("sweep", *sweep.flags)
        self.told = self.part()
        self.plain = self.run(())
        self.attempts = self.plain.attempts()

    def part(self, *words: str | int) -> Report:
        """What the sweep answers to a part of the numbers, or with a further option."""
        return self.script.answer("sweep", *self.sweep.flags, *words)

    def run(self, numbers: Numbers) -> Report:
        return self.script.run(*self.sweep.run(numbers))

    def compare(self) -> Numbers | None:
        """Compares all that a sweep answers, and gives the numbers that it finds."""
        self.must(self.plain == self.script.run(), f"`run {spelled(*self.sweep.run(()))}` isn't the run without failure")
        self.must(not is_bounded(self.told), f"`{self.words}` gives {self.told.shown()}, and so many states aren't met")
        self.compare_forms(self.told, self.sweep.flags, self.sweep.values(), lambda plain: number_of(plain.status, self.told))
        found = found_in(self.told)
        is_set = found is None or len(found) <= self.sweep.most and list(found) == sorted(set(found))
        self.must(is_set, f"`{self.words}` finds {found}, which is no such set")
        for numbers in self.to_try(found):
            self.must(self.run(numbers).status == FINE, f"`{self.words}` passes over {numbers}")
        bad = self.run(found or ())
        wanted = self.sweep.answer(self.attempts, found, bad)
        is_right = self.told == wanted and (found is None or bad.status != FINE)
        self.must(is_right, f"`{self.words}` gives {self.told.shown()} in place of {wanted.shown()}")
        # no set that lacks one number of those that are found shows anything
        for number in (found or ()) if self.sweep.most > 1 else ():
            fewer = tuple(it for it in found or () if it != number)
            self.must(self.run(fewer).status == FINE, f"`{self.words}` gives {found}, and {fewer} shows something too")
        self.compare_past()
        self.compare_others(found)
        self.compare_parts(found)
        return found

    def compare_forms(
        self, told: Report, flags: Words, values: dict[str, object], more: Callable[[Report], dict[str, object]] = lambda plain: {}
    ) -> None:
        """Whether `check` with the same flags and the JSON of both say the same; the JSON may hold more of a report."""
        for command, plain in (("sweep", told), ("check", self.script.compare_check(told, *flags))):
            self.script.compare_object(plain, values | more(plain), command, *flags)

    def sets(self, many: int) -> Iterator[Numbers]:
        """All numbers of this count of which runs make attempts, in their order."""
        if many == 0:
            yield ()
            return
        for fewer in self.sets(many - 1):
            first = fewer[-1] + 1 if fewer else 1
            yield from ((*fewer, last) for last in range(first, self.run(fewer).attempts() + 1))

    def first_sets(self, many: int) -> list[Numbers]:
        """The first of them: all but where there are very many."""
        return list(islice(self.sets(many), MET))

    def to_try(self, found: Numbers | None) -> Iterator[Numbers]:
        """The numbers before those that are found, or some of them; some of all where none is found."""
        for many in range(int(min(self.sweep.most, self.sweep.largest) if found is None else len(found)) + 1):
            sets = [it for it in self.first_sets(many) if found is None or many < len(found) or it < found]
            if found is None and many > 1:
                yield from spread(sets, TRIED)
                yield from spread([it for it in sets if it[-1] > self.attempts], TRIED_LATE)
            else:
                yield from spread(sets, MET if many < 2 else self.sweep.before)

    def compare_past(self) -> None:
        """Whether a number past the last attempt of a run changes nothing. At the ceiling there is an attempt that no line tells of."""
        for numbers in (it for many in range(int(min(self.sweep.most, 3))) for it in spread(self.first_sets(many), TRIED_PAST)):
            run = self.run(numbers)
            past = max(run.attempts(), *numbers, 0) + 1
            for more in ((past,), (past + 1,), (past, past + 1)) if "cut ceiling" not in run.lines else ():
                if len(numbers) + len(more) <= self.sweep.most:
                    is_same = self.run((*numbers, *more)) == run
                    self.must(is_same, f"{more} with {numbers} changes the run, which makes no such attempt")

    def compare_others(self, found: Numbers | None) -> None:
        """Whether sweeps over fewer numbers find the same, as far as they go, and nothing is found by others where nothing is by this."""
        for other in self.sweep.fewer:
            is_tried = found is not None and len(found) <= other.most
            self.script.compare(other.answer(self.attempts, found if is_tried else None, self.run(found or ())), "sweep", *other.flags)
        if found is None and self.sweep.none_of:
            for other in self.sweep.none_of:
                self.script.compare(other.answer(self.attempts, None, self.plain), "sweep", *other.flags)
            told = self.script.answer("lengths")
            is_none = told.status == FINE and told.lines[-1] == "length none"
            self.must(is_none, f"`lengths` gives {told.shown()}, and `{self.words}` none")

    def compare_parts(self, found: Numbers | None) -> None:
        """Whether each part finds the least of its numbers with the lines of its run, as far as single numbers and what the whole finds
        show it. A part may meet too many states past a single number that the whole finds; else sets of few find the same in it."""
        singles, is_cut = [(), *self.first_sets(1)], self.plain.status == CUT
        later = [(found[0] + 1 if found else 1, CEILING)] if found is not None and len(found) < 2 else []
        for first, last in (*parts_of(0 if self.told.status == CUT else self.attempts), *later):
            inside = [it for it in (*singles, *([] if found is None else [found])) if is_cut or first <= (it or (0,))[0] <= last]
            least = next((it for it in inside if self.run(it).status != FINE), None)
            words = part_words(first, last)
            told = self.part(*words)
            its, is_short = found_in(told), is_bounded(told)
            if is_short:
                is_right = least is None and found is not None and len(found) < 2
            else:
                is_later = its is None or found is not None and first <= (its or (0,))[0] <= last and (len(its), its) > (len(found), found)
                is_least = its == least if least is not None else is_later
                is_right = is_least and told == self.sweep.answer(self.attempts, its, self.run(its or ()))
            self.must(is_right, f"`{self.words} {spelled(*words)}` gives {told.shown()}")
            for other in self.sweep.fewer[-1:] if self.sweep == SETS else ():
                few = self.script.answer("sweep", *other.flags, *words)
                is_none = few == other.answer(self.attempts, None, self.plain) and (is_short or its is None or len(its) > other.most)
                is_same = is_none if found_in(few) is None else told == few
                self.must(is_same, f"`{self.words} {spelled(*words)}` gives {told.shown()}, and `{spelled(*other.flags)}` {few.shown()}")

    def compare_each(self, found: Numbers | None) -> bool:
        """Runs the sets in their order, up to the one that is found, or all; False where these would be too many."""
        if self.attempts > FEW_ATTEMPTS:
            return False
        many = 0
        while sets := self.first_sets(many):
            for numbers in sets:
                if len(self.script.known) > RUNS:
                    return False
                if self.run(numbers).status != FINE:
                    self.must(numbers == found, f"`{self.words}` passes over {numbers}")
                    return True
            many += 1
        self.must(found is None, f"`{self.words}` finds {found}, whose attempts no run makes")
        return True

    def compare_listing(self, flag: str) -> str:
        """Compares what the sweep and its parts list with this flag, and gives what comes of it."""
        flags, is_cut = (*self.sweep.flags, flag), self.plain.status == CUT
        runs = {number: self.run((number,) if number else ()) for number in range(self.attempts + 1)}
        told = [[number, run.end()] for number, run in runs.items() if LISTINGS[flag](run)]
        whole = self.script.compare(self.sweep.listed(self.plain, runs, flag), "sweep", *flags)
        self.compare_forms(whole, flags, {"version": 3, "kind": self.sweep.kind, "all": None if is_cut else told})
        for first, last in parts_of(self.attempts):
            some = {number: run for number, run in runs.items() if first <= number <= last}
            self.script.compare(self.sweep.listed(self.plain, some, flag), "sweep", *flags, *part_words(first, last))
        if is_cut:
            return f"{flag}: a cut run without failure"
        if {CUT, FOUND} <= {run.status for run in runs.values()}:
            return f"{flag}: a cut beside others"
        return f"{flag}: {('nothing', 'one number', 'more numbers')[min(2, len(told))]}"

    def compare_states(self, found: Numbers | None) -> list[str]:
        """Compares the answers with few states, and gives what comes of them: whether some are cut, and some past one failure."""
        if found is not None and len(found) < 2:
            for states in STATES:
                self.script.compare(self.told, "sweep", *self.sweep.flags, "--states", states)
            return []
        self.script.compare(self.script.answer("sweep"), "sweep", "--states", 1)
        reached = [self.reached_with(found, states) for states in STATES]
        self.must(reached[0] in (None, 1), f"`{self.words} --states 1` meets states of sets of {reached[0]}")
        self.must(reached[0] == 1 or self.attempts <= ATTEMPTS_PAST_ONE, f"`{self.words} --states 1` isn't cut")
        bounded = [it for it in reached if it is not None]
        is_rising = reached[: len(bounded)] == bounded == sorted(bounded)
        self.must(is_rising, f"`{self.words}` with {STATES} states meets those of sets of {reached}")
        later = bounded[1:]
        return ["cut states"] * bool(later) + ["cut states past one failure"] * (max(later, default=1) > 1)

    def reached_with(self, found: Numbers | None, states: int) -> int | None:
        """To which number of failures nothing is found where so many states may be met; None where all is told as without that bound."""
        told, words = self.part("--states", states), f"{self.words} --states {states}"
        if told == self.told:
            return None
        number = int(told.lines[1].removeprefix("set none to ")) if is_bounded(told) else 0
        none = failures(number).answer(self.attempts, None, self.plain)
        self.must(told == Report([*none.lines, "cut states"], CUT), f"`{words}` gives {told.shown()}")
        is_before = number >= 1 and (found is None or number < len(found))
        self.must(is_before, f"`{words}` finds nothing to {number}, and there is {found}")
        self.must(self.has_more_states(number + 1, states), f"`{words}` is cut, and there are no more than {states} states")
        if number <= MOST_COMPARED:
            self.script.compare(none, "sweep", "--failures", number)
        return number

    def has_more_states(self, most: int, states: int) -> bool:
        """Whether there are more than so many states, with sets of at most so many attempts. A run whose last attempt the ceiling cuts has
        asked for it."""
        count = 0
        for numbers in (it for many in range(most + 1) for it in self.sets(many)):
            run = self.run(numbers)
            count += run.attempts() + ("cut ceiling" in run.lines) - (numbers or (0,))[-1]
            if count > states:
                return True
        return False


def number_of(status: int, sweep: Report) -> dict[str, object]:
    """How many attempts an object tells and which numbers, by the sweep that it is of; null where it is a cut."""
    if status == CUT:
        return {"attempts": None, "number": None}
    found = found_in(sweep)
    number = "none" if found is None else list(found) if len(found) > 1 else (found or (0,))[0]
    return {"attempts": int(sweep.lines[0].removeprefix("attempts ")), "number": number}


def found_in(sweep: Report) -> Numbers | None:
    """The numbers that a sweep finds, or whose run is cut; none of them is the run without failure. None where it finds none."""
    words = sweep.lines[0 if sweep.status == CUT else 1].split(" ")[1:]
    numbers = tuple(int(it) for it in words if it.isdigit())
    return None if words[0] == "none" else () if numbers == (0,) else numbers


def is_bounded(sweep: Report) -> bool:
    """Whether more states are met than may be."""
    return sweep.status == CUT and sweep.lines[-1] == "cut states"


def parts_of(last: int) -> list[tuple[int, int]]:
    """The first and the last number of three parts that have all numbers up to the last attempt and past it together; fewer where there
    are few numbers."""
    ends = sorted({last // 3, 2 * last // 3})
    return list(zip([0, *(it + 1 for it in ends)], [*ends, CEILING]))


def part_words(first: int, last: int) -> Words:
    return ("--from", first) if last == CEILING else ("--from", first, "--to", last)


def spread(given: list[T], count: int) -> list[T]:
    """So many of them, from the first to the last, at even distances; all where there are no more."""
    return given if len(given) <= count else [given[at * (len(given) - 1) // (count - 1)] for at in range(count)]
