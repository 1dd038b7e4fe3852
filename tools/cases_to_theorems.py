"""Writes worked cases as theorems about the definitions, or compares those that are written.

Each accepted script of a case becomes a tree of `wb_tree/src/script.rt`, each report the value that the definitions must give for it, and
each case one theorem, proved by computing. They are in `proofs/WorkedCases` of `wb_worked`; check that crate then. A theorem that fails
means that the case and the definitions differ. Where a word of a script, a report or the arguments isn't known, this ends with the name of
the case and what Python says of the word.
"""

import argparse
import json
import re
import sys
import textwrap
from collections.abc import Iterable
from itertools import groupby
from pathlib import Path
from typing import Any, NamedTuple

from tools.common import CASES, CEILING, CUT, FINE, FOUND, ROOT, TOOLS, parser_of
from tools.terms import Reader, apply, cut_term, end_term, listed, rises_term, run_term
from tools.worked_cases import Case, CaseError, files_in, read

TASKS = ("run", "size", "lengths", "sweep", "check")
# the options with a number that hold where they aren't given, the others, and the flags
SHAPE = {"budget": 10000, "min": 4096, "step": 4096, "from": 0, "to": CEILING}
NUMBERS = SHAPE | dict.fromkeys(("limit", "fail", "fail-from", "also", "failures", "states"))
FLAGS = ("pairs", "persistent", "sets", "all", "moving", "json")
# the failures that a sweep tries, by the word of the line that says that none was found, and the flags that ask for those
FAILURES = {"number": "Single", "every": "Every", "pair": "Pairs", "persistent": "Persistent"}
TRIED = {"every": "every", "pairs": "pair", "persistent": "persistent"}
# longer runs are left out, which may pass the checker's limits, and longer tables of lengths, since each range is two runs to compute
MOST_STEPS = 100_000
MOST_RANGES = 10
# the groups that are left out: words, and reports without rows; what stands on standard error; scripts that are as long as they may be,
# each of them a long term; and what `proofs/PersistentExamples.antt` has
LEFT_OUT = ("command-line", "explained", "limits", "persistent-and-ends")

WORKED = ROOT / "crates/wb_worked"
# the module of what all have in common, which definitions cite too, and the one that names the others, which are in a folder of its name
COMMON = "Shorthands"
SHARED, PROOFS = f"specs/{COMMON}.antt", "proofs/WorkedCases"
# no line is longer, unless a single word is, and a file is begun anew before its theorems have more lines; its head comes on top of them
WIDTH, LINES = 140, 350

# the imports that a file may need, and what all theorems have in common, below a comment
SHORTHANDS = TOOLS / "shorthands.txt"
# the files of specs/ of this crate whose `unfoldable` definitions a run computes through, beside those that are named there
MEANING = ROOT / "crates/wb_meaning"
COMPUTED_IN = ("Attempts", "Meaning", "Operands", "Reading", "Run", "State", "Statements")
WRITTEN = "Written by tools/cases_to_theorems.py; edit nothing here."


class Accepted(NamedTuple):
    """An accepted case: its script and shape as terms, its arguments, and the lines of its text report. What each command's text says is a
    method of its name, which gives the claims."""

    name: str
    given: str
    arguments: argparse.Namespace
    report: list[str]

    def of(self, what: str) -> str:
        """A function of the definitions for the script, the budget and the shape."""
        return f"{what} {self.name} {self.given}"

    def rest(self, at: int, word: str) -> str:
        """What a line of the report says behind its first word, which must be this one: no definition has another one's name."""
        return self.report[at].removeprefix(f"{word} ")

    def is_part(self) -> bool:
        return (self.arguments.first, self.arguments.last) != (0, CEILING)

    def run(self) -> list[str]:
        """Which run it is under a rule."""
        return [f"{apply('run', self.name, rule_of(self.arguments))} {self.given} ≡ {run_term(self.report)}"]

    def size(self) -> list[str]:
        """Which length is required, and what shorter heaps refuse."""
        if self.report[0].startswith("cut "):
            return [f"(run {self.name} R.Unlimited {self.given}).outcome ≡ {cut_term(self.report[0].split(' ')[2])}"]
        return [f"{self.of('required')} ≡ {self.rest(0, 'required')}", f"{self.of('rises')} ≡ {rises_term(self.report)}"]

    def lengths(self) -> list[str]:
        """How the runs at the first and the last length of each range end, and which run is that at the least bad length."""
        ranges = [line.split(" ") for line in self.report if line.startswith("from ")]
        least = self.rest(len(ranges), "length")
        lasts = [int(words[1]) - 1 for words in ranges[1:]] + [CEILING]
        ends = [(length, end_term(words[2:])) for words, last in zip(ranges, lasts) for length in sorted({int(words[1]), last})]
        claims = [f"{self.of('end_in')} {length} ≡ {end}" for length, end in ends]
        bad = [] if least == "none" else [f"{self.of('run_in')} {least} ≡ {run_term(self.report[len(ranges) + 1 :])}"]
        return claims + bad

    def sweep(self) -> list[str]:
        """How many attempts there are, which numbers are found, and their run."""
        a, report, is_cut = self.arguments, self.report, self.report[0].startswith("cut ")
        tried = next((word for flag, word in TRIED.items() if getattr(a, flag)), "number")
        runs, least = (self.of(f"{name} {FAILURES[tried]}") for name in ("runs_of", "least_bad_or_cut"))
        if a.all or self.is_part():
            runs, least = f"({runs})", ""
        found, single = runs, list[str]()
        if tried == "pair" and not a.all:
            # a single number that was found or cut before any pair was tried is told of as by a sweep of numbers
            tried = "pair" if len(report[0].split(" ")) == 4 or not is_cut and report[1].startswith("pair ") else "number"
        if tried == "pair" and not a.all:
            found, single, least = self.of("pair_run"), [f"{least} ≡ None"], self.of("least_bad_or_cut_pair")
        if is_cut:
            _, *numbers, why = report[0].split(" ")
            before = [] if a.all else self.found(runs, least, numbers)
            return [*single, *before, f"({found} {' '.join(numbers)}).outcome ≡ {cut_term(why)}"]
        made = f"length ({runs} 0).trace ≡ {self.rest(0, 'attempts')}"
        if a.all:
            return [made, *self.all(runs)]
        numbers = self.rest(1, tried).split(" ")
        run = [] if numbers == ["none"] else [f"{found} {' '.join(numbers)} ≡ {run_term(report[2:])}"]
        return [made, *single, *self.found(runs, least, numbers), *run]

    def found(self, runs: str, least: str, numbers: list[str]) -> list[str]:
        """That these are the least numbers that aren't fine, or that all are fine; of a part of the numbers, that those before are fine."""
        first, last, is_none = self.arguments.first, self.arguments.last, numbers == ["none"]
        if least:
            return [f"{least} ≡ " + ("None" if is_none else apply("Some", ", ".join(numbers)))]
        if is_none:
            return [f"unfine_in {runs} (part {first} {last}) ≡ []"]
        return [f"unfine_numbers {runs} {first} {max(int(numbers[0]) - first, 0)} ≡ []"]

    def all(self, runs: str) -> list[str]:
        """How the runs of all numbers end that are told, and of the least bad one that run."""
        count = [line.split(" ")[0] for line in self.report].index("bad")
        told = [line.split(" ") for line in self.report[1:count]]
        ends = listed([apply("ending", number, end_term(words)) for _, number, *words in told])
        claims = [f"unfine_in {runs} (part {self.arguments.first} {self.arguments.last}) ≡ {ends}"]
        bad = [number for _, number, word, *_ in told if word in ("leaks", "panic")]
        return [*claims, f"{runs} {bad[0]} ≡ {run_term(self.report[count + 1 :])}"] if bad else claims

    def check(self) -> list[str]:
        """What a size text says, and a sweep text where the size wasn't cut."""
        swept = next((at for at, line in enumerate(self.report) if at > 0 and line.split(" ")[0] in ("attempts", "cut")), len(self.report))
        size, sweep = self._replace(report=self.report[:swept]), self._replace(report=self.report[swept:])
        return size.size() + (sweep.sweep() if sweep.report else [])


def arguments_of(case: Case) -> argparse.Namespace:
    parser = argparse.ArgumentParser(case.place, add_help=False, allow_abbrev=False)
    parser.add_argument("task", choices=TASKS)
    parser.add_argument("file", type=Path, nargs="?")
    for name, default in NUMBERS.items():
        parser.add_argument(f"--{name}", type=int, default=default, dest={"from": "first", "to": "last"}.get(name))
    for name in FLAGS:
        parser.add_argument(f"--{name}", action="store_true")
    parser.add_argument("--set")
    # a number of `run`, and a flag of the others
    every: dict[str, Any] = {"type": int} if case.args[:1] == ["run"] else {"action": "store_true"}
    parser.add_argument("--every", **every)
    return parser.parse_intermixed_args(case.args)


def rule_of(a: argparse.Namespace) -> str:
    numbers = "".join(f"{int(it)} ∷ " for it in (a.set or "").split(",") if it) + "[]"
    given = [
        (a.set, f"R.Set ({numbers})"),
        (a.limit, f"R.Limit {a.limit}"),
        (a.also, f"R.Pair {a.fail} {a.also}"),
        (a.fail, f"R.Number {a.fail}"),
        (a.every, f"R.Every {a.every}"),
        (a.fail_from, f"R.From {a.fail_from}"),
    ]
    return next((rule for value, rule in given if value is not None), "R.Unlimited")


def accepted(case: Case, name: str) -> tuple[Accepted, str] | None:
    """An accepted case with the text of its script; None if it is left out: it has no report, is about sets of failures or a part of the
    pairs, or is too long."""
    if case.name.split(".")[-1] not in TASKS or case.status not in (FINE, FOUND, CUT):
        return None
    a = arguments_of(case)
    if a.failures is not None or a.sets:
        return None
    report = case.stdout.decode().removesuffix("\n").split("\n")
    if a.json:
        report = list(json.loads(case.stdout)["lines"])
    shape = f"{a.budget} ({'shaped_moving' if a.moving else 'shaped'} {a.min} {a.step})"
    it = Accepted(f"script_{name}", shape, a, report)
    is_long = a.task == "run" and int(report[-1].removeprefix("steps ")) > MOST_STEPS
    has_many = a.task == "lengths" and sum(line.startswith("from ") for line in report) > MOST_RANGES
    if is_long or has_many or a.pairs and it.is_part():
        return None
    return it, ((ROOT / a.file).read_bytes() if a.file else case.script).decode()


def theorem(name: str, it: Accepted, text: str) -> str:
    claims: list[str] = getattr(it, it.arguments.task)()
    claim, proof = claims[0], "refl"
    if len(claims) > 1:
        claim, proof = " × ".join(f"({claim})" for claim in claims), f"({', '.join(['refl'] * len(claims))})"
    script = f"abbrev {it.name} : Script\n{it.name} = {Reader(text).script()}\n\n"
    return f"{script}{name} : {claim}\nunfolding everything\n{name} = {proof}\n"


def theorems_of(cases: list[Case]) -> dict[str, dict[str, str]]:
    """The theorems of these cases by what they are about and their names."""
    theorems: dict[str, dict[str, str]] = {}
    for case in cases:
        name = re.sub(r"^(?![A-Za-z])", "case_", re.sub(r"[^A-Za-z0-9]", "_", case.name))
        try:
            if told := accepted(case, name):
                if any(name in some for some in theorems.values()):
                    sys.exit(f"two cases are called {name}")
                theorems.setdefault(case.group.split("/")[0], {})[name] = theorem(name, *told)
        except (LookupError, ValueError) as unknown:
            sys.exit(f"{case.place}: {unknown!r}")
    return theorems


def shorthands(lines: list[str]) -> str:
    """What all theorems have in common; it opens each definition that a run computes through and that is `unfoldable`."""
    shut = []
    for stem in COMPUTED_IN:
        names = re.findall(r"^unfoldable pub (\S+)", (MEANING / f"specs/{stem}.antt").read_text(encoding="utf-8"), re.MULTILINE)
        shut += [f"    Rattle.{MEANING.name}.specs.{stem}.{name}" for name in names]
    at = lines.index("everything = tt")
    return without_unused([f"-- What the theorems of worked cases have in common. {WRITTEN}", *lines[:at], *shut, *lines[at:]])


def theorem_file(lines: list[str], subject: str, theorems: Iterable[str]) -> str:
    """A file of theorems, each line of which has at most so many characters."""
    names = ", ".join(["everything", *(it[1] for it in map(re.compile(r"abbrev pub (\S+) :").match, lines) if it)])
    common = f"use Rattle.{WORKED.name}.specs.{COMMON}.{{{names}}}"
    head = [f"-- Worked cases of `{subject}`, each by computing. {WRITTEN}", *(it for it in lines if it.startswith("use ")), common, ""]
    return "\n".join(map(wrapped, without_unused([*head, *"\n".join(theorems).split("\n")]).split("\n")))


def wrapped(line: str) -> str:
    """A line, broken at blanks where it is too long; what comes after a break is indented. Of imported names each has a line then."""
    if len(line) > WIDTH and (names := re.fullmatch(r"(use \S+\.\{)(.*)\}", line)):
        return "\n".join([names[1], *(f"  {name}," for name in names[2].split(", ")), "}"])
    return textwrap.fill(line, WIDTH, subsequent_indent="    ", break_long_words=False, break_on_hyphens=False)


def without_unused(lines: list[str]) -> str:
    """The text of an antt file without the imported names that it doesn't use."""
    rest = "\n".join(line for line in lines if not line.startswith("use "))
    # the fields of a record aren't names
    words = re.findall(r"[^\s(){};]+", re.sub(r"([{;]\s)\S+ =", r"\1=", rest))
    used, kept = {*words, *(it.split(".")[0] for it in words)}, []
    for line in lines:
        if listed := re.fullmatch(r"use (\S+)\.\{(.*)\}", line):
            names = [name for name in listed[2].split(", ") if name.strip("◌") in used]
            kept += [f"use {listed[1]}.{{{', '.join(names)}}}"] if names else []
        elif not (renamed := re.fullmatch(r"use \S+ as (\S+)", line)) or renamed[1] in used:
            kept.append(line)
    return "\n".join(kept)


def parts_of(theorems: dict[str, str]) -> list[list[str]]:
    """The names of theorems in their order, parted between first letters so that no part is too long where that can be."""
    parts: list[list[str]] = []
    length = 0
    for _, names in groupby(sorted(theorems), key=lambda name: name[0].lower()):
        some = list(names)
        # each with an empty line after it
        more = sum(wrapped(line).count("\n") + 1 for name in some for line in theorems[name].split("\n"))
        if not parts or length + more > LINES:
            parts.append([])
            length = 0
        parts[-1] += some
        length += more
    return parts


def module_of(subject: str, names: list[str], is_whole: bool) -> str:
    """The name of the module that holds these theorems: what they are about and, if it holds a part of them, their first letters."""
    name = "".join(word.capitalize() for word in re.split(r"[^A-Za-z0-9]+", subject))
    first, last = names[0][0].upper(), names[-1][0].upper()
    return name if is_whole else name + (first if first == last else f"{first}To{last}")


def files_of(theorems: dict[str, dict[str, str]]) -> dict[str, str]:
    lines = SHORTHANDS.read_text(encoding="utf-8").split("\n")[2:]
    modules = {}
    for subject, some in sorted(theorems.items()):
        parts = parts_of(some)
        for names in parts:
            modules[module_of(subject, names, len(parts) == 1)] = theorem_file(lines, subject, (some[name] for name in names))
    return {
        SHARED: shorthands(lines),
        f"{PROOFS}.antt": "".join(f"pub mod {it}\n" for it in modules),
        **{f"{PROOFS}/{it}.antt": text for it, text in modules.items()},
    }


def main(words: list[str]) -> int:
    parser = parser_of(__doc__)
    parser.add_argument("--in", type=Path, default=CASES, metavar="FOLDER", dest="folder", help="the folder of the groups, if not cases/")
    parser.add_argument("--out", type=Path, default=WORKED, help="the folder to write into, if not the crate's")
    parser.add_argument("--compare", action="store_true", help="write nothing, and fail where the files hold something else")
    chosen = parser.parse_args(words)
    try:
        groups = [read(file, name) for name, file in files_in(chosen.folder).items() if name.split("/")[0] not in LEFT_OUT]
    except CaseError as error:
        sys.exit(str(error))
    theorems = theorems_of([case for it in groups for case in it.cases()])
    files = {chosen.out / place: text for place, text in files_of(theorems).items()}
    places = [*(chosen.out / PROOFS).glob("*"), chosen.out / f"{PROOFS}.antt", chosen.out / SHARED]
    held = {it: it.read_text() for it in places if it.is_file()}
    other = sorted(it for it in {*files, *held} if files.get(it) != held.get(it))
    if chosen.compare and other:
        sys.exit(f"{other[0]} is not what these cases give: write the theorems anew")
    for file in other:
        file.parent.mkdir(parents=True, exist_ok=True)
        file.write_text(files[file]) if file in files else file.unlink()
    print(f"{sum(map(len, theorems.values()))} theorems")
    return 0
