"""Tries the crates' wrong bodies in batches: the prover must disprove each for its own sake.

The files `crates/NAME/wrong-bodies/*.edits` have a line `=== src/SOURCE.rt` above the wrong bodies of each source. Each of these has a line
`[NAME]`, a name of its own in the crate; a line `function: PATH`, the function that must be disproved, as a check names it, or
`function: every clause of PATH`; and pairs of lines `old: TEXT`, `new: TEXT`, where the old text stands once in the source. Below a line
`file: src/..` the texts are of that file.

A function's proof reads the contracts of what it calls, and not the bodies; so one check of a copy of the crate judges one wrong body each
of many functions. An edit that changes more than a function's body has a check of its own. Where a source's wrong bodies are all disproved,
its line in wrong-bodies.txt is written. A source is open if its line is missing or no longer stands. Without a crate's name, the wrong
bodies of all open sources are tried, and besides ten each of two crates whose lines stand, picked by the commit.

`--minutes N` tries a few edits at a time for so long, the oldest source first. A check that is running then is ended, and its edits don't
count. What stays open is listed, and `--open` lists it too. Libraries below that are missing are built, but for `--after-ci`.
"""

import argparse
import math
import random
import signal
import subprocess
import sys
import tempfile
from functools import partial
from itertools import groupby, zip_longest
from pathlib import Path
from types import FrameType

from tools.build import Build, Unproved
from tools.common import ROOT, Tally, parser_of
from tools.crates import Crates, Step, processors, run_steps, version
from tools.edits.trial import LIBRARY, Batch, Checks, Trial, batches
from tools.edits.verdicts import MUST_FAIL, WRONG_BODIES, Edit, OpenSource, Verdicts, list_of, logic_in, read_edits, written_edits

# of how many crates some are tried whose line stands, and how many edits of each at most: the largest crates take an hour as a whole
PICKED, PICKED_EDITS = 2, 10
# how many edits are tried together where the time is bounded: a check of a large crate loads for a minute, and then takes one for each
AT_ONCE = 4


class Choice:
    """What is tried: all wrong bodies of some sources, and some of other sources of crates that are picked, so that a line that isn't true
    comes to light."""

    def __init__(
        self, verdicts: Verdicts, sources: dict[str, list[str]], picked: list[str], seed: str, kinds: list[str], only: list[str]
    ) -> None:
        self.verdicts, self.sources = verdicts, sources
        # the edits of each crate that are tried, and those of its other sources of which some are; and why others are none, by their labels
        self.edits: dict[str, list[Edit]] = {}
        self.sample: dict[str, list[Edit]] = {}
        self.bad: dict[str, str] = {}
        for crate in dict.fromkeys([*sources, *picked]):
            good, bad = read_edits(verdicts.crates.folder(crate), kinds)
            others = verdicts.sources(crate).keys() - sources.get(crate, [])
            standing = {label for source in others for label in self.labels(crate, source)}
            wanted = {it for it in (*bad, *(it.label for it in good)) if it not in standing and (not only or it.partition("/")[2] in only)}
            self.edits[crate] = [it for it in good if it.label in wanted]
            self.bad |= {label: why for label, why in bad.items() if label in wanted}
            known = [it for it in good if it.label in standing]
            # for the same commit the same
            count = min(PICKED_EDITS, len(known)) if crate in picked else 0
            self.sample[crate] = random.Random(f"{seed} {crate}").sample(known, count)

    def labels(self, crate: str, source: str) -> list[str]:
        return [f"{crate}/{it.name}" for it in self.verdicts.sources(crate)[source]]

    def whole_batches(self) -> list[Batch]:
        whole = {crate: [*edits, *self.sample[crate]] for crate, edits in self.edits.items()}
        return [it for crate, edits in whole.items() for it in batches(crate, edits, len(edits))]

    def small_batches(self, opened: list[OpenSource]) -> list[Batch]:
        """Batches of a few edits: what is open, the oldest first, and by turns the sample, so that neither waits for the other."""
        good = {it.label: it for its in self.edits.values() for it in its}
        small: list[list[Batch]] = [[], []]
        for (_, crate), its in groupby(opened, lambda it: (it.day, it.crate)):
            labels = [label for it in its for label in self.labels(crate, it.source)]
            small[0] += batches(crate, [good[it] for it in labels if it in good], AT_ONCE)
        for crate, edits in self.sample.items():
            small[1] += batches(crate, edits, AT_ONCE)
        return [batch for turn in zip_longest(*small) for batch in turn if batch]


def choose(verdicts: Verdicts, crates: list[str], opened: list[OpenSource], kinds: list[str]) -> Choice:
    """The open sources of these crates, and two crates besides of which others stand, picked by the commit."""
    sources = {it: [one.source for one in opened if one.crate == it] for it in crates}
    standing = [it for it in crates if verdicts.sources(it).keys() - sources[it]]
    ran = subprocess.run(["git", "rev-parse", "HEAD"], cwd=verdicts.crates.root, capture_output=True, text=True)
    seed = ran.stdout.strip() or "".join(it.checksum for it in verdicts.read().values())
    picked = random.Random(seed).sample(standing, min(PICKED, len(standing)))
    return Choice(verdicts, {crate: it for crate, it in sources.items() if it}, picked, seed, kinds, [])


def words_parser() -> argparse.ArgumentParser:
    parser = parser_of(__doc__)
    parser.add_argument("--must-fail", action="store_true", help="try the edits of must-fail/ as well")
    parser.add_argument("--after-ci", action="store_true", help="`rt ci` has just built the libraries")
    parser.add_argument("--all", action="store_true", help="try all crates, and not only those whose line doesn't stand")
    parser.add_argument("--only", action="append", default=[], metavar="NAME", help="try the edits of that name alone, of one crate")
    parser.add_argument("--minutes", type=float, metavar="N", help="try what is open for so long at most")
    parser.add_argument("--open", action="store_true", help="list what is open, and try nothing")
    parser.add_argument("crates", nargs="*", metavar="CRATE")
    return parser


def fault_of(given: argparse.Namespace, crates: Crates, kinds: list[str]) -> str:
    """What can't be tried as the command line asks, if so."""
    for it in given.crates:
        if it not in crates.lines:
            return f"crates.txt lists no crate {it}"
    if given.only and len(given.crates) != 1:
        return "--only goes with the name of one crate"
    if (given.minutes is not None or given.open) and (given.crates or given.all or given.must_fail):
        return "--minutes and --open are about all that is open, and go with no crate, --all or --must-fail"
    names = {it.name for crate in given.crates for it in written_edits(crates.folder(crate), kinds)}
    return next((f"{given.crates[0]} has no edit {it}" for it in given.only if it not in names), "")


def run_trial(given: argparse.Namespace, choice: Choice, opened: list[OpenSource], folder: Path) -> Tally:
    """Tries what is chosen on copies below a folder, builds what they need, and lists what stays open where the time is bounded."""
    verdicts, crates = choice.verdicts, choice.verdicts.crates
    try:
        if not given.after_ci:
            Build(crates, list(choice.edits)).run(processors())
        for crate in choice.edits:
            if missing := next((it for it in crates.below(crate) if not (crates.folder(it) / LIBRARY).is_dir()), None):
                raise Unproved(f"{missing}, below {crate}, is not built")
    except Unproved as why:
        print(f"not tried: {why}")
        return Tally(0, 1)
    # the time counts from here on
    checks = Checks(math.inf if given.minutes is None else 60 * given.minutes)
    trial = Trial(verdicts, folder, checks, {} if given.only else choice.sources)
    trial.say({label: f"BAD EDIT: {why}" for label, why in choice.bad.items()})
    if given.minutes is None:
        size = {it: sum(file.stat().st_size for file in crates.files(it)) for it in choice.edits}
        # the largest begin first
        steps = [Step(it.crate, partial(trial.judge, it), size[it.crate] * len(it.edits)) for it in choice.whole_batches()]
    else:
        steps = [Step(it.crate, partial(trial.judge, it), -at, most=1) for at, it in enumerate(choice.small_batches(opened))]
    run_until_stopped(steps, processors(), checks)
    if given.minutes is not None:
        still = [it for it in opened if it.source in trial.unsettled[it.crate]]
        print(list_of(still))
        if len(still) < len(opened):
            print("the lines that were written are to be committed, with the number in the README: ./tools/dev pages --write")
    return trial.tally


def run_until_stopped(steps: list[Step], lanes: int, checks: Checks) -> None:
    """Runs steps. Where a signal comes, or a step fails, the checks that are running are ended, as no other process would do; with the
    number of the signal this process ends then."""
    stopped: list[int] = []

    def stop(number: int, _: FrameType | None) -> None:
        stopped.append(number)
        checks.stop()

    before = {it: signal.signal(it, stop) for it in (signal.SIGINT, signal.SIGTERM, signal.SIGHUP)}
    try:
        run_steps(steps, lanes)
    finally:
        checks.stop()
        for it, handler in before.items():
            signal.signal(it, handler)
    if stopped:
        sys.exit(128 + stopped[0])


def main(words: list[str]) -> int:
    parser, crates = words_parser(), Crates(ROOT)
    given = parser.parse_args(words)
    # with --only an edit's name says enough
    kinds = [WRONG_BODIES, MUST_FAIL] if given.must_fail or given.only else [WRONG_BODIES]
    if fault := fault_of(given, crates, kinds):
        parser.error(fault)
    verdicts = Verdicts(ROOT, logic_in(version()))
    if given.open:
        print(list_of(verdicts.open_in(verdicts.crates.lines)))
        return 0
    names = [it for it in given.crates or crates.lines if any((crates.folder(it) / kind).is_dir() for kind in kinds)]
    if given.crates or given.all:
        opened: list[OpenSource] = []
        choice = Choice(verdicts, {it: list(verdicts.sources(it)) for it in names}, [], "", kinds, given.only)
    else:
        opened = verdicts.open_in(names)
        choice = choose(verdicts, names, opened, kinds)
    with tempfile.TemporaryDirectory(prefix="wrong-bodies-", ignore_cleanup_errors=True) as folder:
        return run_trial(given, choice, opened, Path(folder)).end(may_be_none=True)
