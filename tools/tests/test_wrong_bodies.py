"""Wrong bodies: how they are written, and which edits are none; which verdicts stand after a change, and which are open; and what the tool
tries of a small repository, in which order and within which time. The toolchain itself tries some, and those tests fail without it; for
others one stands in that only answers, or hangs."""

import contextlib
import io
import os
import shutil
import subprocess
from collections.abc import Iterator
from pathlib import Path
from unittest.mock import patch

from tools.common import TOOLS, Tally
from tools.crates import version
from tools.door import said_by
from tools.edits import verdicts
from tools.edits.trial import Checks, Said, Trial, Verdict, is_disproof, read_verdict
from tools.edits.verdicts import FILE, MUST_FAIL, WRONG_BODIES, OpenSource, Verdicts, WrittenEdit, logic_in, read_edits, written_edits
from tools.edits.wrong_bodies import AT_ONCE, PICKED_EDITS, Choice
from tools.tests import InRoom

KIT = "rattle-kit-0 logic 0"
LOGIC = "logic 0"


def section(name: str) -> str:
    """A part of the file of repositories."""
    return (TOOLS / "tests/repositories.txt").read_text(encoding="utf-8").partition(f"\n==== {name}\n")[2].partition("\n==== ")[0]


def files_in(repository: str) -> dict[str, str]:
    """The files of a repository, by their names."""
    return {name: f"{text.rstrip()}\n" for name, text in (part.split("\n", 1) for part in section(repository).split("\n== ")[1:])}


def changes() -> Iterator[tuple[str, str, str, str]]:
    """Changes of the tiny repository: the file, the old text, the new text, and the sources that are open then."""
    name = ""
    for line in section("changes").partition("\n\n")[2].splitlines():
        if line.startswith("    "):
            old, new, opened = line[4:].replace("\\n", "\n").split(" | ")
            yield name, old, new, {"all": ALL, "nothing": ""}.get(opened, opened)
        elif not line.startswith("#"):
            name = line


FILES = files_in("tiny")
ALL = "high chunk lib twice"

HIGH_EDITS, LOW_EDITS = "crates/high/wrong-bodies/lib.edits", "crates/low/wrong-bodies/lib.edits"
EDIT = "[too-little]\nfunction: low::next\nold:  - n + 1\nnew:  - n\n"

source, *edits = FILES[HIGH_EDITS].replace("=== src/lib.rt", "=== src/lib.rt\n").split("\n\n")
MOVED = "crates/high/wrong-bodies/further/numbers.edits"
# the texts of files, or None for a file that goes, with the sources that are open then
FURTHER: list[tuple[dict[str, str | None], str]] = [
    ({"crates/lowest/specs/More.antt": "pub two : ℕ\ntwo = 2\n"}, ALL),
    ({"crates/high/src/more_laws.rt": "pub fn two_is()\n    ensures { 2 ≡ 2 }\n{}\n"}, "high"),
    # edits in another order, and in another file; of another source they aren't the same edits
    ({HIGH_EDITS: "\n\n\n".join([source, *reversed(edits)])}, ""),
    ({HIGH_EDITS: None, MOVED: FILES[HIGH_EDITS]}, ""),
    ({HIGH_EDITS: None, MOVED: FILES[HIGH_EDITS].replace("lib.rt", "numbers.rt")}, "high"),
    # a file of edits less, and one without any
    ({LOW_EDITS: None}, ""),
    ({LOW_EDITS: ""}, "none"),
]


class InRepository(InRoom):
    files = FILES

    def setUp(self) -> None:
        super().setUp()
        self.enterContext(patch.dict(os.environ, RT_JOBS="1"))
        for name, text in self.files.items():
            self.put(name, text)

    def write_lines(self, logic: str = LOGIC, are_valid: bool = True) -> None:
        verdicts = Verdicts(self.room, logic)
        for crate in ("low", "high"):
            verdicts.write(crate, {it: verdicts.checksum(crate, it) if are_valid else "0" * 64 for it in verdicts.sources(crate)})

    def said_here(self, *words: str) -> tuple[int, list[str]]:
        """How the tool ends for this repository in this process, and what it says."""
        with patch("tools.edits.wrong_bodies.ROOT", self.room), patch("tools.edits.wrong_bodies.version", return_value=LOGIC):
            said = said_by("wrong-bodies", *words)
        return said.status, said.output.splitlines()


class WhatStands(InRepository):
    def setUp(self) -> None:
        super().setUp()
        self.write_lines()

    def opened(self, logic: str = LOGIC) -> str:
        """The sources that are open, by the crate or by its source."""
        verdicts = Verdicts(self.room, logic)
        found = [(crate, it) for crate in ("high", "low") for it in verdicts.open_sources(crate)]
        return " ".join(crate if crate == "high" else source or "none" for crate, source in found)

    def test_changes(self) -> None:
        self.assertEqual((self.opened(), self.opened("logic 1")), ("", ALL))
        self.assertEqual([(name, old) for name, old, _, _ in changes() if FILES[name].count(old) != 1], [])
        rows: list[tuple[dict[str, str | None], str]] = [({name: FILES[name].replace(old, new)}, its) for name, old, new, its in changes()]
        for files, opened in rows + FURTHER:
            for name, text in files.items():
                (self.room / name).unlink() if text is None else self.put(name, text)
            self.assertEqual(self.opened(), opened, files)
            for name in files:
                self.put(name, FILES[name]) if name in FILES else (self.room / name).unlink()
        # a line in another form
        lines = (self.room / FILE).read_text(encoding="utf-8")
        self.put(FILE, lines.replace("high/lib 2 ", "high/lib two "))
        self.assertEqual(self.opened(), "high")
        # an edit that is none, whatever its line says
        edits = "crates/low/wrong-bodies/twice.edits"
        self.put(edits, f"{FILES[edits]}\n{EDIT.replace('too-little', 'gone')}")
        self.write_lines()
        self.assertEqual(self.opened(), "twice")

    def write_days(self, days: dict[str, str]) -> None:
        """Gives sources lines of these days, which don't stand; and those without a day none."""
        lines = (self.room / FILE).read_text(encoding="utf-8").splitlines()
        kept = [it for it in lines if it.split()[0] not in days]
        self.put(FILE, "\n".join([*kept, *(f"{name} 1 {day} {'0' * 64}" for name, day in days.items() if day)]))

    def test_the_oldest_first(self) -> None:
        self.assertEqual(self.said_here("--open"), (0, ["open: no wrong body"]))
        self.write_days({"high/lib": "2026-11-01", "low/lib": "2026-11-02", "low/chunk": ""})
        lines = ["open: 4 wrong bodies of 3 sources", "  low/chunk: 1, never disproved"]
        lines += ["  high/lib: 2, last disproved on 2026-11-01", "  low/lib: 1, last disproved on 2026-11-02"]
        self.assertEqual(self.said_here("--open"), (0, lines))
        self.write_days({"high/lib": "2026-11-02", "low/twice": "2026-11-02", "low/chunk": "2026-11-02"})
        names = [f"{it.crate}/{it.source}" for it in Verdicts(self.room, LOGIC).open_in(["low", "high"])]
        self.assertEqual(names, ["high/lib", "low/chunk", "low/lib", "low/twice"])

    def test_the_number_of_the_readme_is_by_the_toolchain_that_it_names(self) -> None:
        self.write_days({"high/lib": "", "low/lib": ""})
        other = KIT.replace("logic 0", "logic 1")
        for said, count in {f"Proved with `{KIT}`.": 3, f"The program was proved with `{KIT}`": 3, f"Proved with `{other}`.": 5}.items():
            self.put("README.md", f"Its logic is proved. {said}")
            with patch("tools.edits.verdicts.ROOT", self.room):
                self.assertEqual(verdicts.number_of_open(), count)
        self.put("README.md", "Its logic is proved.")
        with patch("tools.edits.verdicts.ROOT", self.room):
            self.assertRaises(ValueError, verdicts.number_of_open)


# what is said of further edits, and their texts; the first is of the higher crate
RIGHT, *OF_LOW = files_in("further edits").items()


class SmallRepository(InRepository):
    """A repository of two crates, one below the other, with these tools in it."""

    files = files_in("small")

    def setUp(self) -> None:
        super().setUp()
        shutil.copytree(TOOLS, self.room / "tools", ignore=shutil.ignore_patterns("tests", "__pycache__"))

    def add(self, name: str, text: str) -> None:
        self.put(name, (self.room / name).read_text(encoding="utf-8") + text)

    def try_bodies(self, *words: str) -> tuple[list[str], int]:
        """What the tool prints, and its status."""
        ran = subprocess.run([self.room / "tools/dev", "wrong-bodies", *words], capture_output=True, text=True)
        return ran.stdout.splitlines(), ran.returncode

    def standing(self, logic: str = LOGIC) -> list[str]:
        """The sources whose lines stand."""
        verdicts = Verdicts(self.room, logic)
        return [f"{crate}/{it}" for crate in ("low", "high") for it in verdicts.sources(crate) if verdicts.stands(crate, it)]

    def write_source(self, crate: str, source: str, *names: str) -> None:
        """Adds a source with a wrong body for each of its functions, in the place of the repository's own."""
        for it in (LOW_EDITS, HIGH_EDITS):
            (self.room / it).unlink(missing_ok=True)
        functions = (f"/// A number.\npub fn {it}() -> u32\n{{\n    number({at})\n}}\n" for at, it in enumerate(names, 1))
        edits = [f"[{it}]\nfunction: {crate}::{source}::{it}\nold: number({at})\nnew: number(0)\n" for at, it in enumerate(names, 1)]
        self.put(f"crates/{crate}/src/{source}.rt", "\n".join(functions))
        self.put(f"crates/{crate}/wrong-bodies/{source}.edits", "\n".join([f"=== src/{source}.rt", *edits]))

    def choice(self, sources: dict[str, list[str]], picked: list[str], seed: str = "a commit") -> Choice:
        return Choice(Verdicts(self.room, LOGIC), sources, picked, seed, [WRONG_BODIES], [])


class ByTheToolchain(SmallRepository):
    def test_what_is_said_of_each_edit(self) -> None:
        lines, status = self.try_bodies()
        self.assertEqual((sorted(lines), status), (["2 passed, 0 failed", "high/too-little: disproved", "low/too-little: disproved"], 0))
        # an edit that is proved, with a line that says it was disproved
        self.add(HIGH_EDITS, f"\n{RIGHT[1]}")
        logic = logic_in(version())
        self.assertEqual(self.standing(logic), ["low/lib"])
        self.write_lines(logic)
        lines, status = self.try_bodies()
        self.assertEqual((RIGHT[0] in lines, lines[-1], status), (True, "2 passed, 1 failed", 1))
        # each clause must be disproved, or no line is written
        (self.room / FILE).unlink()
        self.add(LOW_EDITS, "".join(f"\n{edit}" for _, edit in OF_LOW))
        self.put("crates/low/wrong-bodies/further.edits", self.files[LOW_EDITS].replace("too-little", "all"))
        twice = "low/all: BAD EDIT: another edit of the crate has its name"
        lines, status = self.try_bodies("low")
        self.assertEqual(sorted(lines[:-1]), sorted(["low/too-little: disproved", twice, *(it for it, _ in OF_LOW[:-1])]))
        self.assertEqual((lines[-1], status, (self.room / FILE).exists()), ("3 passed, 2 failed", 1, False))
        (self.room / "crates/low/wrong-bodies/further.edits").unlink()
        lines, status = self.try_bodies("low", "--only", "all")
        self.assertEqual((lines, status, (self.room / FILE).exists()), (["low/all: disproved", "1 passed, 0 failed"], 0, False))


class WhatIsChosen(SmallRepository):
    def setUp(self) -> None:
        super().setUp()
        self.write_source("low", "first", *(f"a{it}" for it in range(2 * AT_ONCE + 1)))
        self.write_source("low", "standing", *(f"b{it}" for it in range(2 * PICKED_EDITS)))
        self.write_source("high", "second", "c")

    def test_some_of_many_and_all_of_few(self) -> None:
        def tried(seed: str, sources: dict[str, list[str]], *picked: str) -> list[str]:
            return sorted(it.label for batch in self.choice(sources, list(picked), seed).whole_batches() for it in batch.edits)

        self.assertEqual(len(tried("a commit", {"low": ["first", "standing"]})), 2 * AT_ONCE + 1 + 2 * PICKED_EDITS)
        some = tried("a commit", {}, "low")
        self.assertEqual((len(some), tried("a commit", {}, "low")), (PICKED_EDITS, some))
        self.assertNotEqual(tried("another", {}, "low"), some)
        self.assertEqual(tried("a commit", {}, "high"), ["high/c"])

    def test_a_few_of_one_source_and_by_turns_of_what_is_picked(self) -> None:
        choice, opened = self.choice({"low": ["first"], "high": ["second"]}, ["low"]), [("low", "first"), ("high", "second")]
        small = choice.small_batches([OpenSource("", *it, 0) for it in opened])
        found = [[it.label.partition("/")[2] for it in batch.edits] for batch in small]
        self.assertEqual([(its[0][0], len(its)) for its in found], [
            *(("a", AT_ONCE), ("b", AT_ONCE), ("a", AT_ONCE), ("b", AT_ONCE)),
            *(("a", 1), ("b", PICKED_EDITS - 2 * AT_ONCE), ("c", 1)),
        ])
        self.assertEqual([it for its in found[::2] for it in its], [*(f"a{it}" for it in range(2 * AT_ONCE + 1)), "c"])


class WithinATime(SmallRepository):
    """What the tool tries within a time, by a toolchain that only answers."""

    def setUp(self) -> None:
        super().setUp()
        (self.room / "crates/low/out/rlib").mkdir(parents=True)
        self.hanging = self.room / "hanging"
        path = f"{self.room / 'kit'}:{os.environ['PATH']}"
        self.environment = {**os.environ, "PATH": path, "TRIED": str(self.room / "tried"), "HANGING": str(self.hanging)}

    def hung(self) -> list[int]:
        return [int(it) for it in self.hanging.read_text(encoding="utf-8").split()] if self.hanging.exists() else []

    def test_a_check_that_runs_is_ended_and_what_came_before_is_kept(self) -> None:
        self.write_source("low", "last", "slow")
        self.write_lines(LOGIC, are_valid=False)
        self.write_source("low", "first", "one", "two")
        day = Verdicts(self.room, LOGIC).read()["low/last"].day
        # the time is over once a check hangs
        over = patch.object(Checks, "are_over", lambda _: bool(self.hung()))
        with over, patch("tools.edits.trial.take_as_built"), patch.dict(os.environ, self.environment):
            status, lines = self.said_here("--after-ci", "--minutes", "1")
        kept = ["low/one: disproved", "low/two: disproved", "open: 1 wrong body of 1 source", f"  low/last: 1, last disproved on {day}"]
        self.assertEqual((lines[:-2], lines[-1], status), (kept, "2 passed, 0 failed", 0))
        self.assertIn("./tools/dev pages --write", lines[-2])
        self.assertEqual(self.standing(), ["low/first"])
        self.assertEqual([Path(f"/proc/{it}").exists() for it in self.hung()], [False])

    def test_a_source_that_changes_meanwhile_has_no_line(self) -> None:
        for change, standing in (("\npub const TEN: u32 = 10;\n", []), ("", ["low/first"])):
            self.write_source("low", "first", "one")
            choice = self.choice({"low": ["first"]}, [])

            def check(*_: object, change: str = change) -> Verdict:
                self.add("crates/low/src/first.rt", change)
                return Verdict({"low::first::one": Said("disproved")})

            with patch("tools.edits.trial.take_as_built"), patch("tools.edits.trial.check", check):
                rooms = self.put(f"rooms{len(change)}/none", "").parent
                trial = Trial(choice.verdicts, rooms, Checks(), choice.sources)
                with contextlib.redirect_stdout(io.StringIO()):
                    trial.judge(choice.whole_batches()[0], 1)
            self.assertEqual((trial.tally, self.standing(), (self.room / FILE).exists()), (Tally(1, 0), standing, standing != []))


NARROW = "=== src/narrow.rt\n"
HEAD = "[even]\nfunction: low::narrow::length\n"
EVEN = f"{HEAD}old: 5\nnew: 6\n"
MUST = "function: low::narrow::length\nfile: src/narrow.rt\nold: 5\nnew: 6\n"
TWICE = "another edit of the crate has its name"
NOT_UNDERSTOOD = "what stands there isn't understood: "

# files of edits beside the two, and which of their edits is none, or which file holds another thing, and why
BAD = (
    *(("all.edits", NARROW + EVEN + it, "even", TWICE) for it in (EVEN, f"\n{EVEN}")),
    ("../must-fail/longer.edit", MUST, "longer", TWICE),
    ("../must-fail/even.edits", MUST, "even.edits", "its name doesn't end in .edit"),
    ("even.edit", NARROW + EVEN, "even.edit", "its name doesn't end in .edits"),
    ("all.edits", NARROW, "all.edits", "it holds no edit"),
    ("all.edits", EVEN, "even", "there is no file  below src/"),
    ("all.edits", f"old: 5\n{NARROW}{EVEN}", "all.edits", f"{NOT_UNDERSTOOD}old: 5"),
    ("all.edits", NARROW + MUST, "all.edits", f"{NOT_UNDERSTOOD}function: low::narrow::length"),
    ("../must-fail/even.edit", MUST.partition("\n")[2], "even.edit", f"{NOT_UNDERSTOOD}[even]"),
    *(
        ("all.edits", f"{NARROW}{HEAD}{lines}\n", "all.edits", f"{NOT_UNDERSTOOD}[even]")
        for lines in ("old: 5\nfile: src/narrow.rt\nnew: 6", "old: 5\nold: 5\nnew: 6", "old: 5", "[Even]\nold: 5\nnew: 6")
    ),
    *(
        ("all.edits", f"{NARROW}{HEAD}old: {old}\nnew: 6\n", "even", f"an 'old:' text is in src/narrow.rt {count} times, and not once")
        for old, count in (("6", 0), ("u", 2))
    ),
    ("all.edits", f"{NARROW}{EVEN.replace('6', '5')}", "even", "it changes nothing"),
    ("all.edits", f"{NARROW}[even]\nfunction: \nold: 5\nnew: 6\n", "even", "its first line names no function"),
)


class CrateOfEdits(InRepository):
    files = files_in("edits")

    def setUp(self) -> None:
        super().setUp()
        self.crate = self.room / "low"

    def test_disproved_is_what_has_an_open_goal(self) -> None:
        said = {name: it.text for name, it in read_verdict(self.files["printed"]).functions.items()}
        self.assertEqual(said, {"low::next": "disproved", "low::after_next": "", "low::put_next": "", "low::zero": "PROVED"})
        self.assertEqual([is_disproof(it) for it in ("disproved", "disproved, by a", "disproved only", "")], [True, True, False, False])

    def test_what_is_read_and_what_comes_of_the_sources(self) -> None:
        changes = (("src/deep/wide.rt", "    7", " [longer]"), ("src/narrow.rt", "5", ""))
        both = WrittenEdit("both-files", "low::wide::length", changes)
        longer = WrittenEdit("longer", "low::wide::length", (("src/deep/wide.rt", "    7", "    8"),))
        self.assertEqual(written_edits(self.crate, [WRONG_BODIES]), [both, longer])
        self.put("low/must-fail/shorter.edit", MUST)
        good, bad = read_edits(self.crate, [WRONG_BODIES, MUST_FAIL])
        wide, narrow = "src/deep/wide.rt", "src/narrow.rt"
        files = {"low/both-files": [wide, narrow], "low/longer": [wide], "low/shorter": [narrow]}
        self.assertEqual(({it.label: sorted(it.files) for it in good}, bad), (files, {}))
        self.assertIn("    8\n", good[1].files[wide])

    def test_edits_that_say_nothing_of_a_function(self) -> None:
        for name, text, edit, why in BAD:
            self.put(f"low/wrong-bodies/{name}", text)
            bad = read_edits(self.crate, [WRONG_BODIES, MUST_FAIL])[1]
            self.assertEqual({label: said[: len(why)] for label, said in bad.items()}, {f"low/{edit}": why}, (name, text))
            (self.crate / "wrong-bodies" / name).unlink()
