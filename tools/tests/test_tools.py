"""The one door to the tools; the gate, `./test`: what counts as a failure, and how it runs tools side by side; and what has no tests in a
file of its own: runs of programs, what is installed, bodies that make the error for memory that ran out, and what the tools refuse that try
how robust the program is: lines of progress, and answers where allocations fail."""

import contextlib
import io
import os
import re
import sys
import tempfile
import time
import unittest
from argparse import Namespace
from concurrent.futures import ThreadPoolExecutor
from pathlib import Path
from types import ModuleType
from unittest.mock import patch

from tools import door, run_cases
from tools.build import PLACES, install
from tools.common import PROGRAM, ROOT, TOOLS, Answer, NoAnswer, Tally, Trials, answer_of
from tools.comparisons import compare
from tools.crates import Crates
from tools.door import COMMANDS, Outcome, ToolRun, ToolRuns, said_by
from tools.failing_allocations import NO_MEMORY, Trial
from tools.layout import differences
from tools.progress import KINDS, Kind, Shown, look_at_lines, screen
from tools.sessions import run_section, sections_of
from tools.tests import InRoom
from tools.worked_cases import meaning, spelled


class Door(unittest.TestCase):
    def test_each_module_is_a_command_or_a_part(self) -> None:
        files = {".".join(it.relative_to(TOOLS).with_suffix("").parts): it for it in TOOLS.rglob("[a-z]*.py") if it.parent.name != "tests"}
        texts = {name: it.read_text(encoding="utf-8") for name, it in files.items()}
        modules = {it.partition(":")[0] for it in COMMANDS.values()}
        mains = {name for name, text in texts.items() if re.search(r"\ndef \w+\(words: list\[str\]\) -> int:\n", text)}
        self.assertEqual({*modules, "door"}, mains)
        used = re.findall(r"from tools\.([\w.]+) import", "\n".join([*texts.values(), (ROOT / "test").read_text(encoding="utf-8")]))
        self.assertEqual(texts.keys() - {"door", *modules, *used}, set())

    def test_commands(self) -> None:
        status, listed, _ = said_by("--help")
        self.assertEqual(status, 0)
        for command in COMMANDS:
            self.assertRegex(listed, rf"(?m)^  {command} +[A-Z].*\.$")
            # the other one hands all of its words on
            if command != "workbench":
                status, said, _ = said_by(command, "--help")
                self.assertEqual((status, f"usage: dev {command} " in said), (0, True), command)
        status, said, messages = said_by("walk")
        self.assertEqual((status, said), (2, ""))
        self.assertIn("there is no command walk", messages)


class Sessions(unittest.TestCase):
    def test_each_line(self) -> None:
        file = TOOLS / "tests/sessions.txt"
        for name in sections_of(file):
            with self.subTest(name), contextlib.redirect_stdout(io.StringIO()) as said:
                tally = Tally()
                run_section(name, PROGRAM, tally, file)
                self.assertEqual((tally.failed, tally.passed > 1), (0, True), said.getvalue())

    def test_a_line_that_says_or_ends_otherwise(self) -> None:
        with tempfile.NamedTemporaryFile("w") as file:
            print("==== one\nsay() { echo $1; }\n\n$ say 1\n$ say 2\n1\n= 0\n$ say 3; false\n3\n= 0\n$ say 4\n4", file=file, flush=True)
            tally = Tally()
            with contextlib.redirect_stdout(io.StringIO()):
                run_section("one", PROGRAM, tally, Path(file.name))
        self.assertEqual(tally, Tally(1, 3))


class Cases(unittest.TestCase):
    def test_each_byte_and_some_texts(self) -> None:
        texts = [bytes([it]) for it in range(256)] + [bytes([it, 10]) for it in range(256)]
        texts += [b"", b"\n", b"\n\n#", b"a \n", b"a\\\n", b"\\{2:a\\}", bytes(range(256)) * 2]
        texts += [mark + rest for mark in (b"=== a", b"--- status 0", b"$ run", b"$", b"--- ", b"$run", b" $ run") for rest in (b"", b"\n")]
        for text in texts:
            lines = spelled(text)
            self.assertEqual(meaning("".join(f"{it}\n" for it in lines)), text)
            self.assertRegex("".join(lines), r"\A[ -~]*\Z")
            self.assertFalse(any(it.endswith(" ") or it.startswith(("=== ", "--- ", "$ ")) or it == "$" for it in lines), text)

    def test_what_is_repeated(self) -> None:
        for line, text in (
            (r"\{3:a\}", b"a\na\na\n"),
            (r"b\{3:a\}", b"baaa\n"),
            (r"\{2:a\nb\x41\\\}", b"a\nbA\\\na\nbA\\\n"),
            (r"\{8..10:p\# \#\}", b"p8 8\np9 9\np10 10\n"),
            (r"\{az..bb, 1..9 by 4:\#1=\#2;\}\{2:.\}", b"az=1;ba=5;bb=9;..\n"),
            ("\\{2:\\n\\}\\", b"\n\n"),
        ):
            self.assertEqual(meaning(f"{line}\n"), text, line)

    def test_a_program_that_does_not_end(self) -> None:
        with patch.object(run_cases, "answer_of", side_effect=NoAnswer("no answer within 1 s")):
            said = said_by("cases", "guide/two-cells.run", "large-buffers-and-long-names")
        self.assertEqual((said.status, said.output.splitlines()[0]), (1, "guide/two-cells.run: no answer within 1 s"))
        self.assertRegex(said.output, r"cases:\d+: no answer within 1 s\n0 passed, \d+ failed\n$")


class Programs(unittest.TestCase):
    def test_no_program_and_no_answer(self) -> None:
        with self.assertRaisesRegex(SystemExit, "there is no program /none"):
            answer_of(Path("/none"))
        with self.assertRaisesRegex(NoAnswer, "no answer within 0.1 s"):
            answer_of(Path(sys.executable), "-c", "import time; time.sleep(60)", seconds=0.1)


class Installed(InRoom):
    def test_what_is_installed(self) -> None:
        # this stands in for the program, which may not be built
        program, prefix = self.put("program", "first"), self.room / "a prefix"
        self.enterContext(contextlib.redirect_stdout(io.StringIO()))
        places = {program if source == PROGRAM else source: place for source, place in PLACES.items()}
        program.chmod(0o700)
        install(prefix, places)
        with (prefix / PLACES[PROGRAM]).open(encoding="ascii") as running:
            program.write_text("second", encoding="ascii")
            install(prefix, places)
            # one that runs keeps its own
            self.assertEqual(running.read(), "first")
        found = {it.relative_to(prefix).as_posix(): it for it in prefix.rglob("*") if it.is_file()}
        self.assertEqual(sorted(found), sorted(PLACES.values()))
        for source, place in places.items():
            self.assertEqual(found[place].read_bytes(), source.read_bytes(), place)
            self.assertEqual(found[place].stat().st_mode & 0o777, 0o755 if place.startswith("bin/") else 0o644, place)


class NoMemory(InRoom):
    def test_a_body_that_is_new_or_gone_is_named(self) -> None:
        self.put("crates.txt", "low:\n")
        self.put("crates/low/src/lib.rt", "fn made() -> Result<u8, NoMemory>\n{\n    Err(NoMemory::from(AllocError))\n}\n")
        for listed, count in {"low/src/lib.rt made: why": 0, "low/src/lib.rt made": 1, "low/src/lib.rt other: why": 2}.items():
            self.assertEqual(len(differences(Crates(self.room), self.put("kept.txt", listed))), count, listed)


SINGLE, RATES, PAIRS, LENGTHS, SETS, RUN, _ = KINDS
LEFT = ", 22% done, 7 s left"


def tried(number: int, left: str = LEFT, what: str = "attempt") -> str:
    return f"{what} {number} of 40" + f", nothing up to {number - 1}" * (number > 1) + left


def first(many: int, number: int, left: str = LEFT) -> str:
    return f"{many} attempts, attempt {number} of 40 first" + f", none up to {number - 1}" * (number > 1) + left


# what is said of sweeps of 40 attempts in three seconds, each with its second, behind `trying `: what is right, and what isn't
GOOD_LINES: list[tuple[Kind, list[tuple[float, str]]]] = [
    (SINGLE, [(2.0, tried(9)), (2.1, tried(12))]),
    (RATES, [(2.5, tried(40, what="rate"))]),
    (PAIRS, [(2.0, "sets of 2 attempts, 1200 states met, 35 wait, nothing with fewer, 1 s"), (2.1, first(2, 2))]),
    (LENGTHS, [(2.0, "a heap of 4111 bytes, 99% of the lengths done"), (2.1, "a heap of 4095 bytes, 99% of the lengths done")]),
    (RUN, [(2.0, "running, 8192 steps taken"), (2.1, "running, 12288 steps taken")]),
    (SETS, [(2.0, first(2, 9, "")), (2.1, first(3, 1))]),
]
BAD_LINES: list[tuple[Kind, list[tuple[float, str]]]] = [
    # no line; one too early; too many; no estimate
    *((SINGLE, it) for it in ([], [(1.0, tried(9))], [(2.1, tried(number)) for number in range(1, 30)], [(2.5, tried(9, ""))])),
    # of others, past the last, one that shows nothing too many or none, another sort
    *((SINGLE, [(2.5, it)]) for it in (f"attempt 9 of 41, nothing up to 8{LEFT}", tried(41), tried(0), tried(9, what="rate"), first(2, 9))),
    *((SINGLE, [(2.5, f"attempt 9 of 40{it}{LEFT}")]) for it in (", nothing up to 9", "")),
    # out of order, and twice the same
    *((SINGLE, [(2.1, tried(9)), (2.3, tried(it))]) for it in (8, 9)),
    (PAIRS, [(2.1, first(2, it)) for it in (9, 8)]),
    (SETS, [(2.0, first(3, 1)), (2.1, first(2, 9, ""))]),
    (LENGTHS, [(2.0, "a heap of 4095 bytes, 99% of the lengths done"), (2.1, "a heap of 4127 bytes, 99% of the lengths done")]),
    (RUN, [(2.0, "running, 8192 steps taken"), (2.1, "running, 4096 steps taken")]),
    # an estimate before larger sets, nothing done, and less than before
    (SETS, [(2.0, first(2, 9)), (2.1, first(3, 1))]),
    (SETS, [(2.0, first(2, 9, ""))]),
    (SETS, [(2.1, first(3, it, f", {23 - it}% done, 9 s left")) for it in (1, 2)]),
    # another share of the lengths, and no multiple of the steps
    (LENGTHS, [(2.0, "a heap of 4095 bytes, 98% of the lengths done")]),
    (RUN, [(2.0, "running, 8191 steps taken")]),
]

# a program of so many allocations, what it answers with enough memory, and otherwise
LAST = 6
PLAIN = Answer(b"one\ntwo\n", b"", 0)
WRONG = Answer(b"two\n", b"", 0)
STOPPED = NO_MEMORY._replace(output=b"one\nno memory\n")


class Lines(unittest.TestCase):
    def test_lines(self) -> None:
        for kind, lines in [*GOOD_LINES, *BAD_LINES]:
            checks, pieces = Trials(Path()), [(at, f"\rtrying {line}".encode()) for at, line in lines]
            with self.subTest(lines), contextlib.redirect_stdout(io.StringIO()):
                look_at_lines(checks, kind, "a sweep", 40, Shown([*pieces, (2.9, b"attempts 40\r\n")], 0, 3.0))
                self.assertEqual(checks.failed == 0, (kind, lines) in GOOD_LINES)

    def test_a_line_that_is_wiped_or_left(self) -> None:
        self.assertEqual(screen(b"\rtrying 10 of 40\rtrying 9 of 40 \r              \rleaks 0\r\n"), ["leaks 0", ""])
        self.assertEqual(screen(b"\rtrying 10 of 40\rleaks 0\r\n"), ["leaks 010 of 40", ""])


class RunsSideBySide(InRoom):
    """A program of six allocations, with given answers by how they fail and by number."""

    def fault(self, answers: dict[tuple[str, int], Answer]) -> tuple[str | None, int, int]:
        """What is wrong where the runs answer so, and else as with enough memory; later numbers answer sooner."""

        def run(trial: Trial, how: str, number: int) -> Answer:
            time.sleep(0.01 * (LAST - number) if number else 0)
            return answers.get((how, number), PLAIN)

        self.put("program.count", f"8 1\n{LAST}\n")
        with ThreadPoolExecutor(4) as pool, patch.object(Trial, "run", run), patch.object(Trial, "asked_needlessly", return_value=None):
            return Trial(self.room / "program", None, self.room, pool).fault()

    def test_answers(self) -> None:
        self.assertEqual(self.fault({}), (None, LAST, 0))
        self.assertEqual(self.fault({("from", 2): NO_MEMORY, ("from", 5): STOPPED, ("each", 1): NO_MEMORY}), (None, LAST, 3))
        # the first wrong one is named; a single failure must change nothing
        fault, last, wanting = self.fault({("from", 1): NO_MEMORY, ("from", 3): WRONG, ("from", 4): WRONG, ("each", 1): WRONG})
        self.assertRegex(fault or "", "^from 3 of 6: ")
        self.assertEqual((last, wanting), (LAST, 0))
        self.assertRegex(self.fault({("once", 2): STOPPED})[0] or "", "^once 2 of 6: ")


# programs in the place of tools, by their commands
CODE = {
    "right": "print('one'); print('2 passed, 0 failed')",
    "wrong": "import sys; print('two', file=sys.stderr); print('4 passed, 3 failed'); sys.exit(1)",
    "silent": "pass",
    "late": "import sys; print('2 passed, 0 failed'); sys.exit(1)",
    "waiting": "import time; time.sleep(0.3); print('1 passed, 0 failed')",
    "told": "import os; print(os.environ['RT_JOBS'], 'processors'); print('1 passed, 0 failed')",
    # waits for another one that runs beside it
    "meeting": "import signal, sys; signal.alarm(60); open(*sys.argv[1:]).close(); print('1 passed, 0 failed')",
}


class OfTheGate(InRoom):
    def setUp(self) -> None:
        super().setUp()
        # the gate's file has no ending, so it is read by its path
        self.gate = ModuleType("gate")
        vars(self.gate)["__file__"] = str(ROOT / "test")
        exec((ROOT / "test").read_text(encoding="utf-8"), vars(self.gate))
        self.said = self.enterContext(contextlib.redirect_stdout(io.StringIO()))

    def test_what_a_command_says(self) -> None:
        for said, status, may_be_none, counts in (
            ("3 passed, 0 failed", 0, False, Tally(3, 0)),
            ("3 passed, 2 failed", 1, False, Tally(3, 2)),
            # a failure that isn't said
            ("3 passed, 0 failed", 1, False, Tally(3, 1)),
            *((it, 0, False, Tally(0, 1)) for it in ("", "3 passed", "gate: 3 passed, 1 failed", "3 passed, 0 failed\nmore")),
            # nothing tried
            ("0 passed, 0 failed", 0, False, Tally(0, 1)),
            ("0 passed, 0 failed", 0, True, Tally(0, 0)),
        ):
            words = [sys.executable, "-c", f"print({said!r}); raise SystemExit({status})"]
            self.assertEqual(self.gate.tally(words, may_be_none=may_be_none), counts, (said, status))
        # tests that are left out
        for said, counts in {"Ran 2 tests\n\nOK": (1, 0), "Ran 0 tests\n\nOK": (0, 1), "Ran 2 tests\n\nOK (skipped=1)": (0, 1)}.items():
            checked = self.gate.check("tests", [sys.executable, "-c", f"print({said!r})"], unfit=self.gate.UNTRIED)
            self.assertEqual(checked, Tally(*counts))

    def test_each_tool_that_runs_the_program_is_run_once(self) -> None:
        def pass_once(runs: ToolRuns, tool: ToolRun, jobs: int) -> None:
            runs.outcomes.append(Outcome(tool.name(), Tally(1, 0), 0.0))

        with patch.object(ToolRuns, "run", autospec=True, side_effect=pass_once) as ran:
            counted = self.gate.runs()
        names = [it.args[1].name() for it in ran.call_args_list]
        self.assertEqual((counted, len(set(names))), (Tally(len(names), 0), len(names)))
        # all but one that takes long, and one that hands its words on
        program = {it for it in COMMANDS.keys() - {"fuzz", "workbench"} if " --program " in said_by(it, "--help").output}
        self.assertEqual({it.split()[0] for it in names}, program)
        self.assertLessEqual({"failing-allocations --same", "pages --runs", *(f"compare {it}" for it in compare.KINDS)}, set(names))
        self.assertEqual(sorted(it.split()[0] for it in self.said.getvalue().splitlines()[1:]), sorted(it.split()[0] for it in names))

    def test_how_long_wrong_bodies_are_tried(self) -> None:
        for is_all, minute, last in (
            *((False, 0, "15"), (False, 135, "15"), (False, 143, "7"), (False, 149, "1"), (False, 150, None), (False, 170, None)),
            (True, 170, "--all"),
        ):
            now = self.gate.BEGUN + 60 * minute
            part = next(it for it in self.gate.parts_of(Namespace(quick=False, crates=[], all=is_all)) if it.name == "wrong bodies")
            with patch.object(self.gate, "tally", return_value=Tally(1, 0)) as tally, patch("time.monotonic", lambda now=now: now):
                told = part.run()
            self.assertEqual((part.is_needed, told), (False, Tally(int(last is not None), 0)))
            if last:
                self.assertEqual(tally.call_args.args[0][3:], ["wrong-bodies", "--after-ci", *(["--minutes"] if not is_all else []), last])
                self.assertEqual(tally.call_args.kwargs.get("may_be_none", False), not is_all)
        self.assertIn("no wrong bodies were tried", self.said.getvalue())

    def test_proofs_with_their_minutes(self) -> None:
        self.put("rt", "#!/bin/sh\necho 'rt: wb_basics proved'\necho '3 passed, 0 failed'\n")
        path = f"{self.room}{os.pathsep}{os.environ['PATH']}"
        with patch.dict(os.environ, PATH=path), patch.object(self.gate, "building", contextlib.nullcontext):
            self.assertEqual(self.gate.gate(), Tally(3, 0))
        self.assertEqual(self.said.getvalue(), "   0.0 rt: wb_basics proved\n   0.0 3 passed, 0 failed\n")

    def test_what_is_tried_after_a_failure(self) -> None:
        for is_needed, first, total in (
            (True, Tally(1, 0), Tally(3, 0)), (True, Tally(1, 1), Tally(1, 1)), (False, Tally(1, 1), Tally(3, 1))
        ):
            self.said.truncate(0)
            second = [Tally(2, 0)]
            parts = [self.gate.Part("first", lambda first=first: first, is_needed), self.gate.Part("second", second.pop)]
            self.assertEqual(self.gate.run_parts(parts), total)
            self.assertEqual("nothing else was tried" in self.said.getvalue(), total == Tally(1, 1))
            self.assertEqual(len(second), int(total == Tally(1, 1)))

    def run_all(self, *tools: ToolRun, lanes: int = 2) -> tuple[str, dict[str, Tally]]:
        """What is printed where these are run, and what each counts as."""
        self.runs = ToolRuns()
        self.said.truncate(0)
        with patch.object(door, "tool", lambda command, *words: [sys.executable, "-c", CODE[command], *words]):
            self.runs.run_all(tools, lanes)
        return self.said.getvalue(), {it.name: it.tally for it in self.runs.outcomes}

    def test_what_is_shown_and_counted_in_which_order(self) -> None:
        said, tallies = self.run_all(*(ToolRun((it,)) for it in ("waiting", "right", "wrong", "silent", "late")), lanes=1)
        blocks = ("waiting\n1 passed, 0 failed", "right\none\n2 passed, 0 failed", "wrong\ntwo\n4 passed, 3 failed", "silent", "late\n")
        self.assertTrue(said.startswith("".join(f"== {it}\n" for it in blocks)[:-1]), said)
        self.assertEqual(list(tallies.values()), [Tally(1, 0), Tally(2, 0), Tally(4, 3), Tally(0, 1), Tally(2, 1)])

    def test_they_run_side_by_side_on_some_processors(self) -> None:
        os.mkfifo(self.room / "pipe")
        _, tallies = self.run_all(*(ToolRun(("meeting", str(self.room / "pipe"), it)) for it in "rw"))
        self.assertEqual(list(tallies.values()), [Tally(1, 0), Tally(1, 0)])
        others = [ToolRun((it,)) for it in ("right", "wrong", "silent", "late")]
        for count, is_spread, is_long, beside, lanes in (
            *((1, False, False, [], 4), (4, True, False, [], 4)),
            *((1, True, False, others, 4), (2, True, True, others, 4), (1, True, True, others, 1)),
        ):
            said, _ = self.run_all(ToolRun(("told",), is_spread, is_long), *beside, lanes=lanes)
            self.assertIn(f"{count} processors", said)
