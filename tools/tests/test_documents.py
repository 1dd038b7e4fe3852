"""Which sets a comparison of sweeps tries, which outcomes are too few, and how scripts are made: whether wrong answers are seen, `compare`
itself tries on the program. What is wrong with a picture that shows something else than the reports of its runs. What is read of pages, and
which words of the language and of C++ they have, beside the sources that have them; and what the files for editors make of scripts and of
messages. A grammar is read by a small reader that is here: from each place of a line on, the rule holds that fits soonest, and of those
that fit at the same place the first."""

import json
import random
import re
import unittest
from collections import Counter
from collections.abc import Iterator
from dataclasses import replace
from pathlib import Path
from typing import Any
from unittest.mock import patch

from bench.tables import measured_on, table_of, with_table
from tools import language
from tools.common import CEILING, DOCS, FINE, ROOT, examples
from tools.comparisons import compare, sweeps
from tools.comparisons.compare import KINDS, seen_lies, too_few
from tools.comparisons.scripts import PARTS, Report, Script, scripts
from tools.comparisons.sweeps import FAILURES, SETS, Swept, parts_of, spread
from tools.documents.pages import MEASURED, pages, sentences
from tools.documents.picture_reports import Picture, faults_of
from tools.door import said_by
from tools.language import CONFIGURATION, EDITORS, SCOPES, lines_by_kind
from tools.tests import InRoom


class PlainScript(Script):
    """A script that shows nothing: the run without failure makes three attempts, and each that fails brings one more, but for the first."""

    def __init__(self) -> None:
        super().__init__(Path(), b"")

    def answer(self, *words: str | int) -> Report:
        failing = str(words[-1]).split(",") if "--set" in words else []
        attempts = 1 if "1" in failing else min(3 + len(failing), 7)
        return Report([*(f"attempt {it + 1}" for it in range(attempts)), "ended", "leaks 0", "steps 1"], FINE)


class WhatIsTried(InRoom):
    def test_sets_in_their_order(self) -> None:
        swept = Swept(FAILURES, PlainScript())
        tried = list(swept.to_try((2, 4, 5)))
        self.assertEqual(tried, [(), (1,), (2,), (3,), (2, 3), (2, 4), (3, 4), (2, 3, 4), (2, 3, 5)])
        self.assertEqual(set(swept.to_try(None)), {*tried, (2, 4, 5), (3, 4, 5)})
        with patch.object(sweeps, "TRIED", 2):
            # the first and the last of each size, and those of which the run without failure doesn't make the last
            self.assertEqual(list(swept.to_try(None))[4:8], [(2, 3), (3, 4), (2, 4), (3, 4)])
            self.assertEqual(list(swept.to_try(None))[8:], [(2, 3, 4), (3, 4, 5), (2, 3, 4), (2, 3, 5), (2, 4, 5), (3, 4, 5)])
        for name in ("RUNS", "FEW_ATTEMPTS"):
            with patch.object(sweeps, name, -1):
                self.assertFalse(Swept(SETS, PlainScript()).compare_each(None))

    def test_numbers_at_even_distances_and_parts_that_have_all_once(self) -> None:
        self.assertEqual((spread(list(range(2, 12)), 4), spread([2, 3], 4)), ([2, 5, 8, 11], [2, 3]))
        for last in range(9):
            firsts, lasts = zip(*parts_of(last))
            self.assertEqual((firsts, lasts[-1]), ((0, *(it + 1 for it in lasts[:-1])), CEILING))

    def test_wrong_answers_that_are_too_few(self) -> None:
        self.assertEqual([seen_lies(KINDS["forks"], Path(f"/bin/{it}"), compare.LIED[0]) for it in ("true", "false")], [1, 0])
        with patch.object(compare, "KINDS", {"forks": replace(KINDS["forks"], seen=9)}):
            said = said_by("compare", "forks", "--program", "/bin/true", "--scripts", "0")
        self.assertIn("forks: 4 wrong answers are seen, and 9 are wanted\n", said.output)

    def test_outcomes_that_are_rare(self) -> None:
        wanted = "20 none; 10 2 numbers*; 1 cut 2 numbers*"
        outcomes = {"none": 20, "2 numbers": 4, "2 numbers late": 6, "cut 2 numbers at the budget": 1}
        self.assertEqual(too_few(wanted, Counter(outcomes), 100), [])
        for it in outcomes:
            self.assertEqual(len(too_few(wanted, Counter(outcomes | {it: outcomes[it] - 1}), 100)), 1)

    def test_what_is_printed_and_kept(self) -> None:
        words = ("--program", "/bin/true", "--scripts", "5", "--keep", self.room)
        self.assertEqual((said_by("compare", "forks", *words).status, list(self.room.iterdir())), (0, []))
        status, said, _ = said_by("compare", "every", *words)
        self.assertEqual((status, (self.room / "every-made-4.oom").exists()), (1, True))
        self.assertIn("every: made 4: ", said)
        self.assertIn("every: too few scripts with none: 0 of 5, and 1 are wanted", said)
        self.assertEqual(said_by("compare", "walk").status, 2)

    def test_scripts_that_are_made(self) -> None:
        made = scripts()
        self.assertEqual((scripts(20), made[:20]), (scripts(40)[:20], scripts(20)))
        self.assertNotEqual(scripts(20), scripts(20, seed=2))
        self.assertGreaterEqual(len(set(made)), 290)
        words = {line.split()[0] for it in made for line in it.splitlines()}
        asking = {"alloc", "allocl", "realloc", "hnew", "hnewl", "hrealloc", "newleave", "push", "pushobj", "pushop"}
        self.assertLessEqual(asking | {"failnext", "failevery", "failnone", "mark", "trap", "leave"}, words)
        for part in (it for sort, parts in PARTS.items() if sort != "moving" for it in parts):
            right, wrong = ([part.body(random.Random(seed), is_wrong) for seed in range(5)] for is_wrong in (False, True))
            self.assertTrue(all(one != other for one, other in zip(right, wrong)), part.name)


PICTURE = (DOCS / "pictures/second-phase-leaks.svg").read_text(encoding="utf-8")
LINES = PICTURE.splitlines(keepends=True)
FIRST = ["attempt 1 length 144 place 0 granted", "attempt 2 length 48 place 144 granted"]
REPORTS = {
    "run": [*FIRST, "attempt 3 length 64 place 192 granted", "ended", "leaks 0", "steps 8"],
    "run --set 3": [*FIRST, "attempt 3 length 64 place 192 simulated", "left -4", "leaks 1", "leak 2 length 48 place 144", "steps 3"],
    "size": ["required 256", "from 0 refuses 1", "from 144 refuses 2", "from 192 refuses 3", "enough from 256"],
    "lengths": ["from 0 nocleanup", "from 144 left -4", "from 192 leaks 1", "from 256 ended", "length 192"],
}
# the numbers of a report that a picture shows; and those of its rectangles of attempts and cells, and of their titles
SHOWN = re.compile(r"(?:length|place|leak|steps|left|required|from|refuses) -?(\d+)")
DRAWN = re.compile(r'(?: x="| y="| height="|place |by attempt )(\d+)|(\d+) bytes at')


def line(begins: str, among: list[str] = LINES) -> str:
    return next(it for it in among if it.startswith(begins))


def others(row: str, numbers: re.Pattern[str]) -> Iterator[str]:
    """A row with each of these numbers greater."""
    for at, end in (it.span(it.lastindex or 0) for it in numbers.finditer(row)):
        yield f"{row[:at]}{int(row[at:end]) + 16}{row[end:]}"


HEADING = line('<text class="h" x="76" y="4')
LATER = line('<text class="h"', LINES[LINES.index(HEADING) + 1 :])
LEAK, LAST = line('<rect class="cell leak"'), LINES[-1]
BAND = '<rect class="band" x="1" y="1" width="9" height="9"><title>TRAPs: 2, in steps 1 to 2</title></rect>'
SCALE = '<text class="dim" x="1" y="1">up to 2</text>'
ENTRY = '<rect class="ref" x="1" y="1" width="14" height="11"/><text class="" x="1" y="1">refused by the limit</text>'
RECT = '<rect class="cell ob1" x="1" y="1" width="1" height="1"><title>cell 9</title></rect>'
# what a picture may have in the place of some text, and the faults that it has then
OTHER_PICTURES = [
    (line('<path class="need strong" d="M76 100L'), "", "lengths are"),
    (line('<text class="n" x="342"'), "", "a leak has no label"),
    (HEADING, HEADING + RECT, "a rectangle of a cell has the title of none"),
    ('x="396" y="100" width="533"', 'x="396" y="100" width="633"', "a cell is from"),
    ('y="161" width="747" height="46"', 'y="160" width="748" height="47"'),
    (LEAK, LEAK.replace('width="320"', 'width="5"'), "a cell is from", "a leak is 5 pixels wide"),
    (LAST, ENTRY + LAST, "entries of the legend are"),
    (LATER, LATER + BAND + SCALE, "the scales of bands are [], and"),
    (LATER, LATER.replace("in which attempt 3 fails", "of attempt 3"), "no rule has this heading"),
]
# what the end of a run, drawn once more, may have in the place of some text, and the fault that it has then
LEGEND = line('<rect class="stk"')
LOWER = PICTURE[PICTURE.index(LATER) : PICTURE.index(LEGEND)]
END = LOWER.replace(LATER, '<text class="h" x="1" y="1">The end of this run once more: attempts 1 to 3, from step 0 on</text>')
OTHER_ENDS = [
    ("", ""),
    ("attempts 1 to 3", "attempts 2 to 3", "the first and the last attempt are"),
    ("attempt 2, granted: 48", "attempt 2, granted: 32", "attempts are"),
    ("leak: cell 2", "leak: cell 1", "leaks are"),
    ('x="182"', 'x="192"', "a cell is from"),
]


class OfPictures(unittest.TestCase):
    def faults(self, picture: str = PICTURE, command: str = "check", **other: list[str]) -> list[str]:
        """What is wrong with a picture beside these reports."""
        return list(faults_of(Picture(picture), command, lambda words: (REPORTS | other)[" ".join(words)]))

    def assert_faults(self, wanted: list[str], picture: str = PICTURE, command: str = "check", **other: list[str]) -> None:
        """A picture must have one fault for each of these texts, with it."""
        found = self.faults(picture, command, **other)
        self.assertEqual([part in fault for fault, part in zip(found, wanted)], [True] * max(len(found), len(wanted)), found)

    def test_each_number_and_each_shape(self) -> None:
        self.assert_faults([])

        for words, report in REPORTS.items():
            for at, row in enumerate(report if words != "lengths" else []):
                for changed in () if row.startswith("enough") else others(row, SHOWN):
                    self.assertTrue(self.faults(**{words: [*report[:at], changed, *report[at + 1 :]]}), changed)
        for row in (it for it in LINES if it.startswith(('<rect class="cell', '<path class="strong"')) and "bytes at" in it):
            for changed in ["", *(others(row, DRAWN) if "<rect" in row else [])]:
                self.assertTrue(self.faults(PICTURE.replace(row, changed, 1)), changed or row)

    def test_other_pictures(self) -> None:
        for old, new, *faults in OTHER_PICTURES:
            self.assertEqual(PICTURE.count(old), 1, old)
            self.assert_faults(faults, PICTURE.replace(old, new))
        above = PICTURE.replace(HEADING, SCALE + HEADING)
        self.assert_faults(["the scales of bands are [], and"], above.replace(LATER, LATER + BAND + SCALE))
        self.assert_faults(["it has no panel"], '<svg xmlns="http://www.w3.org/2000/svg"/>')
        for old, new, *faults in OTHER_ENDS:
            self.assert_faults(faults, PICTURE.replace(LEGEND, END.replace(old, new) + LEGEND))

    def test_a_table_of_ends(self) -> None:
        self.assert_faults(["rows of the table are"], command="lengths")
        picture = PICTURE
        for row, other in (("0 refuses 1", "0 no cleanup stack"), ("144 refuses 2", "144 left with -4"), ("192 refuses 3", "192 1 leak")):
            picture = picture.replace(f"from {row}", f"from {other}")
        self.assert_faults(["'rect from 256 ended'"], picture, "lengths")
        self.assert_faults([], picture, "lengths", lengths=REPORTS["lengths"][:3])

    def test_folded_places(self) -> None:
        labels = ((0, 100), (1, 80), (2, 60), (1000, 20), (1001, 0))
        places = "".join(f'<text class="e dim">{place}</text><path class="grid" d="M1 {y}H9"/>' for place, y in labels)
        fold = '<rect class="paper"><title>places 2304 to 1023000 are drawn shorter</title></rect>'
        text = f'<svg xmlns="http://www.w3.org/2000/svg"><text class="h">a run</text><text class="e dim">KiB</text>{places}{fold}</svg>'
        panel = Picture(text).panels()[0]
        self.assertEqual([panel.y_of(it) for it in (0, 1024, 2304, 1023488, 1025024)], [100, 80, 55, 30, 0])
        self.assertEqual([panel.is_near(it, it) for it in (2304, 2305, 1023000)], [True, False, True])

    def test_plain_pictures(self) -> None:
        self.assertTrue(Picture(PICTURE).is_plain())
        self.assertFalse(Picture(PICTURE.replace(LAST, f"<script>1</script>{LAST}")).is_plain())
        self.assertFalse(Picture(PICTURE.replace("aria-label", "label")).is_plain())


COUNTERPARTS = ROOT / "crates/wb_mistakes/src/counterparts.rt"
ROW = re.compile(r"^    Counterpart\(\s*&\[(.*?)\],\s*&\[(.*?)\],\s*(\"[^\"]*\"|\w+),?\s*\),$", re.DOTALL | re.MULTILINE)
CODE = re.compile(r"`([^`]*)`")


# sentences of 6, 8, 1, 3 and 1 words, an item of 2 and one of 1
PAGE = """\
One `let it = 1. Two` here, of [two links](docs/README.md). Two
goes on, e.g. to a second line. "Three?" Four .. and more.

- **Another.** It ends
1. Numbered
"""
MEASURED_PAGE = "Before.\n\n<!-- measured bench/run -->\nold\n<!-- end -->\n\n<!-- measured bench/run --growth -->\nother\n<!-- end -->\n"


class Pages(unittest.TestCase):
    def test_sentences(self) -> None:
        self.assertEqual([len(it) for it in sentences(PAGE) if it], [6, 8, 1, 3, 1, 2, 1])
        self.assertGreater(len(pages()), 10)

    def test_tables_that_benchmarks_write(self) -> None:
        page = with_table(MEASURED_PAGE, "bench/run", table_of(["Work", "now"], [["a", "1"], ["b", "2"]]), "There.")
        self.assertEqual(page, MEASURED_PAGE.replace("old", "There.\n\n| Work | now |\n|---|---|\n| a | 1 |\n| b | 2 |"))
        self.assertRaises(ValueError, with_table, MEASURED_PAGE, "bench/memory", "", "")
        self.assertRegex(measured_on(), MEASURED)

    def test_each_word_is_on_the_page(self) -> None:
        page = (DOCS / "LANGUAGE.md").read_text(encoding="utf-8")
        self.assertEqual([it.word for it in lines_by_kind().values() if not re.search(rf"\b{it.word}\b", page)], [])

    def test_counterparts(self) -> None:
        source, kinds = COUNTERPARTS.read_text(encoding="utf-8"), lines_by_kind()
        texts = dict(re.findall(r'^(?:pub(?:\(crate\))? )?const (\w+): &str =\s+"(.*)";$', source, re.MULTILINE))
        rows = [
            (re.findall(r'"([^"]*)"', cpp), [kinds[it].word for it in re.findall(r"::(\w+)", lines)], texts.get(hint, hint.strip('"')))
            for cpp, lines, hint in ROW.findall(source)
        ]
        section = (DOCS / "IDIOMS.md").read_text(encoding="utf-8").partition("\n## Line by line\n")[2].partition("\n\n## ")[0]
        table = section.partition("|---|---|---|\n")[2].partition("\n\n")[0]
        cells = [[it.strip() for it in line.strip("|").split("|")] for line in table.splitlines()]
        self.assertGreater(len(rows), 40)
        self.assertEqual([(CODE.findall(cpp), [it.split()[0] for it in CODE.findall(lines)], hint) for cpp, lines, hint in cells], rows)


GRAMMAR = json.loads(language.GRAMMAR.read_text(encoding="utf-8"))
PACKAGE = json.loads((EDITORS / "vscode/package.json").read_text(encoding="utf-8"))
ILLEGAL = "invalid.illegal.oom"

Rule = dict[str, Any]
Token = tuple[str, str]


def rules_of(patterns: list[Rule]) -> list[Rule]:
    """The rules with a pattern of their own that a list stands for."""
    found: list[Rule] = []
    for it in patterns:
        if "include" in it:
            it = GRAMMAR["repository"][it["include"].removeprefix("#")]
        found += [it] if "match" in it else rules_of(it["patterns"])
    return found


def tokens_of(line: str, patterns: list[Rule], begin: int, end: int) -> list[Token]:
    """The parts of a line that have a scope, between two places of it."""
    found, at = [], begin
    while at < end:
        searched = ((re.compile(it["match"]).search(line, at, end), it) for it in rules_of(patterns))
        fits = [(fit, it) for fit, it in searched if fit]
        if not fits:
            break
        fit, rule = min(fits, key=lambda it: it[0].start())
        found += [(fit[0], rule["name"])] if "name" in rule else []
        for group, what in sorted(rule.get("captures", {}).items()):
            first, last = fit.span(int(group))
            found += [(fit[int(group)], what["name"])] if "name" in what else tokens_of(line, what["patterns"], first, last)
        at = max(fit.end(), at + 1)
    return found


def tokens(line: str) -> list[Token]:
    return tokens_of(line, GRAMMAR["patterns"], 0, len(line))


# lines of scripts, and the scopes that some of their words have
CLASS, STATEMENT, SELF, NUMBER = SCOPES["class"], SCOPES["statement"], "variable.language.self.oom", "constant.numeric.integer.oom"
LINES = {
    "    hnewl self.text -16": {"hnewl": STATEMENT, "self": SELF, "text": "variable.other.member.oom", "-16": NUMBER},
    "class Note 4": {"class": "keyword.other.oom", "Note": CLASS, "4": NUMBER},
    "new self.list List": {"new": STATEMENT, "List": CLASS, "self": SELF, "list": "variable.other.member.oom"},
    "proc add list:List": {"proc": "keyword.other.oom", "add": SCOPES["body"], "List": "storage.type.oom"},
    "callto table maketable 3": {"callto": STATEMENT, "maketable": SCOPES["body"], "3": NUMBER},
    "    construct": {"construct": "keyword.other.oom"},
    "    construct note": {"construct": STATEMENT},
    "if less 0 n": {"if": "keyword.control.conditional.oom", "less": "keyword.operator.oom", "0": NUMBER},
    'print "self 5"': {"print": STATEMENT, '"self 5"': "string.quoted.double.oom"},
    "  # alloc a 5": {"# alloc a 5": "comment.line.number-sign.oom"},
    **{f"  {it} # done": {it: ILLEGAL} for it in ("allocc", "end", "End")},
}
# messages of the program, and the file, the line and the text with which VS Code shows them, where it shows them at a place
MESSAGES: dict[str, tuple[str, str, str] | None] = {
    "scripts/a b.oom:16: leak: the cell of attempt 2: 48 bytes": ("scripts/a b.oom", "16", "leak: the cell of attempt 2: 48 bytes"),
    **{it: None for it in ("    from 144: attempt 2, line 16: new n Note", "print a:1: b", "help: pop an item", "a.oom: in a heap of 5")},
}


class Files(unittest.TestCase):
    def test_colours(self) -> None:
        for line, wanted in LINES.items():
            self.assertEqual({text.strip(): scope for text, scope in tokens(line)}, wanted, line)

    def test_examples(self) -> None:
        seen: set[str] = set()
        rules = json.loads(CONFIGURATION.read_text(encoding="utf-8"))["indentationRules"]
        more, less = (re.compile(rules[f"{it}IndentPattern"]) for it in ("increase", "decrease"))
        for file in examples():
            lines, depth = [it for it in file.read_text(encoding="ascii").splitlines() if it.strip()], 0
            is_indented = any(it.startswith(" ") for it in lines)
            for line in lines:
                found = {scope for _, scope in tokens(line)}
                self.assertTrue(found and ILLEGAL not in found, line)
                seen |= found
                depth -= bool(less.search(line))
                self.assertEqual(len(line) - len(line.lstrip()), 4 * depth * is_indented, f"{file.name}: {line}")
                depth += bool(more.search(line))
            self.assertEqual(depth, 0, file.name)
        self.assertEqual({it["name"] for it in GRAMMAR["repository"]["operand"]["patterns"]} - seen, set())

    def test_places_of_messages(self) -> None:
        (matcher,) = PACKAGE["contributes"]["problemMatchers"]
        pattern = matcher["pattern"]
        self.assertEqual([pattern[it] for it in ("file", "line", "message")], [1, 2, 3])
        for message, shown in MESSAGES.items():
            found = re.search(pattern["regexp"], message)
            self.assertEqual(found and found.groups(), shown)
