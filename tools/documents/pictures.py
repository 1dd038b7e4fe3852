"""Draws pictures with the built program, and checks what they hold.

The pictures of all examples, and of some more scripts, are compared with the reports of their runs (picture_reports.py). Some are kept in
docs/pictures, and must be those that the program draws, byte for byte; --write writes them anew. These are the pictures that pages show,
and some of other kinds. A file of scripts says which shapes their pictures must have (pictured-scripts.txt), and a table how many steps
their columns are. Each picture must be well-formed XML of a few elements, and the report, the messages and the status beside it those
without a picture. Pictures of long runs must be no longer than 5 MiB. Where a picture or a SARIF log can't be written, no file may be
another than before (sessions.txt).
"""

import json
import re
import tempfile
import xml.etree.ElementTree as ET
from collections.abc import Iterator
from pathlib import Path
from typing import Any
from urllib.parse import unquote

from tools.common import DOCS, ROOT, TOOLS, Trials, Word, examples, program_parser
from tools.documents.pages import pages
from tools.documents.picture_reports import Picture, faults_of
from tools.sessions import run_section

KEPT = DOCS / "pictures"
MOST_BYTES = 5 << 20

# the examples whose pictures are kept beside those that pages show: with two attempts that fail; a panic, objects, TRAPs and cleanup items;
# a rate, and cells too low to have a frame; a cell that moves; marks, and attempts that the script makes fail
KINDS = {"clean-up-fails", "double-delete", "fallback-leaks", "hole-reused", "test-loop"}
SHOWN = re.compile(r"!\[[^]]*\]\([./\w]*pictures/([^)]*)\.svg\)")

# the examples that show nothing where a single attempt fails are drawn in another way, and so are those with their mistakes mended
OTHERWISE = {
    "clean-up-fails": ["check", "--pairs"],
    "fallback-leaks": ["check", "--every"],
    "loader-leaks": ["lengths"],
    "save-leaks": ["check", "--failures", "3"],
}

# scripts, each with its name and the words that draw it, and lines on what its picture has
SCRIPTS = TOOLS / "documents/pictured-scripts.txt"
BLOCK = re.compile(r"^== (.*): (.*)\n((?:(?!== |-- ).*\n)*)((?:-- .*\n)+)", re.MULTILINE)
# scripts with long runs, and one that fills the longest heap
LONG = {
    "a million steps": "proc main\nptr a\nrepeat 333333\nalloc a 100\nfree a\nend\nend\n",
    "half a million attempts": "proc main\nptr a\nrepeat 499999\nalloc a 16\nend\nend\n",
    "the ceiling of the heap": "proc main\nptr a\nrepeat 17\nalloc a 1048576\nend\nend\n",
}
# how many steps a column is, by the number of the last step: a picture has at most 2,000 columns, from step 0 on, or 1,000 of two runs
COLUMNS = (
    *(("run", 1_999, 1), ("run", 2_000, 2), ("run", 3_999, 2), ("run", 4_000, 3), ("run", 5_999, 3), ("run", 6_000, 4)),
    *(("sweep", 999, 1), ("sweep", 1_000, 2), ("sweep", 1_999, 2), ("sweep", 2_000, 3)),
)


class Pictures(Trials):
    """What the program draws, and how much of it was right."""

    def draw(self, what: str, *words: Word, script: str = "") -> Picture | None:
        """The picture that goes with an answer; None if there is none. The answer must be the one without a picture."""
        file = self.room / "heap.svg"
        file.unlink(missing_ok=True)
        answer = self.run(*words, "--picture", file, script=script)
        self.check(answer == self.run(*words, script=script), f"{what}: another answer beside the picture")
        try:
            picture = Picture(file.read_text(encoding="utf-8"))
        except (OSError, ET.ParseError) as error:
            self.check(False, f"{what}: {error}")
            return None
        self.check(picture.is_plain(), f"{what}: other elements, or no label")
        self.check(len(picture.text.encode()) <= MOST_BYTES, f"{what}: longer than {MOST_BYTES} bytes")
        return picture

    def compared(self, name: str, command: str, *words: Word) -> Picture | None:
        """The picture of a script in a file, which must hold what the reports of its runs say."""
        picture = self.draw(name, command, *words, name)
        if picture:
            faults = list(faults_of(picture, command, lambda words: self.run(*words, name).lines()))
            self.check(not faults, "\n".join(f"{name}: {it}" for it in faults))
        return picture

    def check_examples(self, is_writing: bool) -> None:
        """The pictures of all examples, of which those are kept that pages show or that are of a kind of their own."""
        kept = {name for page in pages() for name in SHOWN.findall(page.read_text(encoding="utf-8"))} | KINDS
        for file in examples():
            words = OTHERWISE.get(file.stem.removesuffix("-mended"), ["check"])
            picture, held = self.compared(str(file.relative_to(ROOT)), *words), KEPT / f"{file.stem}.svg"
            if picture is None or file.stem not in kept:
                continue
            if is_writing:
                held.write_text(picture.text, encoding="utf-8")
            is_same = held.exists() and held.read_text(encoding="utf-8") == picture.text
            self.check(is_same, f"{held.relative_to(ROOT)}: another picture is drawn; --write writes it anew")
        names = {it.stem for it in KEPT.iterdir()}
        self.check(names == kept, f"{KEPT.relative_to(ROOT)} holds other pictures than those that are to be kept: {sorted(names ^ kept)}")

    def check_scripts(self) -> None:
        """The scripts of the file. Behind a number stands how the titles of so many shapes begin, or `cells`, which are rectangles; behind
        `shows`, what a picture has that is compared with the reports of its runs: an end once more, places drawn shorter."""
        text, file = SCRIPTS.read_text(encoding="utf-8"), self.room / "compared.oom"
        blocks = BLOCK.findall(text)
        are_told = all(re.match(r"-- (?:\d+ cells|shows .*)\n", said) for *_, said in blocks)
        self.check(bool(blocks) and are_told and len(blocks) == text.count("\n== "), f"{SCRIPTS.name}: a script without its picture")
        for name, words, script, said in blocks:
            lines = [it.removeprefix("-- ").split(" ", 1) for it in said.splitlines()]
            file.write_text(script, encoding="utf-8")
            is_compared = lines[0][0] == "shows"
            picture = self.compared(str(file), *words.split()) if is_compared else self.draw(name, *words.split(), script=script)
            if picture is None:
                continue
            panels, shapes = picture.panels(), picture.shapes()
            if is_compared:
                shown = ["end"] if any(it.heading.startswith("The end of this run") for it in panels) else []
                shown += ["fold"] if any(it.folds for it in panels) else []
                self.check(", ".join(shown or ["neither"]) == lines[0][1], f"{name}: the picture has {shown}")
                continue
            for number, begins in lines:
                found = sum(it.is_cell() if begins == "cells" else it.title.startswith(begins) for it in shapes)
                self.check(found == int(number), f"{name}: {found} shapes are {begins!r}, not {number}")

    def check_others(self) -> None:
        """The name of a file is a text of a user too; a column must be so many steps where the run, or the longer of two, takes so many; and
        the pictures of long runs must not be too long."""
        odd = self.room / "\"><script>alert('&')]]>.oom"
        odd.write_text(LEAK, encoding="utf-8")
        self.draw("a name with markup", "run", odd)
        for command, last, steps in COLUMNS:
            # with two runs it leaks where its second request fails, and takes no more steps then
            leak = ["alloc a 16", "alloc b 16", "if some b", "free a", "end", "free b"] if command == "sweep" else []
            # all of these lines but the end of the block are steps
            turns, rest = divmod(last - 1 - max(0, len(leak) - 1), 2)
            lines = ["proc main", "ptr a", "ptr b", "int n", f"repeat {turns}", "add n 1", "end", *["add n 1"] * rest, *leak, "end\n"]
            picture = self.draw(f"{last} steps", command, script="\n".join(lines))
            found = re.findall(r"Each column is (\d+) steps", picture.text) if picture else []
            self.check(found == [str(steps)] * (steps > 1), f"{last} steps: columns of {found}, not {steps}")
        for name, script in LONG.items():
            self.draw(name, "run", "--budget", "1000000", script=script)


def main(words: list[str]) -> int:
    parser = program_parser(__doc__)
    parser.add_argument("--write", action="store_true", help="write the pictures of the examples anew")
    given = parser.parse_args(words)
    KEPT.mkdir(exist_ok=True)
    with tempfile.TemporaryDirectory() as folder:
        pictures = Pictures(given.program, Path(folder))
        pictures.check_examples(given.write)
        pictures.check_scripts()
        pictures.check_others()
    run_section("pictures", given.program, pictures)
    return pictures.end()


COMMANDS = (["check"], ["run"], ["run", "--fail", "3"], ["lengths"], ["sweep", "--every"], ["check", "--sets", "--moving"])
SCHEMA = "https://docs.oasis-open.org/sarif/sarif/v2.1.0/errata01/os/schemas/sarif-schema-2.1.0.json"
LEVELS = {"leak": "error", "panic": "error", "cut": "warning", "left": "note"}
# a finding on standard error: its line, and its words
FINDING = re.compile(r"^\S.*?(?::(\d+))?: ((?:leak: |panic [A-Z]+ \d+: |`main` left here |the run was cut ).*)$", re.MULTILINE)

LEAK = "proc main\nptr a\nalloc a 16\nend\n"
CUT_SCRIPT = "proc main\nrepeat 100000\nend\nend\n"


def place_faults(what: str, location: dict[str, Any], uri: str, lines: list[str]) -> Iterator[str]:
    physical = location["physicalLocation"]
    if unquote(physical["artifactLocation"]["uri"]) != uri or physical["artifactLocation"]["index"] != 0:
        yield f"{what}: another file"
    region = physical["region"]
    if not 1 <= region["startLine"] <= len(lines):
        yield f"{what}: no line {region['startLine']}"
    elif "startColumn" in region and not 1 <= region["startColumn"] < region["endColumn"] <= len(lines[region["startLine"] - 1]) + 1:
        yield f"{what}: no columns {region['startColumn']} to {region['endColumn']}"


def result_faults(result: dict[str, Any], rules: list[dict[str, Any]], uri: str, lines: list[str]) -> Iterator[str]:
    what, index = result["ruleId"], result["ruleIndex"]
    if not 0 <= index < len(rules) or rules[index]["id"] != what:
        yield f"{what}: another rule"
    if result["level"] != LEVELS.get(what.partition("/")[0]) or not result["message"]["text"]:
        yield f"{what}: another level, or no message"
    related = result["relatedLocations"]
    if [it["id"] for it in related] != list(range(len(related))):
        yield f"{what}: related locations without their numbers"
    flows = [it["location"] for flow in result.get("codeFlows", []) for thread in flow["threadFlows"] for it in thread["locations"]]
    if "codeFlows" in result and not flows:
        yield f"{what}: a code flow without a location"
    failed, in_flows = ([it["message"]["text"] for it in its if " failed here" in it["message"]["text"]] for its in (related, flows))
    if not set(failed) <= set(in_flows):
        yield f"{what}: failed attempts that no code flow has"
    if any(not it["message"]["text"] for it in [*related, *flows]):
        yield f"{what}: a location without a message"
    for location in (*result["locations"], *related, *flows):
        yield from place_faults(what, location, uri, lines)


def line_of(result: dict[str, Any]) -> int:
    (location,) = result["locations"]
    return int(location["physicalLocation"]["region"]["startLine"])


def faults_of_log(text: str, name: str, lines: list[str], messages: str) -> Iterator[str]:
    log = json.loads(text)
    (run,) = log["runs"]
    driver, results = run["tool"]["driver"], run["results"]
    if (log["$schema"], log["version"], driver["name"]) != (SCHEMA, "2.1.0", "workbench"):
        yield "another schema, version or tool"
    if unquote(run["artifacts"][0]["location"]["uri"]) != name:
        yield "another file"
    if sorted(it["id"] for it in driver["rules"]) != sorted({it["ruleId"] for it in results}):
        yield "rules that no result has, or that are there twice"
    for result in results:
        yield from result_faults(result, driver["rules"], name, lines)
    found = [(line_of(it), it["message"]["text"].partition("\n")[0]) for it in results]
    if found != (told := [(int(line or 0), words) for line, words in FINDING.findall(messages)]):
        yield f"results {found}, and findings {told}"


class Logs(Trials):
    def check_log(self, *words: Word, name: str, script: str) -> None:
        """A log must be right, and the answer beside it the one without. A script without a name is given on standard input."""
        file, what = self.room / "log.sarif", f"{' '.join(map(str, words))} {name}"
        file.unlink(missing_ok=True)
        given: list[Word] = [name] if name else []
        plain = self.run(*words, *given, script="" if name else script)
        answer = self.run(*words, "--sarif", file, *given, script="" if name else script)
        self.check(answer == plain, f"{what}: another answer beside the log")
        try:
            faults = list(faults_of_log(file.read_text(encoding="utf-8"), name or "<stdin>", script.splitlines(), plain.messages.decode()))
        except (OSError, ValueError, LookupError) as error:
            faults = [repr(error)]
        self.check(not faults, "\n".join(f"{what}: {it}" for it in faults))

    def check_examples(self) -> None:
        """The logs of all examples, and of scripts on standard input and with an odd name."""
        for file in examples():
            for words in COMMANDS:
                self.check_log(*words, name=str(file.relative_to(ROOT)), script=file.read_text(encoding="utf-8"))
        odd = self.room / 'a "b" \\ #50% ü.oom'
        odd.write_text(LEAK, encoding="utf-8")
        for script in (LEAK, CUT_SCRIPT):
            self.check_log("check", name="", script=script)
        self.run("run", "--sarif", self.room / "odd.sarif", odd)
        uri = json.loads((self.room / "odd.sarif").read_text(encoding="utf-8"))["runs"][0]["artifacts"][0]["location"]["uri"]
        self.check(unquote(uri) == f"file://{odd}", f"an odd name: {uri}")

    def check_replaced(self) -> None:
        """A log of the program is replaced as a whole."""
        file, texts = self.room / "replaced.sarif", []
        for script in (CUT_SCRIPT, LEAK, CUT_SCRIPT):
            self.run("run", "--sarif", file, script=script)
            texts.append(file.read_text(encoding="utf-8"))
        self.check(texts[0] == texts[2] != texts[1] and not list(self.room.glob("*.tmp")), "a log isn't replaced whole")


def check_logs(words: list[str]) -> int:
    """Has the built program write SARIF logs, and checks what they hold.

    The logs of all examples, by several commands, must keep the rules of SARIF 2.1.0 that matter to a reader. They must have one result for
    each finding on standard error, with its words and its line, and the answer must be the one without a log. A log replaces a log as a
    whole; that it replaces nothing else, `pictures` looks.
    """
    given = program_parser(check_logs.__doc__).parse_args(words)
    with tempfile.TemporaryDirectory() as folder:
        logs = Logs(given.program, Path(folder))
        logs.check_examples()
        logs.check_replaced()
    return logs.end()
