"""Runs a program on worked cases, and compares its answers with theirs.

A NAME is that of a group or of a folder of groups, of a script or a table in one (`guide/two-cells`), or of a case
(`guide/two-cells.run`); without one all cases are run. Of each failing case the difference is shown, from the case as it is to the one
that the program's answer would make. With --write that is put into the group's file: look at each difference then, since a case's answer
must come from the rules and not from the program. Tables are never written. A case that is written has passed. Nothing is written by a
program of ./build that is older than its sources. With --show cases are shown as they would be typed in a shell.
"""

import os
import re
import shlex
import sys
from collections.abc import Callable, Iterator
from dataclasses import replace
from difflib import unified_diff
from functools import partial
from pathlib import Path
from typing import Any, NamedTuple

from tools.common import CASES, CUT, FINE, FOUND, PROGRAM, REFUSED, ROOT, Answer, NoAnswer, Tally, answer_of, program_parser
from tools.crates import Crates
from tools.worked_cases import SUFFIX, Block, Case, CaseError, Group, cases_of, files_in, meaning, read, spelled

# a longer difference is cut
MOST_LINES = 100

# what a table says of the rows below it, and what holds where it doesn't say it
SETTINGS = {"words": "run", "rows": "scripts", "before": "", "behind": "", "script": "", "byte": "", "messages": "", "answer": ""}
FORMS = {"rows": "scripts|words|cuts|bytes", "answer": r"accepted|refused \d+( line \d+)?|\d+( .+)?"}
ROW = "    "
SPAN = re.compile(r"(\d+)(?:\.\.(\d+))?")


class Row(NamedTuple):
    place: str
    words: list[str]
    script: bytes
    answer: str
    messages: str

    def fault(self, answer: Answer) -> str | None:
        statuses, wanted = wanted_of(self.answer)
        if answer.status not in statuses:
            return f"wanted status {' or '.join(map(str, statuses))}, got {answer.status} and {answer.output[:100]!r}"
        if not wanted.fullmatch(answer.output):
            return f"wanted {self.answer!r}, got {answer.output[-200:]!r}"
        # messages may be broken between words
        if self.messages.encode() not in answer.messages.replace(b"\n  ", b" ").replace(b"\n", b" "):
            return f"wanted {self.messages!r} on standard error, got {answer.messages[:200]!r}"
        return None


def given_by(text: str, told: dict[str, str]) -> dict[str, tuple[list[str], bytes]]:
    """The words and scripts that a row gives, by their places in it, under the settings above it."""
    words, span = told["words"].split(), SPAN.fullmatch(text)
    if not told["answer"]:
        raise CaseError("a row without an answer")
    if not text.strip():
        raise CaseError("a row of blanks; an empty one is \\e")
    if told["rows"] == "words":
        return {"": ([*words, *meaning(text).decode("latin-1").split()], b"")}
    if told["rows"] == "scripts":
        return {"": (words, meaning(told["before"] + text + told["behind"]))}
    if not span:
        raise CaseError("neither a number nor a range")
    script, byte, is_cut = meaning(told["script"]), meaning(told["byte"]), told["rows"] == "cuts"
    places = range(int(span[1]), int(span[2] or span[1]) + 1)
    if not places or places[-1] >= len(script) + is_cut or len(byte) == is_cut:
        raise CaseError("the script has no such place, or there is not one byte for it")
    return {f" at {at}": (words, script[:at] + (b"" if is_cut else byte + script[at + 1 :])) for at in places}


def rows_of(table: list[str], file: Path, first: int) -> list[Row]:
    """The rows of a table, whose lines stand in a file from that line on."""
    told, rows, unused = dict(SETTINGS), list[Row](), f"{file}:{first}"
    for number, line in enumerate(table, first):
        place, (key, colon, text) = f"{file}:{number}", line.partition(":")
        if line.startswith(ROW):
            try:
                given = given_by(line.removeprefix(ROW), told)
            except CaseError as error:
                raise CaseError(f"{place}: {error}") from None
            rows += [Row(place + at, words, script, told["answer"], told["messages"]) for at, (words, script) in given.items()]
            unused = ""
        elif colon and key in SETTINGS and re.fullmatch(FORMS.get(key, ".*"), text.removeprefix(" ")):
            if key == "answer" and unused and told["answer"]:
                break
            told[key] = text.removeprefix(" ")
            unused = place if key == "answer" else unused
        elif line and not line.startswith("#"):
            raise CaseError(f"{place}: neither a setting nor a row")
    if unused:
        raise CaseError(f"{unused}: no row follows")
    return rows


def wanted_of(answer: str) -> tuple[tuple[int, ...], re.Pattern[bytes]]:
    """The exit statuses and the standard output that an answer allows."""
    if answer == "accepted":
        return (FINE, FOUND, CUT), re.compile(rb"(?!refused )(?s:.*)")
    if answer.startswith("refused "):
        return (REFUSED,), re.compile(re.escape(answer).encode() + b"\n")
    status, _, text = answer.partition(" ")
    lines = ["(?:.*\n)*" if line == ".." else ".*".join(map(re.escape, line.split(".."))) + "\n" for line in text.split(" | ")]
    return (int(status),), re.compile("".join(lines if text else []).encode())


def shown(case: Case) -> str:
    lines = [f"# {case.place}: status {case.status}", typed(case.script, shlex.join(["./workbench", *case.args]))]
    for name, text in (("standard output", case.stdout), ("standard error", case.stderr)):
        lines += [] if text is None else [f"# {name}:", *(f"#     {it}".rstrip() for it in spelled(text))]
    return "\n".join([*lines, ""])


def typed(script: bytes, command: str) -> str:
    lines = script.decode("latin-1").split("\n")
    if not script:
        return f"{command} </dev/null"
    if lines[-1] or "END" in lines or not re.fullmatch(rb"[\t\n\x20-\x7e]*", script):
        octal = "".join(chr(it) if 32 <= it < 127 and chr(it) not in "\\%'" else f"\\{it:03o}" for it in script)
        return f"printf '{octal}' | {command}"
    return "\n".join([f"{command} <<'END'", *lines[:-1], "END"])


def tried(
    program: Path, words: list[str], script: bytes, fault_in: Callable[[Answer], str | None], **streams: Any
) -> tuple[Answer | None, str | None]:
    """What a program answers, if it does within its time, and what is wrong with that, or None. File names in its words start at the top of
    the repository."""
    try:
        answer = answer_of(program, *words, script=script, cwd=ROOT, **streams)
    except NoAnswer as late:
        return None, str(late)
    return answer, fault_in(answer)


def with_answer(case: Case, answer: Answer) -> Case:
    """The case that an answer makes of another: with its output, its status, and its messages where these are compared."""
    return replace(case, stdout=answer.output, status=answer.status, stderr=None if case.stderr is None else answer.messages)


def fault_of(case: Case, answer: Answer) -> str | None:
    """The lines by which the case that an answer makes differs from the other, as they stand in files; not all if they are very many."""
    answered = with_answer(case, answer)
    if answered == case:
        return None
    old, new = (Group("", Path()).lines_of(it) for it in (case, answered))
    lines = list(unified_diff(old, new, "as the case says", "as the program answers", lineterm=""))
    return "\n".join(["another answer:", *lines[:MOST_LINES], *[".."] * (len(lines) > MOST_LINES)])


class Chosen(NamedTuple):
    group: Group
    block: Block
    # none of a table
    case: Case | None

    def is_called(self, name: str) -> bool:
        """Whether a name of the command line means this, or what it is a part of."""
        own = [self.block.name, *([self.case.name] if self.case else [])]
        return not name or f"{self.group.name}/".startswith(f"{name}/") or name in own or name in (f"{self.group.name}/{it}" for it in own)

    def shown(self) -> str:
        return shown(self.case) if self.case else "\n".join([*self.group.lines_of_block(self.block), ""])

    def told(self, program: Path, is_writing: bool) -> Iterator[tuple[bool, str]]:
        """Whether it has passed, or each of its rows, and what is to be said of that."""
        if not self.case:
            try:
                for row in rows_of(self.block.table or [], self.group.file, self.block.line + 1):
                    _, fault = tried(program, row.words, row.script, row.fault)
                    yield not fault, f"{row.place}: {fault}" if fault else ""
            except CaseError as error:
                yield False, str(error)
            return
        case = self.case
        answer, fault = tried(program, case.args, case.script, partial(fault_of, case))
        if answer and fault and is_writing:
            self.block.cases[self.block.cases.index(case)] = with_answer(case, answer)
            self.group.file.write_text(self.group.text(), encoding="ascii")
            yield True, f"{case.place}: written: {fault}"
        else:
            yield not fault, f"{case.place}: {fault}" if fault else ""


def all_in(folder: Path, tally: Tally) -> Iterator[Chosen]:
    """All cases and tables in a folder. A file that is neither a group nor a page counts as a failure."""
    for file in sorted(it for it in folder.rglob("*") if it.is_file() and it.suffix not in (SUFFIX, ".md")):
        tally.check(False, f"{file}: it is no group")
    for name, file in files_in(folder).items():
        try:
            group = read(file, name)
        except CaseError as error:
            tally.check(False, str(error))
            continue
        for block in group.blocks:
            cases: list[Case | None] = [None] if block.table is not None else [*block.cases]
            yield from (Chosen(group, block, case) for case in cases)


def main(words: list[str]) -> int:
    parser = program_parser(__doc__)
    parser.add_argument("names", nargs="*", metavar="NAME", default=[""])
    parser.add_argument("--in", type=Path, default=CASES, metavar="FOLDER", dest="folder", help="the folder of the groups, if not cases/")
    parser.add_argument("--show", action="store_true", help="show the cases as they would be typed in a shell, and run nothing")
    parser.add_argument("--write", action="store_true", help="write the program's answers into the cases that fail")
    given, tally = parser.parse_args(words), Tally()
    is_built = given.program == PROGRAM and PROGRAM.exists()
    if not given.show and is_built and (why := Crates().why_old()):
        print(why + (": ./build comes before --write" if given.write else ""), file=sys.stderr)
        if given.write:
            return 1
    known = list(all_in(given.folder, tally))
    for name in (it.removeprefix("cases/").removesuffix(SUFFIX).rstrip("/") for it in given.names):
        chosen = [it for it in known if it.is_called(name)]
        if name and not chosen:
            tally.check(False, f"no case is called {name}")
        for it in chosen:
            if given.show:
                print(it.shown())
                continue
            for is_fine, said in it.told(given.program, given.write):
                tally.check(is_fine, said)
                if is_fine and said:
                    print(said)
    return tally.end() if not given.show or tally.failed else 0


def ways_to_lose() -> Iterator[tuple[str, dict[str, Any]]]:
    """Each way in which standard error may fail, by its name."""
    yield "closed", {"stderr": None, "preexec_fn": lambda: os.close(2)}
    with open("/dev/full", "wb") as full:
        yield "full", {"stderr": full}
    read_end, write_end = os.pipe()
    os.close(read_end)
    yield "unread", {"stderr": write_end}
    os.close(write_end)


def lose_messages(words: list[str]) -> int:
    """Runs worked cases that have standard error while that is lost.

    Standard error is closed, then a device without room, then a pipe that nobody reads. Standard output and status must be the same.
    """
    program, tally = program_parser(lose_messages.__doc__).parse_args(words).program, Tally()
    cases, failed = [it for it in cases_of("") if it.stderr is not None], set()
    for way, streams in ways_to_lose():
        for case in cases:
            _, fault = tried(program, case.args, case.script, partial(fault_of, replace(case, stderr=None)), **streams)
            if fault is not None:
                print(f"{case.place}: standard error {way}: {fault}")
                failed.add(case.place)
    tally.add(len(cases) - len(failed), len(failed))
    return tally.end()
