"""Looks whether the files of all crates are laid out as `rt fmt` lays them out, whether their wrong bodies fit the sources, and whether the
bodies that make the error for memory that ran out are those of `no-memory.txt`.

`rt ci` accepts no other layout, and says so of a crate only once all below it is proved; a wrong body is tried later still. `rt fmt` in the
folder of a crate that is named lays its files out. A wrong body that doesn't fit has an old text that isn't in its source, or is there more
than once.

A body that makes that error, in place of handing on one that it met, stands in `no-memory.txt` with its reason. A contract lets many
functions answer that the workbench's own memory ran out, and no clause says that it did. This reads code as text: it is a check and no
proof."""

import re
import shutil
import subprocess
from collections import Counter
from pathlib import Path

from tools.common import ROOT, TOOLS, Tally, parser_of
from tools.crates import Crates, fault_of_layout
from tools.edits.verdicts import MUST_FAIL, WRONG_BODIES, functions_in, read_edits

KEPT = TOOLS / "no-memory.txt"

# crates that the program has nothing of: those of tests, and what is measured
APART = re.compile(r"\w+_tests|bench_\w+")
# the allocator's error, the struct or a variant, where it isn't a type, and no function of it is called
VALUE = re.compile(r"(?<![<&])\b(?:AllocError|NoMemory)\b(?!::|>)")
# what is no value: comments, types and patterns, and what is compared
NO_VALUE = re.compile(r"(?m)//.*|^.*?=>|^ *\| .*|\blet [^=]*=|[=!]= [\w:()]+|\bmatches!\([^;]*?\)")


def makers(text: str) -> list[str]:
    """The functions of a file whose bodies make such an error; behind a name how often, if more than once."""
    lines, found = text.splitlines(keepends=True), Counter[str]()
    for name, body in functions_in(lines):
        found[name] += len(VALUE.findall(NO_VALUE.sub("", "".join(lines[body.start : body.stop]))))
    return [f"{name} {count}" if count > 1 else name for name, count in found.items() if count]


def differences(crates: Crates, kept: Path = KEPT) -> list[str]:
    """The bodies that make such an error and aren't listed with a reason, and those that are listed and make none."""
    files = [file for crate in crates.lines if not APART.fullmatch(crate) for file in (crates.folder(crate) / "src").rglob("*.rt")]
    found = {f"{it.relative_to(crates.root / 'crates')} {maker}" for it in files for maker in makers(it.read_text(encoding="utf-8"))}
    rows = (it.partition(": ") for it in kept.read_text(encoding="utf-8").splitlines() if it and not it.startswith("#"))
    listed = {body for body, _, reason in rows if reason}
    new = [f"{it}: makes the error for memory that ran out, and tools/no-memory.txt has no reason for it" for it in sorted(found - listed)]
    return new + [f"{it}: is in tools/no-memory.txt, and makes no error for memory that ran out" for it in sorted(listed - found)]


# what `mypy` and `ruff` are given: the package, and the programs without an ending, whose names don't show what they are
SCRIPTS = ("test", "tools/dev", "bench/run", "bench/compare", "bench/memory", "examples/ci/check-folder", "examples/ci/sweep-parts")
COMMANDS = {"ruff": [["ruff", "check", "tools", "bench", *SCRIPTS]], "mypy": [["mypy", "-p", "tools"], *(["mypy", it] for it in SCRIPTS)]}


def look_at_style(words: list[str]) -> int:
    """Looks at the tools' own code with `ruff` and `mypy`, if they are installed, by `pyproject.toml`."""
    parser_of(look_at_style.__doc__).parse_args(words)
    tally = Tally()
    for name, commands in COMMANDS.items():
        if not shutil.which(name):
            print(f"left out: {name} is not installed (docs/DEVELOPING.md)")
            continue
        for command in commands:
            ran = subprocess.run(command, cwd=ROOT, stdout=subprocess.PIPE, stderr=subprocess.STDOUT, text=True)
            tally.check(ran.returncode == 0, ran.stdout)
    return tally.end(may_be_none=True)


def main(words: list[str]) -> int:
    parser_of(__doc__).parse_args(words)
    crates, tally = Crates(ROOT), Tally()
    for crate in crates.lines:
        fault = fault_of_layout(crates.folder(crate))
        tally.check(not fault, f"{crate}: {fault}")
        unfit = read_edits(crates.folder(crate), [WRONG_BODIES, MUST_FAIL])[1]
        tally.check(not unfit, "\n".join(f"{label}: {why}" for label, why in sorted(unfit.items())))
    other = differences(crates)
    tally.check(not other, "\n".join(other))
    return tally.end()
