"""The tables of docs/MEASUREMENTS.md that the benchmarks write, each with the commit and the machine that it was measured on."""

import os
import re
import subprocess
from collections.abc import Iterable
from datetime import date
from pathlib import Path

from tools.common import DOCS, ROOT

PAGE = DOCS / "MEASUREMENTS.md"


def measured_on() -> str:
    """The commit, whether files were changed since, the day and the machine."""
    commit = git("rev-parse", "--short=8", "HEAD")
    changed = " with changes" if git("status", "--porcelain", "--untracked-files=no") else ""
    processors = re.search(r"model name\s*: (.*)", Path("/proc/cpuinfo").read_text(encoding="utf-8"))
    model = processors[1] if processors else "unknown"
    return f"Commit `{commit}`{changed}, {date.today().isoformat()}, on {os.cpu_count()} processors: {model}."


def git(*words: str) -> str:
    """What git says of the repository."""
    return subprocess.run(["git", *words], cwd=ROOT, check=True, capture_output=True, text=True).stdout.strip()


def table_of(head: list[str], rows: Iterable[list[str]]) -> str:
    """A table as a page has it."""
    return "\n".join([f"| {' | '.join(head)} |", f"|{'---|' * len(head)}", *(f"| {' | '.join(it)} |" for it in rows)])


def with_table(page: str, command: str, table: str, where: str) -> str:
    """A page with a table in the block of the command that measured it."""
    block = re.compile(rf"(<!-- measured {re.escape(command)} -->\n).*?(<!-- end -->)", re.DOTALL)
    if len(block.findall(page)) != 1:
        raise ValueError(f"{PAGE.name} has no one block `measured {command}`")
    return block.sub(lambda it: f"{it[1]}{where}\n\n{table}\n{it[2]}", page)


def write_table(command: str, head: list[str], rows: Iterable[list[str]]) -> None:
    """Writes a table into the page."""
    table = table_of(head, rows)
    PAGE.write_text(with_table(PAGE.read_text(encoding="utf-8"), command, table, measured_on()), encoding="utf-8")
