"""Sessions of bash in a folder, by sections of `sessions.txt`.

A section begins with functions of bash that its lines use. Each line behind `$ ` is run by itself, in the folder that all of the section
have. It must write to standard output what stands below it, up to `= STATUS`, and end with that status. Where several such lines stand
above one another, each must. WORKBENCH names the program, and TOP the top of the repository."""

import os
import re
import subprocess
import tempfile
from pathlib import Path

from tools.common import EXAMPLES, ROOT, TOOLS, Tally, program_parser

SECTION = re.compile(r"^==== (.*)\n((?:(?!==== ).*\n)*)", re.MULTILINE)
BLOCK = re.compile(r"^((?:\$ .*\n)+)((?:(?!\$ |= ).*\n)*)= (\d+)\n", re.MULTILINE)
# how long a line may take, in seconds
LIMIT = 300
# what all lines have
PROGRAM = 'workbench() { "$WORKBENCH" "$@"; }\n'


def sections_of(file: Path) -> dict[str, str]:
    return dict(SECTION.findall(file.read_text(encoding="utf-8")))


def run_section(name: str, program: Path, tally: Tally, file: Path = TOOLS / "sessions.txt") -> None:
    """Runs the lines of a section in a new folder, and counts which write and end as they must."""
    text = sections_of(file)[name]
    functions = PROGRAM + text.partition("\n$ ")[0] + "\n"
    world = os.environ | {"WORKBENCH": str(program), "TOP": str(ROOT)}
    blocks = BLOCK.findall(text)
    tally.check(not re.search(r"^(?:\$|=) ", BLOCK.sub("", text), re.MULTILINE), f"{name}: a line without its status")
    with tempfile.TemporaryDirectory() as folder:
        for lines, wanted, status in blocks:
            for line in lines.splitlines():
                shell = ["timeout", str(LIMIT), "bash", "-o", "pipefail", "-c", functions + line.removeprefix("$ ")]
                ran = subprocess.run(shell, cwd=folder, env=world, stdout=subprocess.PIPE, stderr=subprocess.DEVNULL, text=True)
                told = ran.stdout, ran.returncode
                tally.check(told == (wanted, int(status)), f"{line}\n{ran.stdout}= {ran.returncode}\nin place of\n{wanted}= {status}")


def run_broken_streams(words: list[str]) -> int:
    """Runs the program with broken input, output and words, and looks at what it answers.

    A pipe that nobody reads is a write that fails like any other, and nothing but an exit ends the program: the program isn't killed by
    SIGPIPE, whatever that signal was set to.
    """
    program, tally = program_parser(run_broken_streams.__doc__).parse_args(words).program, Tally()
    run_section("broken-streams", program, tally)
    return tally.end()


def try_examples_for_ci(words: list[str]) -> int:
    """Tries `examples/ci/check-folder` on the examples, and on a copy of some of them with faults; and `examples/ci/sweep-parts`.

    The required lengths of all examples must be those of examples/ci/required-lengths.txt, into which --write writes them. Each fault of
    the copy must have its line, and the whole its status. One log must have what was found in all. Of some examples, and of scripts
    without a sweep, `sweep-parts` must print what the whole sweep does, with the same status.
    """
    parser = program_parser(try_examples_for_ci.__doc__)
    parser.add_argument("--write", action="store_true", help="write the required lengths of the examples")
    given, tally = parser.parse_args(words), Tally()
    if given.write:
        check = [EXAMPLES / "ci/check-folder", "examples", "--baseline", EXAMPLES / "ci/required-lengths.txt", "--write-baseline"]
        return int(subprocess.run(check, cwd=ROOT, env=os.environ | {"WORKBENCH": str(given.program)}).returncode > 3)
    run_section("ci-examples", given.program, tally)
    return tally.end()
