"""Scripts with mistakes: by chance, for what the program may never do, and one by one, for what it says of them."""

import random
import re
import tempfile
from collections import Counter
from collections.abc import Iterator
from concurrent.futures import ProcessPoolExecutor
from functools import cache, partial
from itertools import count
from pathlib import Path
from typing import NamedTuple

from tools.common import CUT, REFUSED, NoAnswer, Tally, answer_of, examples, program_parser
from tools.crates import RUN_MEMORY, processors
from tools.language import words_of_roles
from tools.worked_cases import cases_of

WORDS = re.compile(rb"[^ \n]+")
NUMBER = re.compile(rb"(?<= )-?[0-9]+\b")
NUMBERS = [b"0", b"1", b"-1", b"15", b"16", b"80", b"255", b"65536", b"524286", b"1048576", b"999999999", b"-999999999"]
LINE, BYTE = re.compile(rb"[^\n]*\n"), re.compile(rb"(?s).")
# how often each of these is changed: most changes leave a script that is read, so that its runs are tried as well
PIECES = {NUMBER: 8, LINE: 4, WORDS: 2, BYTE: 1}
# how many scripts a process is given at once
SHARE = 500
# what the program is asked for in turn, and within how many seconds; there are about half as many pairs as the square of the attempts
COMMANDS = ((["check", "--budget", "200"], 1), (["check", "--budget", "200", "--every"], 1), (["check", "--budget", "50", "--pairs"], 5))


@cache
def seeds() -> list[bytes]:
    """The scripts of the cases and examples, but for the largest."""
    scripts = [it.script for it in cases_of("")] + [it.read_bytes() for it in examples()]
    return [text for text in scripts if 0 < len(text) <= 4000]


def damaged(chance: random.Random) -> bytes:
    """A script with a few changes of a number, a line, a word or a byte: it goes, or comes twice, or another one is put before it or in its
    place."""
    scripts = seeds()
    text = chance.choice(scripts)
    for piece in chance.choices(list(PIECES), list(PIECES.values()), k=chance.choice((1, 1, 2, 3, 5))):
        found = [it.span() for it in piece.finditer(text)]
        start, end = chance.choice(found) if found else (len(text), len(text))
        old, others = text[start:end], piece.findall(chance.choice((text, chance.choice(scripts)))) or [b"\n"]
        if piece == NUMBER and found:
            new = chance.choice((*NUMBERS, *(str(int(old) + it).encode() for it in (-16, -1, 1, 16) * 3)))
        else:
            byte = bytes([chance.choice((chance.randrange(256), chance.randrange(32, 127), 10, 32))])
            other = byte if piece == BYTE else chance.choice(others)
            new = chance.choice((b"", 2 * old, other, other + old))
        text = text[:start] + new + text[end:]
    return text


def tried(number: int, seed: int, program: Path, keep: Path) -> tuple[str, str]:
    """What comes of a damaged script, and what is wrong with that, if something is."""
    text = damaged(random.Random(f"{seed} {number}"))
    command, seconds = COMMANDS[number % len(COMMANDS)]
    try:
        answer = answer_of(program, *command, script=text, seconds=seconds)
        told = f"status {answer.status}"
        fault = "" if 0 <= answer.status <= CUT else f"{told}, {answer.output[:80]!r}"
    except NoAnswer as late:
        told, fault = "no answer", str(late)
    if fault:
        keep.mkdir(exist_ok=True, parents=True)
        file = keep / f"{seed}-{number}.oom"
        file.write_bytes(text)
        fault = f"{file}: {' '.join(command)}: {fault}"
    return told, fault


def fuzz(words: list[str]) -> int:
    """Runs the program on many damaged scripts, and looks whether it ever ends as it may not.

    Each script is made of worked cases by a few changes of lines, words and bytes. `check` with a small budget must answer each with a
    status from 0 to 3 within a second, or with `--pairs` within five. A script that it answers otherwise is kept in the folder, and named.
    """
    parser = program_parser(fuzz.__doc__)
    parser.add_argument("--scripts", type=int, default=300_000, metavar="N", help="how many scripts [default: 300000]")
    parser.add_argument("--seed", type=int, default=1, metavar="N", help="which scripts [default: 1]")
    parser.add_argument("--keep", type=Path, default=Path("fuzz-found"), metavar="FOLDER", help="where scripts go that fail")
    given, tally, statuses = parser.parse_args(words), Tally(), Counter[str]()
    with ProcessPoolExecutor(processors(RUN_MEMORY)) as pool:
        each = partial(tried, seed=given.seed, program=given.program, keep=given.keep)
        for told, fault in pool.map(each, range(given.scripts), chunksize=SHARE):
            tally.check(not fault, fault)
            statuses[told] += 1
    print(", ".join(f"{told} {count} times" for told, count in sorted(statuses.items())))
    return tally.end()


WANTED, LEAST = 200, 180
# the words of lines that an `end` ends, if they stand in any line, and of those that declare something
OPENERS = words_of_roles("Class", "Procedure", "If", "Loop", "Destroy")
DECLARATIONS = words_of_roles("Declaration", "Field")


class Mistake(NamedTuple):
    lines: list[str]
    # the numbers of lines and the words one of which names it
    numbers: set[int]
    words: set[str] = set()

    def is_named(self, explanation: str) -> bool:
        names = [*(f"script.oom:{number}: " for number in self.numbers), *(f"`{word}`" for word in self.words)]
        return any(it in explanation for it in names)


def words_of(line: str) -> list[str]:
    """The words of a line that is no comment and holds no text; none of any other line."""
    return [] if line.lstrip().startswith("#") or '"' in line else line.split()


def indented(line: str, words: list[str]) -> str:
    return line[: len(line) - len(line.lstrip())] + " ".join(words)


def opens(words: list[str]) -> bool:
    return bool(words) and (words[0] in OPENERS or words == ["construct"])


SORTS = (
    *("letter gone", "word twice", "end gone", "letters swapped", "last word gone"),
    *("end too many", "letter twice", "declaration gone", "another letter"),
)


def mistake(sort: str, lines: list[str], at: int, turn: int) -> Mistake | None:
    """A script with a mistake of a sort in a line, or in another one where the sort takes it; None where there can't be such a mistake."""
    words = words_of(lines[at])
    if sort == "end gone":
        blocks: list[tuple[int, int]] = []
        begun: list[int] = []
        for place, its in enumerate(map(words_of, lines)):
            if opens(its):
                begun.append(place)
            elif its == ["end"]:
                blocks.append((begun.pop(), place))
        opener, end = blocks[turn % len(blocks)]
        # the line of its block will do, too
        return Mistake(lines[:end] + lines[end + 1 :], {opener + 1, end + 1})
    if sort == "declaration gone":
        declared = [(place, its[1]) for place, its in enumerate(map(words_of, lines)) if its and its[0] in DECLARATIONS]
        gone, name = declared[turn % len(declared)] if declared else (0, "")
        return Mistake(lines[:gone] + lines[gone + 1 :], {gone + 1}, {name}) if declared else None
    if sort == "end too many":
        is_right = not words or opens(words) or words[0] in {"else", "field"}
        return None if is_right else Mistake([*lines[: at + 1], indented(lines[at], ["end"]), *lines[at + 1 :]], {at + 2})
    made, named = in_words(sort, words, turn) if words else (words, "")
    return Mistake([*lines[:at], indented(lines[at], made), *lines[at + 1 :]], {at + 1}, {named} - {""}) if made != words else None


def in_words(sort: str, words: list[str], turn: int) -> tuple[list[str], str]:
    """The words of a line with a mistake of a sort in one of them, and the word that it makes; the same where there can't be such a one."""
    place = turn % len(words)
    if sort == "word twice":
        return [*words[: place + 1], *words[place:]], ""
    if sort == "last word gone":
        return words[:-1] or words, ""
    word = words[place]
    at = turn // 3 % (len(word) - 1) if len(word) > 2 else 0
    before, one, other, after = word[:at], word[at], word[at + 1 : at + 2], word[at + 2 :]
    made = {
        "letter gone": before + other + after,
        "letters swapped": before + other + one + after,
        "letter twice": before + one + one + other + after,
        "another letter": before + ("x" if one != "x" else "y") + other + after,
    }[sort]
    return ([*words[:place], made, *words[place + 1 :]], made) if len(word) > 2 else (words, "")


def mistakes() -> Iterator[Mistake]:
    """Mistakes without end, each in another script than the one before, of another sort, and further on."""
    cases = [it.script.decode() for it in cases_of("guide")]
    scripts = [it.read_text() for it in examples()] + [it for it in cases if it.strip()]
    for turn in count():
        lines = scripts[turn % len(scripts)].splitlines()
        if made := mistake(SORTS[turn % len(SORTS)], lines, turn * 7 % len(lines), turn // len(SORTS)):
            yield made


def count_mistakes(words: list[str]) -> int:
    """Makes 200 scripts with one mistake each, and counts how many of the mistakes are named.

    The scripts come of the examples and the guide's cases, always the same ones. A mistake that leaves a script which the workbench accepts
    is passed over. A mistake is named where standard error has a line `FILE:N:` with its number, or the word between backquotes.
    """
    program, tally, refused, named = program_parser(count_mistakes.__doc__).parse_args(words).program, Tally(), 0, 0
    with tempfile.TemporaryDirectory() as folder:
        for made in mistakes():
            Path(folder, "script.oom").write_text("\n".join(made.lines) + "\n")
            answer = answer_of(program, "run", "script.oom", cwd=folder)
            if answer.status != REFUSED:
                continue
            explanation = answer.messages.decode()
            is_named = made.is_named(explanation)
            refused, named = refused + 1, named + is_named
            if not is_named:
                print(f"not named: lines {sorted(made.numbers)}, words {sorted(made.words)}\n{explanation}")
            if refused == WANTED:
                break
    print(f"{named} of {refused} mistakes named")
    tally.check(named >= LEAST, f"{LEAST} are wanted")
    return tally.end()
