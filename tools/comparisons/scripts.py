"""What the program answers of one script, and how a comparison ends where an answer is wrong; and scripts that are made for `compare`.

Most scripts that are made leak, panic or are cut under some failure: a `main` calls parts of made-parts.txt, each within a TRAP. Most have
one part with a mistake, which a single failure shows, or only two or more. The same numbers give the same scripts."""

import json
import random
import re
from collections.abc import Iterator, Mapping, Sequence
from pathlib import Path
from typing import NamedTuple

from tools.common import CUT, FINE, FOUND, TOOLS, Answer, answer_of
from tools.language import words_of_roles

# the numbers of attempts that fail together, in ascending order; or one other number that a run is given, a rate for example
Numbers = tuple[int, ...]
# words of a command line
Words = tuple[str | int, ...]

# how a run's end begins where it says all of how it ends
WHOLE_ENDS = ("panic ", "cut ", "nocleanup")


class Report(NamedTuple):
    lines: list[str]
    status: int

    def begins(self, word: str) -> list[str]:
        return [line for line in self.lines if line.startswith(f"{word} ")]

    def shown(self) -> str:
        return f"status {self.status} and {self.lines[:4]}"

    def attempts(self) -> int:
        return len(self.begins("attempt"))

    def end(self) -> str:
        """How a run ends, in the words of a table or of a list."""
        end = next((line for line in self.lines if line.startswith((*WHOLE_ENDS, "left ", "ended"))), "no end")
        leaks = self.begins("leaks")
        return end if end.startswith(WHOLE_ENDS) or leaks == ["leaks 0"] else leaks[0]


class Difference(Exception):
    """What a script shows that may not be."""


class Script:
    """A script, and what the program answers of it. Nothing is asked twice."""

    def __init__(self, program: Path, text: bytes, options: Sequence[str] = (), known: Mapping[tuple[str, ...], Answer] = {}) -> None:
        self.program, self.text, self.options = program, text, options
        self.known = dict(known)
        # the keys of each object that were compared, and how much was compared in all
        self.keys: dict[tuple[str, ...], set[str]] = {}
        self.compared = 0

    def ask(self, *words: str) -> Answer:
        """What the program writes where it is given these words, and the options of all answers."""
        if words not in self.known:
            self.known[words] = answer_of(self.program, *words, *self.options, script=self.text)
        return self.known[words]

    def answer(self, *words: str | int) -> Report:
        told = self.ask(*map(str, words))
        return Report(told.lines(), told.status)

    def run(self, *words: str | int) -> Report:
        told = self.answer("run", *words)
        is_run = told.status in (FINE, FOUND, CUT) and "".join(told.lines[-1:]).startswith("steps ")
        self.must(is_run, f"`{spelled('run', *words)}` gives {told.shown()}, which is no run")
        return told

    def must(self, holds: bool, otherwise: str) -> None:
        """Ends the comparison of the script where something doesn't hold."""
        self.compared += 1
        if not holds:
            raise Difference(otherwise)

    def compare(self, wanted: Report, *words: str | int) -> Report:
        """What a command answers, which must be this."""
        told = self.answer(*words)
        self.must(told == wanted, f"`{spelled(*words)}` gives {told.shown()} in place of {wanted.shown()}")
        return told

    def compare_check(self, sweep: Report, *flags: str | int) -> Report:
        """What `check` answers, which must have the lines of `size` and then those of a sweep with the same flags."""
        size = self.answer("size")
        return self.compare(size if size.status == CUT else Report(size.lines + sweep.lines, sweep.status), "check", *flags)

    def compare_object(self, plain: Report, values: dict[str, object], *words: str | int, is_all: bool = False) -> None:
        """Whether the JSON of a command holds these values, and what the command says without it; whether it holds no more, if so asked."""
        told, wanted = self.answer(*words, "--json"), values | {"lines": plain.lines, "status": plain.status}
        (line,) = told.lines
        held = json.loads(line)
        found = held if is_all else {key: held.get(key, "no such key") for key in wanted}
        self.keys[(*map(str, words), "--json")] = set(found)
        self.must(found == wanted and told.status == plain.status, f"`{spelled(*words)} --json` gives {found}")


def spelled(*words: str | int) -> str:
    return " ".join(map(str, words))


SCRIPTS, SEED = 300, 1

# how many bytes a request asks for
ROOM = (4, 16, 17, 40, 100, 240, 1000, 5000)
# what the parts share: an object that owns a text, and an operation
SHARED = """\
class Note 4
    field text
    construct
        hnewl self.text 12
        copy self.text "milk"
    end
    destroy
        free self.text
    end
end
op giveup cell
    free cell
end
"""
# two requests, with what is done where each is refused, and what they need
REQUEST = ("alloc cell {room}; if null cell", "free cell; null cell")
REFUSED = {"first": "else; repeat 8; end; end", "later": "end"}
NEEDED = "ptr cell; ptr kept; int seen"


class Part(NamedTuple):
    name: str
    # each of some statements
    lines: tuple[str, ...]

    def body(self, chance: random.Random, is_wrong: bool) -> list[str]:
        """The lines of its body; a mistake is in it where that is asked for."""
        known: dict[str, int] = {}
        written: list[str] = statements(NEEDED, is_wrong) if any(it.startswith("later ") for it in self.lines) else []
        for line in self.lines:
            word, _, rest = line.partition(" ")
            if word == "let":
                for name, _, value in (it.partition(" = ") for it in rest.split("; ")):
                    each = [f"{name[5:]}{at}" for at in range(known["helpers"])] if name.startswith("each ") else [name]
                    known |= {it: value_of(value, known, chance) for it in each}
                continue
            if word in REFUSED:
                line = "; ".join((REQUEST[0], rest, REFUSED[word], REQUEST[1]))
            for at in range(known["helpers"] if word == "each" else 1):
                known["at"] = at
                for it in statements(rest if word == "each" else line, is_wrong):
                    written.append(re.sub(r"\{(.*?)\}", lambda it: str(value_of(it[1], known, chance)), it))
        return written


def statements(line: str, is_wrong: bool) -> list[str]:
    """The statements of a line, in a wrong part or in a right one."""
    marked = [it.strip() for it in line.split(";")]
    return [it.removeprefix("- ").removeprefix("+ ") for it in marked if not it.startswith("+ " if is_wrong else "- ")]


def value_of(text: str, known: dict[str, int], chance: random.Random) -> int:
    """A number as a part names it: a sum of numbers that are known or chosen."""
    total = 0
    for it in text.split("+"):
        first, _, last = it.partition("..")
        if it == "room":
            total += chance.choice(ROOM)
        elif last:
            total += chance.randint(int(first), int(last))
        elif "|" in it:
            total += chance.choice([int(number) for number in it.split("|")])
        else:
            total += int(it) if it.isdigit() else known[it if it in known else f"{it}{known['at']}"]
    return total


def parts_in(text: str) -> Iterator[tuple[str, list[Part]]]:
    """The sorts of parts of a text, by their names; those that come twice stand once more at the end."""
    for heading, *rest in (it.split("\n== ") for it in text.split("\n=== ")[1:]):
        blocks = [it.splitlines() for it in rest]
        parts = [Part(name.removesuffix(", twice"), tuple(it.strip() for it in lines if it.startswith("    "))) for name, *lines in blocks]
        yield re.split(r"\W", heading)[0], parts + [part for part, (name, *_) in zip(parts, blocks) if name.endswith(", twice")]


# parts by their sorts: how many failures show their mistakes, mostly
PARTS = dict(parts_in((TOOLS / "comparisons/made-parts.txt").read_text(encoding="ascii")))
# the sorts that scripts are made of, if nothing else is said
SORTS = "one two"


def indented(body: list[str]) -> list[str]:
    written, depth, opening = [], 1, words_of_roles("If", "Loop")
    for line in body:
        depth -= line == "end"
        written.append("    " * depth + line)
        depth += line.split()[0] in opening
    return written


def script(number: int, seed: int = SEED, sorts: str = SORTS) -> str:
    chance = random.Random(f"{seed} {number}")
    parts = [chance.choice(PARTS[chance.choice(sorts.split())]) for _ in range(chance.choice((1, 2, 3, 3, 4, 5, 6)))]
    wrong = chance.randrange(len(parts)) if chance.random() < 0.75 else None
    is_marked, is_set = chance.random() < 0.3, chance.random() < 0.3
    written: list[str] = []
    main = ["int code"]
    for at, part in enumerate(parts):
        written += [f"proc part{at}", *indented(part.body(chance, at == wrong)), "end"]
        if is_set:
            main.append(chance.choice((f"failnext {chance.randint(1, 9)}", f"failevery {chance.randint(2, 7)}", "failnone")))
        main += ["mark"] if is_marked else []
        main += ["trap code", f"call part{at}", "end", "print code"]
        main += ["markend 0"] if is_marked else []
    return SHARED + "\n".join([*written, "proc main", *indented(main), "end"]) + "\n"


def scripts(count: int = SCRIPTS, seed: int = SEED, sorts: str = SORTS) -> list[str]:
    return [script(number, seed, sorts) for number in range(count)]
