"""Compares a picture with the reports of the same runs: what its shapes are titled with, and where they are. It is for pictures of runs in
which each attempt and each row of a table has a shape of its own. Each run of a picture has a heading that says by which rule it is, so the
run can be made by itself. The legend must name what is seen and nothing else, and bands must have one scale.
"""

import re
import xml.etree.ElementTree as ET
from collections.abc import Callable, Iterator
from dataclasses import dataclass, field
from functools import cached_property
from typing import NamedTuple

SVG = "{http://www.w3.org/2000/svg}"
ELEMENTS = {f"{SVG}{it}" for it in ("svg", "title", "style", "rect", "path", "text")}
# how far the text at a step is to the right of the step, and how many bytes the units of places are
BESIDE = 3
UNITS = {"bytes": 1, "KiB": 1024}

# the lines of a report for the words of a command
Reports = Callable[[list[str]], list[str]]
# the option of a run, by how its heading begins; its values are the numbers of the heading
RULES = {
    "The run without failure: ": "",
    r"The run in which attempts? ([\d, and]+) fails?: ": "--set",
    r"The run in which every attempt fails whose number is a multiple of (\d+): ": "--every",
    r"The run in a heap of (\d+) bytes: ": "--limit",
}
# the heading of an end that is drawn once more, and how many attempts it has
END = re.compile(r"The end of this run once more: attempts (\d+) to (\d+), from step (\d+) on")
LAST_ATTEMPTS = 60
ANSWERS = {"granted": "granted", "simulated": "made to fail", "refused": "refused by the limit"}
# what a picture says for words of a report
SAID = {"left": "left with", "nocleanup": "no cleanup stack", "cut": "cut at the", "leaks 0": "no leaks", "leaks 1": "1 leak"}

ATTEMPT = re.compile(r"attempt (\d+) length (\d+) place (\d+) (\w+)")
ROW = re.compile(r"from (\d+) (.*)")
LEAK = re.compile(r"leak \d+ length \d+ place \d+")
# titles of shapes
ATTEMPTED = r"attempt \d+, [a-z ]+: \d+ bytes at place \d+"
CELL = r"rect (?:leak: )?cell \d+, .*?, (\d+) bytes at place (\d+), (?:granted|grown|moved here) by attempt (\d+) in step (\d+)"
GONE = r"(?:, (?:freed|moved away|given another length) in step (\d+))?"
SEEN = r"rect (leak: )?cell \d+, (the cleanup stack's own|raw|text|object of class (\w+)), \d+ bytes"
KINDS = {"the cleanup stack's own": "cleanup stack", "raw": "raw cell", "text": "text"}
FOLD = re.compile(r"rect places (\d+) to (\d+) are drawn shorter")
BANDS = ("marks", "TRAPs", "cleanup")
# how far a shape may be from where it should be, in pixels, and the least height of a cell
NEAR = 2
LEAST = 2
# the least width of a leak, and how many leaks of a run have labels
LEAST_LEAK = 6
MOST_LABELS = 12


class Shape(NamedTuple):
    """A shape with a title: its style, its kind with the title, and of a rectangle the left, upper, right and lower edge."""

    style: str
    title: str
    left: int
    top: int
    right: int
    bottom: int

    def is_cell(self) -> bool:
        return self.title.startswith("rect ") and self.style.split()[0] in ("cell", "thin")


def shape_of(element: ET.Element) -> Shape | None:
    title = element.findtext(f"{SVG}title")
    if title is None:
        return None
    left, top, width, height = (int(element.get(it, "0")) for it in ("x", "y", "width", "height"))
    return Shape(element.get("class", ""), f"{element.tag.removeprefix(SVG)} {title}", left, top, left + width, top + height)


@dataclass
class Panel:
    """One run of a picture, or its end: its heading, its shapes, its texts, and where some steps and places are, by their labels."""

    heading: str
    shapes: list[Shape] = field(default_factory=list)
    texts: list[str] = field(default_factory=list)
    steps: dict[int, int] = field(default_factory=dict)
    places: dict[int, int] = field(default_factory=dict)

    def titled(self, pattern: str | re.Pattern[str]) -> list[tuple[Shape, re.Match[str]]]:
        """The shapes whose titles begin with a pattern, and the matches."""
        return [(it, found) for it in self.shapes if (found := re.match(pattern, it.title))]

    def titles(self, pattern: str) -> list[str]:
        return [found[0] for _, found in self.titled(pattern)]

    @cached_property
    def folds(self) -> list[tuple[int, int]]:
        """The places that are drawn shorter, each from one up to another."""
        return [(int(it[1]), int(it[2])) for _, it in self.titled(FOLD)]

    def is_near(self, place: int, other: int) -> bool:
        """Whether nothing between two places is drawn shorter; of one place, whether it is itself drawn as it is."""
        return not any(low < max(place, other) and min(place, other) < high for low, high in self.folds)

    def x_of(self, step: int) -> float:
        """Where a step begins, from the left: on the line through the first label and the last."""
        first, last = min(self.steps), max(self.steps)
        return self.steps[first] + (step - first) * (self.steps[last] - self.steps[first]) / ((last - first) or 1)

    @cached_property
    def byte_height(self) -> float:
        """How far a place is below the one before, by the two labels that are farthest apart with nothing between them drawn shorter."""
        labels = sorted(self.places)
        length, first, last = max((b - a, a, b) for a in labels for b in labels if self.is_near(a, b))
        return (self.places[last] - self.places[first]) / (length or 1)

    def y_of(self, place: int) -> float:
        """Where a place is, from above. It is not one of those that are drawn shorter."""
        near = min((it for it in self.places if self.is_near(it, place)), key=lambda it: abs(it - place))
        return self.places[near] + (place - near) * self.byte_height


class Picture:
    def __init__(self, text: str) -> None:
        self.text = text
        self.root = ET.fromstring(text)

    def shapes(self) -> list[Shape]:
        return [it for it in map(shape_of, self.root) if it]

    def is_plain(self) -> bool:
        """Whether it has only the elements of a picture, and is named for those who don't see it."""
        return {it.tag for it in self.root.iter()} <= ELEMENTS and self.root.get("role") == "img" and bool(self.root.get("aria-label"))

    def legend(self) -> list[str]:
        """What the entries of the legend are for: each is a small rectangle, and then a text."""
        after = list(self.root)[1:]
        return [text.text or "" for it, text in zip(self.root, after) if it.get("width") == "14" and shape_of(it) is None]

    def panels(self) -> list[Panel]:
        """Its runs, from above."""
        panels: list[Panel] = []
        number, unit = None, 1
        for it in self.root:
            text, style = it.text or "", it.get("class")
            if style == "h":
                panels.append(Panel(text))
            elif panels and (shape := shape_of(it)):
                panels[-1].shapes.append(shape)
            elif style == "e dim" and text in UNITS:
                unit = UNITS[text]
            elif panels and style == "dim" and text.isdigit():
                panels[-1].steps[int(text)] = int(it.get("x", "")) - BESIDE
            elif panels and style == "grid" and number is not None:
                panels[-1].places[number * unit] = int(re.findall(r"\d+", it.get("d", ""))[1])
            if panels and text:
                panels[-1].texts.append(text)
            # the line at a place comes after its number
            number = int(text) if style == "e dim" and text.isdigit() else None
        return panels


def faults_of(picture: Picture, command: str, reports: Reports) -> Iterator[str]:
    """What is wrong with a picture that was drawn beside the report of a command."""
    panels = picture.panels()
    report: list[str] = []
    for panel in panels:
        end, options = END.fullmatch(panel.heading), options_of(panel.heading)
        if options is not None:
            report = reports(["run", *options])
        found = faults_of_run(panel, report, end) if end or options is not None else ["no rule has this heading"]
        yield from (f"{panel.heading}: {it}" for it in found)
    yield from compared("entries of the legend", sorted(picture.legend()), sorted(seen_in(panels)))
    if not panels:
        yield "it has no panel"
        return
    values = ([int(it[1]) for panel in panels for _, it in panel.titled(rf"rect {name}: (\d+), ")] for name in BANDS)
    scales = [f"up to {max(it)}" for it in values if it]
    for panel in panels:
        yield from compared("the scales of bands", [it for it in panel.texts if it.startswith("up to ")], scales)
    size = reports(["size"])
    yield from compared("lengths", panels[0].titles("path required .*"), [f"path {size[0]}"])
    table = reports(["lengths"]) if command == "lengths" else size
    rows = [it for it in map(ROW.fullmatch, table) if it]
    told = [f"rect from {it[1]} {said(it[2])}" for it in rows]
    yield from compared("rows of the table", panels[0].titles(r"rect from \d+ [^;]+"), told)


def options_of(heading: str) -> list[str] | None:
    """The options by which `run` gives the run with this heading, or None."""
    for begins, option in RULES.items():
        if found := re.match(begins, heading):
            return [option, ",".join(re.findall(r"\d+", found[1]))] if option else []
    return None


def compared(what: str, drawn: list[str], told: list[str]) -> Iterator[str]:
    if drawn != told:
        yield f"{what} are {drawn}, and the report has {told}"


def faults_of_run(panel: Panel, report: list[str], again: re.Match[str] | None) -> Iterator[str]:
    """What a panel shows otherwise than the report of its run says. Of an end that is drawn once more the heading is given."""
    attempts = [it for it in map(ATTEMPT.fullmatch, report) if it]
    steps, first = int(report[-1].removeprefix("steps ")), int(again[3]) if again else 0
    if again:
        attempts = attempts[-LAST_ATTEMPTS:]
        yield from compared("the first and the last attempt", [again[1], again[2]], [attempts[0][1], attempts[-1][1]])
    told = [f"attempt {it[1]}, {ANSWERS[it[4]]}: {it[2]} bytes at place {it[3]}" for it in attempts]
    yield from compared("attempts", panel.titles(f"path {ATTEMPTED}"), [f"path {it}" for it in told])
    leaks = (it.expand(r"\1 length \2 place \3") for _, it in panel.titled(r"rect leak: cell (\d+), .*?, (\d+) bytes at place (\d+)"))
    yield from compared("leaks", sorted(f"leak {it}" for it in leaks), sorted(filter(LEAK.fullmatch, report)))
    yield from misplaced_cells(panel, first, steps)
    if again:
        return
    yield from compared("failing attempts", panel.titles(f"rect {ATTEMPTED}"), [f"rect {it}" for it in told if "granted" not in it])
    cells = [tuple(map(int, it.groups()[:3])) for _, it in panel.titled(CELL)]
    granted = [(int(it[2]), int(it[3]), int(it[1])) for it in attempts if it[4] == "granted"]
    yield from compared("cells", sorted(map(str, cells)), sorted(map(str, granted)))
    if sum(it.is_cell() for it in panel.shapes) != len(cells) + len(panel.titled("rect (leak: )?cell \\d+, .*, made shorter in step")):
        yield "a rectangle of a cell has the title of none"
    shown = panel.titled(r"rect leak: cell (\d+), .*?; line (\d+): ")
    for shape, it in shown:
        if shape.right - shape.left < LEAST_LEAK:
            yield f"a leak is {shape.right - shape.left} pixels wide: {it.string}"
        # if they are few
        if len(shown) <= MOST_LABELS and not any(re.fullmatch(rf"leak {it[1]}( .*)?, line {it[2]}", text) for text in panel.texts):
            yield f"a leak has no label: {it.string}"
    ends = [it for it in report if re.match("ended|left |panic |cut |nocleanup", it)][:1] + [it for it in report if it.startswith("leaks ")]
    heading = f": attempts {len(attempts)}, steps {steps}, {', '.join(map(said, ends))}"
    if not panel.heading.endswith(heading):
        yield f"the heading doesn't end with {heading!r}"


def misplaced_cells(panel: Panel, first: int, steps: int) -> Iterator[str]:
    """Cells that are not where their lengths, places and steps are, in a panel that begins with a step, of a run with so many."""
    for shape, found in panel.titled(CELL + GONE):
        length, place, _, step, gone = (int(it or 0) for it in found.groups())
        if not (panel.is_near(place, place) and panel.is_near(place + length, place + length)):
            continue
        high, low = panel.y_of(place + length), panel.y_of(place)
        # one that is too low to be seen is drawn higher
        is_high = abs(shape.top - high) <= NEAR or (low - high < LEAST and shape.bottom - shape.top == LEAST)
        is_long = abs(shape.right - panel.x_of(gone)) <= NEAR if gone else shape.right >= panel.x_of(steps)
        if not (is_high and is_long and abs(shape.bottom - low) <= NEAR and abs(shape.left - panel.x_of(max(step, first))) <= NEAR):
            yield f"a cell is from {shape.left} to {shape.right} and from {shape.top} to {shape.bottom}: {found.string}"


def seen_in(panels: list[Panel]) -> set[str]:
    names = {"places drawn shorter"} if any(it.folds for it in panels) else set()
    for panel in panels:
        names |= {"leak" if it[1] else it[3] or KINDS[it[2]] for _, it in panel.titled(SEEN)}
        names |= {it[1] for _, it in panel.titled(r"rect attempt \d+, (made to fail|refused by the limit)")}
    return names


def said(line: str) -> str:
    """How a picture says what a line of a report does."""
    word, _, rest = line.partition(" ")
    if word == "leaks":
        return SAID.get(line, f"{rest} leaks")
    return f"{SAID.get(word, word)} {rest}".rstrip()
