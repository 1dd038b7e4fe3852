"""The scripts that `bench/run` measures, and what the cost of each is divided by; and the plain program beside which they are measured."""

import shutil
import subprocess
from collections.abc import Callable
from math import comb
from pathlib import Path
from typing import NamedTuple

from tools.comparisons.compare import PROGRAMS
from tools.worked_cases import case_called

PLAIN = Path(__file__).resolve().parent / "plain/main.rs"


def build_plain(folder: Path) -> Path | None:
    """Builds the plain program in a folder; None without a compiler."""
    if not shutil.which("rustc"):
        return None
    program = folder / "plain"
    subprocess.run(["rustc", "--edition", "2024", "-O", "-C", "codegen-units=1", "-o", program, PLAIN], check=True)
    return program


ARITHMETIC = """
proc main
int x
repeat 333333
add x 1
if less x 0
end
end
end
"""

ALLOCATION = """
proc main
ptr a
ptr b
ptr c
repeat 142857
alloc a 40
alloc b 200
alloc c 12
free b
free a
free c
end
end
"""

CALLS = """
proc down left:int
if less 0 left
add left -1
call down left
end
leave -5
end
proc main
int code
repeat 2700
trap code
call down 120
end
end
end
"""

GROWING = """
proc main
ptr p
int bytes
set bytes 60000
alloc p 60000
repeat 200
add bytes 16
realloc p p bytes
end
free p
end
"""
# the bytes that the cells of `GROWING` hold before each growth, which are copied where it moves them
GROWN_BYTES = sum(60_000 + 16 * turn for turn in range(200))

BUFFERS = """
proc main
buf b 256
buf c 256
view w
copy b "{text}"
repeat 100000
copy c b
deltext c 3 20
insert c 40 "abcdefghij"
append c "0123456789"
setlength c 250
mid w c 10 200
copy b w
append b "01234567890123456789012345678901234567890123456789"
end
end
""".replace(
    "{text}", "x" * 250
)

LONG_TEXTS = """
proc main
ptr h
ptr g
hnew h 9000
hnew g 9000
setlength h 9000
repeat 40000
deltext h 10 5
insert h 4000 "abcde"
copy g h
end
free h
free g
end
"""

REALLOCATION = """
proc main
ptr p
ptr q
int x
alloc p 16
alloc q 16
repeat 142856
realloc p p 100
realloc p p 10
add x 1
realloc q q 200
realloc q q 20
add x 1
end
free p
free q
end
"""

CHAINS = """
class Node 4
field next Node
destroy
delete self.next
end
end
proc main
ptr head Node
ptr node Node
repeat 1600
null head
repeat 100
newleave node Node
set node.next head
set head node
end
delete head
end
end
"""

DESTRUCTORS = """
class Part 8
field cell
construct
allocl self.cell 40
end
destroy
free self.cell
end
end
class Whole 16
field left Part
field right Part
construct
ptr part Part
newleave part Part
set self.left part
construct part
newleave part Part
set self.right part
construct part
end
destroy
delete self.left
delete self.right
end
end
proc main
ptr whole Whole
repeat 41600
newleave whole Whole
pushobj whole
construct whole
popdestroy 1
end
end
"""

OPERATIONS = """
op drop cell
free cell
end
proc main
ptr cell
repeat 71428
allocl cell 16
pushop cell drop
allocl cell 40
pushop cell drop
popdestroy 2
end
end
"""

LARGE_CELLS = """
proc main
ptr a
ptr b
repeat 20000
alloc a 1048000
alloc b 1048000
free a
free b
end
end
"""

# a leak in the run in which attempt 3 fails, and 3,000 further attempts
FOUND_EARLY = """
proc main
ptr a
ptr b
ptr c
allocl a 16
allocl c 16
free a
free c
repeat 3000
alloc b 40
free b
end
end
"""

SWEPT = """
proc main
ptr a
ptr b
repeat 500
alloc a 40
alloc b 40
free a
free b
end
end
"""

SWEPT_OVER_LIVE_CELLS = """
proc main
ptr a
ptr c
ptr d
ptr e
ptr f
alloc c 1048560
alloc d 1048560
alloc e 1048560
alloc f 1048560
repeat 195
alloc a 40
free a
end
free c
free d
free e
free f
end
"""

SWEPT_LOOPS = "proc main\nptr a\nint x\n" + 20 * "repeat 50\nadd x 1\nalloc a 40\nfree a\nadd x 1\nend\n" + "end\n"

# seventeen cells, each twice as long as the one after it: a heap grants those that its length is made of, so that every 16 bytes more are
# another run, up to 2 MiB
GREEDY = "proc main\nptr cell\n" + "".join(f"alloc cell {(16 << power) - 16}\n" for power in reversed(range(17))) + "end\n"
# the lengths at which the cells granted change: below the cleanup stack's cell, and then by every set of the others
GREEDY_RUNS = 1 + (1 << 17)

# a loader that tries less and less, and forgets its header where the last try is refused
LOADER = """
proc main
ptr header
ptr data
allocl header 16
alloc data 4000
if null data
alloc data 2000
end
if null data
allocl data 1000
end
free data
free header
end
"""

# no single failure and no two show anything; each attempt but the first is made whichever others fail
SWEPT_BY_PAIRS = """
proc main
ptr a
repeat 199
alloc a 40
free a
end
end
"""

# the same with so many attempts, and with each turn in a TRAP of its own
SWEPT_TURNS = """
proc main
ptr a
repeat {turns}
alloc a 40
free a
end
end
"""
SWEPT_TRAPS = """
class Log 0
field name
construct
hnewl self.name 8
end
destroy
free self.name
end
end
proc main
ptr log Log
int code
repeat 500
trap code
newleave log Log
pushobj log
construct log
popdestroy 1
end
end
end
"""
# what fails is missing to the end: no fork comes to what the run without failure is
SWEPT_APART = """
class Node 0
field next Node
end
proc main
ptr all Node
ptr node Node
repeat 500
new node Node
if some node
set node.next all
set all node
end
end
repeat 500
if some all
set node all.next
delete all
set all node
end
end
end
"""

# a thousand requests with a fallback, none of which has to do with the others: each set of them is fine
FALLBACKS = """
proc main
ptr a
repeat 1000
alloc a 100
if null a
alloc a 20
end
if some a
store a 0 1
end
free a
end
end
"""


# twenty attempts of which each set that fails comes to a state of its own, since a sum tells it from all others
APART_NAMES = """\
ptr a
int failed
int bit
"""
APART = """\
set bit 1
repeat 20
alloc a 40
if null a
add failed bit
end
free a
null a
add bit bit
end
"""
TOLD_APART = f"proc main\n{APART_NAMES}{APART}end\n"
# so many cells, each named by an object; the cells can be freed from the highest down, and the objects from the lowest up
AROUND = """
class Node 0
field below Node
field above Node
field gap
end
proc main
ptr lowest Node
ptr highest Node
ptr node Node
ptr cell
new lowest Node
set highest lowest
repeat {count}
new node Node
alloc cell 16
set node.gap cell
set node.below highest
set highest.above node
set highest node
end
{first}
repeat {turns}
{work}
end
{last}
repeat {count}
set node lowest.above
delete lowest
set lowest node
end
delete lowest
end
"""
FREE_GAPS = "set node highest\nrepeat {count}\nfree node.gap\nset node node.below\nend"


def among_cells(count: int, turns: int, work: str) -> str:
    """A script that does some work again and again while twice so many cells are live, and then frees all."""
    free_gaps = FREE_GAPS.format(count=count)
    return AROUND.format(count=count, first="", turns=turns, work=work, last=free_gaps)


def among_holes(count: int, turns: int, work: str) -> str:
    """The same with so many live cells, and below each of them but one a hole of 32 bytes."""
    return AROUND.format(count=count, first=FREE_GAPS.format(count=count), turns=turns, work=work, last="")


def long_script() -> str:
    """A body of 32 locals, each used in many lines: 5,000 lines, about 49,000 bytes."""
    names = [f"n{index}" for index in range(32)]
    lines = ["proc main"] + [f"int {name}" for name in names]
    while len(lines) < 4999:
        lines.append(f"add {names[len(lines) % 32]} 1")
    return "\n".join(lines + ["end"]) + "\n"


# scripts of nearly the greatest length whose lines do nothing, or are in a body that nothing calls
BLANK_LINES = 60_000
COMMENTS = 15_000
BLOCKS = 1_250
BLOCK = "repeat 1\nif less x 0\nadd x 1\nelse\nadd x 2\nend\nend\n"
NEVER_CALLED = f"proc never\nint x\n{BLOCKS * BLOCK}end\nproc main\nend\n"


def number_of(word: str, text: str) -> int:
    """The number of the line that begins with a word."""
    return next(int(line.split(" ")[1]) for line in text.splitlines() if line.startswith(f"{word} "))


def steps(text: str) -> int:
    """How many steps a run's report tells."""
    return number_of("steps", text)


def attempts_swept(text: str) -> int:
    """How many attempts a sweep's report tells."""
    return number_of("attempts", text)


def pairs_swept(text: str) -> int:
    """How many pairs are tried of a script in which attempt 1 alone ends the run."""
    number = attempts_swept(text)
    return (number - 1) * (number - 2) // 2


def sets_swept(text: str) -> int:
    """How many sets of two and of three attempts are tried of such a script."""
    return comb(attempts_swept(text), 3)


class Workload(NamedTuple):
    """A script, the task for it, and what its cost is divided by, which is read off the report, or is how many states a sweep meets."""

    name: str
    task: str
    script: str
    unit: str
    divisor: Callable[[str], int] | None
    # too long for callgrind, or told wrong by it, since it counts a large move of memory byte by byte
    by_time: bool = False


MARKS = "mark\nalloc cell 16\ncheck 1\nfree cell\nmarkend 0\ncheckall 10001"
WORKLOADS = [
    Workload("arithmetic", "run", ARITHMETIC, "step", steps),
    Workload("objects in chains of 100, deleted", "run", CHAINS, "step", steps),
    Workload("allocation and release", "run", ALLOCATION, "step", steps),
    Workload("calls 120 deep, left into TRAPs", "run", CALLS, "step", steps),
    Workload("destructors", "run", DESTRUCTORS, "step", steps),
    Workload("operations of items", "run", OPERATIONS, "step", steps),
    Workload("reallocation", "run", REALLOCATION, "step", steps),
    Workload("reallocation where cells move", "run --moving", REALLOCATION, "step", steps),
    Workload("cells of 60 KB that grow", "run", GROWING, "byte of them", lambda _: GROWN_BYTES),
    Workload("cells of 60 KB that grow where cells move", "run --moving", GROWING, "byte of them", lambda _: GROWN_BYTES),
    Workload("texts of 256 units", "run", BUFFERS, "step", steps),
    Workload("reading 5,000 lines", "run", long_script(), "byte", lambda _: len(long_script())),
    Workload("reading 60,000 blank lines", "run", BLANK_LINES * "\n" + "proc main\nend\n", "line", lambda _: BLANK_LINES),
    Workload("reading 15,000 short comments", "run", COMMENTS * "# a\n" + "proc main\nend\n", "line", lambda _: COMMENTS),
    Workload("reading 2,500 blocks", "run", NEVER_CALLED, "byte", lambda _: len(NEVER_CALLED)),
    Workload("sizing of allocation and release", "size", ALLOCATION, "attempt", lambda _: 1 + 3 * 142_857),
    Workload("check of 3,003 attempts, found at the third", "check", FOUND_EARLY, "attempt", attempts_swept),
    Workload("sweep of 1,001 attempts", "sweep", SWEPT, "attempt", attempts_swept),
    Workload("all of a sweep of 1,001 attempts", "sweep --all", SWEPT, "attempt", attempts_swept),
    Workload("a quarter of a sweep of 1,001 attempts", "sweep --from 501 --to 750", SWEPT, "attempt of the whole", attempts_swept),
    Workload("sweep of 4,000 attempts", "sweep", SWEPT_TURNS.format(turns=3_999), "attempt", attempts_swept),
    Workload("sweep of 500 TRAPs", "sweep", SWEPT_TRAPS, "attempt", attempts_swept),
    Workload("sweep whose forks never meet", "sweep", SWEPT_APART, "attempt", attempts_swept),
    Workload("sweep of 20 loops", "sweep", SWEPT_LOOPS, "attempt", attempts_swept),
    Workload("sweep by pairs of 200 attempts", "sweep --pairs", SWEPT_BY_PAIRS, "pair", pairs_swept),
    Workload("sweep by pairs of 1,000 attempts", "sweep --pairs", SWEPT_TURNS.format(turns=999), "pair", pairs_swept),
    Workload("a quarter of a sweep by pairs", "sweep --pairs --from 51 --to 100", SWEPT_BY_PAIRS, "pair of the whole", pairs_swept),
    Workload("sweep by sets of 3 of 60 attempts", "sweep --failures 3", SWEPT_TURNS.format(turns=59), "set", sets_swept),
    Workload("sweep by sets of 3 of 120 attempts", "sweep --failures 3", SWEPT_TURNS.format(turns=119), "set", sets_swept),
    *(Workload(f"every set of `{it.split('/')[-1]}`", "sweep --sets", case_called(it).script.decode(), "state", None) for it in PROGRAMS),
    Workload("every set of 1,000 fallbacks", "sweep --sets", FALLBACKS, "state", None),
    Workload("sets up to 10,000 states", "sweep --sets --states 10000", TOLD_APART, "state", lambda _: 10_000),
    Workload("sets up to 100,000 states", "sweep --sets", TOLD_APART, "state", lambda _: 100_000, by_time=True),
    Workload("lengths of 1,001 attempts", "lengths", SWEPT, "search", lambda _: 1),
    Workload("lengths of a loader", "lengths", LOADER, "search", lambda _: 1),
    Workload("lengths of a greedy fill", "lengths", GREEDY, "run", lambda _: GREEDY_RUNS, by_time=True),
    Workload("5,000 holes", "run", among_holes(5_000, 300_000, "alloc cell 1000\nfree cell"), "step", steps, by_time=True),
    Workload("10,001 live cells under marks", "run", among_cells(5_000, 30_000, MARKS), "step", steps, by_time=True),
    Workload("cells of 1 MB", "run", LARGE_CELLS, "step", steps, by_time=True),
    Workload("texts of 9,000 units", "run", LONG_TEXTS, "step", steps, by_time=True),
    Workload("sweep over 4 MiB of live cells", "sweep", SWEPT_OVER_LIVE_CELLS, "attempt", attempts_swept, by_time=True),
]

# how many cells or holes there are, and what is done among them; a cell of 1000 bytes fits into no hole, and one of 16 into the lowest
COUNTS = [100, 1_000, 10_000]


class Growth(NamedTuple):
    """A call that is made among many cells or holes: the script with so many of it."""

    name: str
    script: Callable[[int, int], str]


GROWTHS = [
    Growth("a cell granted and released, among live cells", lambda count, turns: among_cells(count, turns, "alloc cell 16\nfree cell")),
    Growth("the same, above all holes", lambda count, turns: among_holes(count, turns, "alloc cell 1000\nfree cell")),
    Growth("the same, in the lowest hole", lambda count, turns: among_holes(count, turns, "alloc cell 16\nfree cell")),
    Growth("`checkall`, among live cells", lambda count, turns: among_cells(count, turns, f"checkall {2 * count + 1}")),
    Growth("`check` in a mark, among live cells", lambda count, turns: marked(count, turns, "check 0")),
    Growth("`mark` and `markend`, among live cells", lambda count, turns: among_cells(count, turns, "mark\nmarkend 0")),
    Growth("`available`, among live cells", lambda count, turns: among_cells(count, turns, "available")),
    Growth("`available`, among holes", lambda count, turns: among_holes(count, turns, "available")),
]


def marked(count: int, turns: int, work: str) -> str:
    """The work among live cells within a mark that is made after them."""
    return AROUND.format(count=count, first="mark", turns=turns, work=work, last=FREE_GAPS.format(count=count))
