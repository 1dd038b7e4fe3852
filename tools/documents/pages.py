"""Compares pages with the sources and the program that they speak of, or writes what is generated in them.

    ./tools/dev pages [PAGE ..]          compares; the last line is `N passed, M failed`
    ./tools/dev pages --write            writes the blocks anew
    ./tools/dev pages --runs             compares examples of reports with what the program answers; with --write it writes them

A block begins with such a comment and ends with `<!-- end -->`; what is between them is this tool's:

    <!-- quote crates/wb_runs/specs/Sets.antt IsSet AreSetsFine -->  definitions of a file, with all of their clauses
    <!-- quote crates/wb_size/src/sizing.rt size Sizing::new.ok -->        contracts of functions, of the second one clause alone
    <!-- file examples/leak.oom -->  <!-- file examples/leak.oom 3-9 -->   a file, or some of its lines
    <!-- case guide/two-cells.run -->                                      the script of a worked case
    <!-- laws crates/wb_runs/src/set_laws.rt -->                          the laws of files, with what is said of each
    <!-- crates -->                                                        a row a crate: what it is and what carries its promises
    <!-- number wrong-bodies -->1<!-- end -->                              in a sentence; also open, functions, contracts

Two kinds are only looked at. `<!-- promises -->` is a table whose rows name public calls with clauses of their contracts, as in
`wb_rheap::Heap::alloc`: `granted`, `short`; a clause without a name is `ensures`. `<!-- measured bench/run -->` is a table with the commit
and the machine that it was measured on.

`<!-- run: workbench check examples/leak.oom -->` stands right before a fenced block (no `end`), which must be what that prints; with
`messages:` what it says on standard error; with `run 1:` the status too. A line `..` stands for any lines. Where the words name no file,
the script is the fenced block before.

Beside blocks, it fails on a sentence of more than 35 words, on a line of prose of more than 160 columns, and on a file, a page or a section
that is named and isn't there."""

import re
import shlex
from collections.abc import Callable, Iterable, Iterator
from difflib import unified_diff
from functools import cache
from itertools import pairwise
from pathlib import Path
from typing import NamedTuple, NoReturn

from tools.common import ROOT, Tally, answer_of, program_parser
from tools.crates import Crates
from tools.edits.verdicts import HEAD, MUST_FAIL, WRONG_BODIES, number_of_open, written_edits
from tools.worked_cases import SUFFIX, case_called

IMPL = re.compile(r"(?:impl|pub trait|trait)\b(?:<[^{]*?>)? (?:[^{]*? for )?(?:\w+::)*(\w+)")
CLAUSE = re.compile(r" *(requires|ensures)(?: (\w+))? \{")
PROMISE = re.compile(r"`(\w+)::((?:\w+::)*)(\w+)`: ((?:`\w+`(?:, )?)+)")


class Function(NamedTuple):
    """A function without its body: the type or trait that it is of, its comment, its lines up to its first clause, and its clauses, of
    which one without a name has that of its sort."""

    of: str
    name: str
    about: str
    signature: str
    clauses: dict[str, str]

    def has_contract(self) -> bool:
        return any("ensures" in it for it in (self.signature, *self.clauses.values()))


def functions_in(code: str) -> Iterator[Function]:
    """The functions of a file but for its tests."""
    lines, about, of, is_test = code.splitlines(), list[str](), "", False
    for at, line in enumerate(lines):
        of = found[1] if (found := IMPL.match(line)) else "" if line == "}" else of
        if head := HEAD.match(line):
            end = next(it for it in range(at, len(lines)) if re.match(rf"{head[1]}(?:\S.*)?[{{}};]$", lines[it]))
            text = [*lines[at:end], lines[end].rstrip(" {};")] if lines[end].strip(" {}") else lines[at:end]
            starts = [it for it, row in enumerate(text) if CLAUSE.match(row)] + [len(text)]
            parts = ["\n".join(text[a:b]) for a, b in pairwise(starts)]
            clauses = {found[2] or found[1]: it for it in parts if (found := CLAUSE.match(it))}
            if not is_test:
                yield Function(of, head[2], " ".join(about), "\n".join(text[: starts[0]]), clauses)
        is_test = "#[test]" in line or (is_test and not head)
        about = [*about, line.strip()[4:]] if "///" in line else about if "#[" in line else []


@cache
def functions_of(crate: str) -> list[Function]:
    files = sorted((Crates().folder(crate) / "src").rglob("*.rt"))
    return [it for path in files for it in functions_in(path.read_text(encoding="utf-8"))]


def quote(words: str) -> str:
    path, *names = words.split()
    read = contract_in if path.endswith(".rt") else definition_in
    quoted = "\n\n".join(read(text_of(path), it) for it in names)
    return f"\n`{path}`:{fenced(quoted)}"


def definition_in(text: str, name: str) -> str:
    """A definition with its clauses, which begin with its name alone; indented lines and closing brackets go on with what is above."""
    first = re.compile(rf"((?:(?:abbrev|pub|unfoldable|record|module|data) )*){re.escape(name)}(?![^\s(){{}}\[\],;.])")
    found, is_part = list[list[str]](), False
    for line in (it for it in text.splitlines() if it.strip() and not it.lstrip().startswith("--")):
        if line[0] not in " })]":
            begun = first.match(line)
            is_part = begun is not None
            found += [[]] if begun and (begun[1] or not found) else []
        if is_part:
            found[-1].append(line)
    return "\n".join(found[0]) if len(found) == 1 else missing(f"one {name}, but {len(found)}")


def contract_in(code: str, path: str) -> str:
    name, _, clause = path.partition(".")
    found = [it for it in functions_in(code) if name in (it.name, f"{it.of}::{it.name}")]
    clauses = [it for one in found for key, it in one.clauses.items() if clause in ("", key)]
    return "\n".join([found[0].signature, *clauses]) if len(found) == 1 and clauses else missing(f"one {path}, but {len(found)}")


def file(words: str) -> str:
    name, _, lines = words.partition(" ")
    first, _, last = lines.partition("-")
    return fenced("\n".join(text_of(name).rstrip().splitlines()[int(first or 1) - 1 : int(last) if last else None]))


def case(place: str) -> str:
    return fenced(case_called(place).script.decode().rstrip("\n"))


def laws(words: str) -> str:
    found = [it for name in words.split() for it in functions_in(text_of(name)) if it.has_contract()]
    return table("Law | What it says", ((f"`{it.name}`", begun(it.about, "  ")) for it in found))


def proved_crates() -> list[str]:
    return [it for it in Crates().lines if not it.endswith("_tests") and not it.startswith("bench")]


def crates(words: str) -> str:
    rows, promised = [], PROMISE.findall(text_of("docs/VERIFICATION.md"))
    for crate in proved_crates():
        calls = dict.fromkeys(f"{of}{name}" for it, of, name, _ in promised if it == crate)
        bare = sum(not it.has_contract() for it in functions_of(crate))
        named = ", ".join(f"`{it}`" for it in calls) or "none"
        rows.append((f"`{crate}`", about(crate), named, f"{bare} of {len(functions_of(crate))}"))
    return table("Crate | What it is | What carries its promises | Functions without a contract of their own", rows)


def number(words: str) -> str:
    found: dict[str, Callable[[], int]] = {
        "functions": lambda: sum(len(functions_of(it)) for it in proved_crates()),
        "contracts": lambda: sum(one.has_contract() for it in proved_crates() for one in functions_of(it)),
        "wrong-bodies": lambda: sum(len(written_edits(Crates().folder(it), [WRONG_BODIES, MUST_FAIL])) for it in Crates().lines),
        "open": number_of_open,
    }
    return str(found[words]() if words in found else missing(f"number of {words}"))


BLOCKS: list[Callable[[str], str]] = [quote, file, case, laws, crates, number]
WRITERS = {it.__name__: it for it in BLOCKS}


def faults_of_promises(block: str) -> Iterator[str]:
    """What rows of a table of promises name that isn't there: each needs a public call with a clause of its contract."""
    for row in block.strip().splitlines()[2:]:
        if not PROMISE.search(row):
            yield f"a promise without a call and its clause: {row}"
        for crate, of, name, clauses in PROMISE.findall(row):
            known = [it for it in functions_of(crate) if it.name == name and of in ("", f"{it.of}::") and "pub " in it.signature]
            for clause in re.findall(r"\w+", clauses):
                if not any(clause in it.clauses for it in known):
                    yield f"{crate}::{of}{name} has no clause {clause}, or isn't public"


def about(crate: str) -> str:
    """The first sentence of a crate's first comment."""
    path = next(it for name in ("lib", "main") if (it := Crates().folder(crate) / f"src/{name}.rt").is_file())
    comment = " ".join(it[4:] for it in path.read_text(encoding="utf-8").splitlines() if it.startswith("//!"))
    return begun(comment, r"(?<=[.:]) (?=[A-Z`])|  ")


def begun(comment: str, end: str) -> str:
    """A comment up to this end, as a cell of a table."""
    return re.split(end, comment)[0].rstrip(".:").replace("|", "\\|")


def table(head: str, rows: Iterable[Iterable[str]]) -> str:
    lines = [head, " | ".join("---" for _ in head.split(" | ")), *(" | ".join(it) for it in rows)]
    return "\n".join(["", *(f"| {it} |" for it in lines), ""])


def fenced(text: str) -> str:
    return f"\n```\n{text}\n```\n"


def text_of(name: str) -> str:
    return (ROOT / name).read_text(encoding="utf-8") if (ROOT / name).is_file() else missing(name)


def missing(what: str) -> NoReturn:
    raise LookupError(f"there is no {what}")


FOLDERS = (".", "docs", "cases", "bench", "examples")
LONGEST, WIDEST = 35, 160

KINDS = "|".join([*WRITERS, "promises", "measured"])
BLOCK = re.compile(rf"<!-- ({KINDS})((?: [^\n]*?)?) -->((?:(?!<!-- ).)*)<!-- end -->", re.DOTALL)
MEASURED = re.compile(r"\bCommit `[0-9a-f]{8}`.*\d{4}-\d\d-\d\d, on \d+ processors")
FENCED = re.compile(r"^ *(```|~~~)[^\n]*\n(.*?)^ *\1$", re.DOTALL | re.MULTILINE)
RUN = re.compile(r"^<!-- (run|messages)(?: (\d))?: (?:\./)?workbench ([^\n]*) -->\n+```[^\n]*\n(.*?)^```$", re.DOTALL | re.MULTILINE)

# what is no text of a sentence, beside blocks of code: a row of a table, a heading, a comment, and code that is indented
OTHER = re.compile(r"(?<=\n\n)(?: {4,}.*\n)+|^ *[|#].*$|<!-- .*? -->", re.MULTILINE)
ITEM = re.compile(r"(?:\A|\n\s*\n|\n(?= *(?:[-*+]|\d+\.) ))(?: *(?:[-*+]|\d+\.) )?")
CODE = re.compile(r"(`+)(?!`).+?(?<!`)\1(?!`)", re.DOTALL)
LINK = re.compile(r"\[([^\]]*)\]\(([^)#\s]*)[^)]*\)")
# what stands for code, and where a sentence ends
IN_CODE = "\N{BLACK SQUARE}"
END = re.compile(rf"""(?<=[^.][.!?])(?<!e\.g\.)(?<!i\.e\.)(?<!cf\.)(?<!etc\.)(?<!vs\.)["')*_]* (?=["'(*_]*[A-Z0-9{IN_CODE}])""")
# a page in the code type, perhaps with the title of a section after it; and a file or a folder of the repository
NAMED = re.compile(r'`([\w./-]+\.md)`(?:, "([^"]+)")?')
BEFORE = re.compile(r'"([^"`]+)" in `([\w./-]+\.md)`')
HERE = re.compile(r'\("([^"`]+)"\)')
FILE = re.compile(r"`(?:\./|\.\./)?((?:crates|tools|docs|cases|bench|editors|examples|completions)/[\w./-]+)`")
TITLE = re.compile(r"^#+ (.*)$", re.MULTILINE)


def pages() -> list[Path]:
    return sorted(page for folder in FOLDERS for page in (ROOT / folder).glob("*.md"))


def with_blocks(text: str, faults: list[str]) -> str:
    """A page with its blocks as they should be; what is wrong with the others is added to the faults."""

    def written(found: re.Match[str]) -> str:
        kind, words, block = found.groups()
        try:
            if kind in WRITERS:
                return f"<!-- {kind}{words} -->{WRITERS[kind](words.strip())}<!-- end -->"
            if kind == "promises":
                faults.extend(faults_of_promises(block))
            elif not MEASURED.search(block):
                faults.append(f"measured on no commit:{words}")
        except LookupError as stale:
            faults.append(f"{kind}{words}: {stale}")
        return found[0]

    if stray := re.search("<!--.*", RUN.sub("", BLOCK.sub("", text))):
        faults.append(f"a comment that neither begins nor ends a block, nor stands before an example: {stray[0]}")
    return BLOCK.sub(written, text)


def with_runs(text: str, program: Path, faults: list[str]) -> str:
    """A page with its examples of reports as the program answers; where it answers otherwise, that is added to the faults."""

    def ran(found: re.Match[str]) -> str:
        stream, status, words, block = found.groups()
        scripts = FENCED.findall(text[: found.start()]) or [("", "")]
        answer = answer_of(program, *shlex.split(words), script=scripts[-1][1].encode(), cwd=ROOT)
        said = (answer.output if stream == "run" else answer.messages).decode()
        wanted = "".join("(?:.*\n)*" if it == ".." else re.escape(f"{it}\n") for it in block.splitlines())
        if status and int(status) != answer.status:
            faults.append(f"workbench {words}: the status is {answer.status}")
        if re.fullmatch(wanted, said):
            return found[0]
        faults.append(f"workbench {words}: it answers\n{said}")
        return found[0].removesuffix(f"{block}```") + said + "```"

    return RUN.sub(ran, text)


def sentences(text: str) -> Iterator[list[str]]:
    """The words of each sentence; what is in the code type is one word."""
    for paragraph in ITEM.split(OTHER.sub("\n", FENCED.sub("\n", text))):
        plain = LINK.sub(r"\1", CODE.sub(IN_CODE, paragraph))
        for sentence in END.split(" ".join(plain.split())):
            yield [it for it in sentence.split() if re.search(rf"[\w{IN_CODE}]", it)]


def is_script(named: Path) -> bool:
    """Whether a path names a script of a group of cases, as if the group were a folder."""
    group = named.with_suffix("").parent.with_suffix(SUFFIX)
    return group.exists() and f"\n=== {named.stem}\n" in group.read_text(encoding="utf-8")


def faults_of(page: Path, text: str) -> Iterator[str]:
    """What is wrong with a page beside its blocks. The name of a page stands for one of the same folder, or begins at the top of the
    repository."""
    yield from (f"a sentence of {len(it)} words: {' '.join(it[:8])} .." for it in sentences(text) if len(it) > LONGEST)
    lines = OTHER.sub("", BLOCK.sub("", text)).splitlines()
    yield from (f"a line of {len(it)} columns: {it[:40]} .." for it in lines if len(it) > WIDEST)
    yield from (f"there is no {it}" for _, it in LINK.findall(text) if it and "://" not in it and not (page.parent / it).exists())
    yield from (f"there is no file {it}" for it in FILE.findall(text) if not (ROOT / it).exists() and not is_script(ROOT / it))
    prose = " ".join(text.split())
    before = [(name, title) for title, name in BEFORE.findall(prose)]
    here = [(page.name, it) for it in HERE.findall(CODE.sub(IN_CODE, OTHER.sub("\n", FENCED.sub("\n", text))))]
    for name, title in [*NAMED.findall(prose), *before, *here]:
        named = next((it for it in (page.parent / name, ROOT / name) if it.exists()), None)
        if named is None:
            yield f"there is no page {name}"
        elif title and title.replace("`", "") not in TITLE.findall(named.read_text(encoding="utf-8").replace("`", "")):
            yield f'{name} has no section "{title}"'


def main(words: list[str]) -> int:
    parser = program_parser(__doc__)
    parser.add_argument("--write", action="store_true", help="write what is generated anew")
    parser.add_argument("--runs", action="store_true", help="compare the examples of reports alone, with what the program answers")
    parser.add_argument("pages", type=Path, nargs="*", metavar="PAGE", help="these pages alone")
    given = parser.parse_args(words)
    tally = Tally()
    for page in given.pages or pages():
        text, faults = page.read_text(encoding="utf-8"), list[str]()
        made = with_runs(text, given.program, faults) if given.runs else with_blocks(text, faults)
        if given.write:
            page.write_text(made, encoding="utf-8")
        elif made != text and not given.runs:
            faults += unified_diff(text.splitlines(), made.splitlines(), "what it holds", "what the sources give", n=0, lineterm="")
            faults.append("./tools/dev pages --write writes its blocks anew")
        faults += [] if given.runs else faults_of(page, made)
        tally.check(not faults, "\n".join(f"{page}: {it}" for it in faults))
    return tally.end()
