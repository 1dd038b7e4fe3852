"""The lines of the language, by the tables of `wb_lines`, and the words in the files for editors beside them.

Of each kind of line these are the word that it begins with, the places of its operands, and its role in blocks. They are read from its
source, so that no tool has a list of its own."""

import json
import re
from collections.abc import Iterator
from dataclasses import dataclass
from functools import cache
from pathlib import Path
from typing import Any, NamedTuple

from tools.common import ROOT, Tally, parser_of

SOURCE = ROOT / "crates/wb_lines/src/line_kinds.rt"

KIND = re.compile(r"LineKind::(\w+)")
# the kinds of an arm of a `match`, and what it gives them
ARM = re.compile(r"((?:LineKind::\w+\s*\|?\s*)+)=>\s*(&\[.*?\]|[^,]*),\n", re.DOTALL)
# a place of an operand, or the keyword that stands there
PLACE = re.compile(r"OperandPlace::Keyword\(Keyword::(\w+)\)|(\w+)")


@dataclass(frozen=True)
class Line:
    kind: str
    word: str
    # the keyword behind the word, of a condition
    keyword: str | None
    # the places of the operands, by their names in `wb_tree`, and that of any number of further ones
    places: tuple[str, ...]
    rest: str | None
    role: str


def table_of(source: str, function: str) -> dict[str, str]:
    """What a function of the source gives each kind of line that it names."""
    _, found, text = source.partition(f"\npub fn {function}(")
    arms = ARM.findall(text.partition("\n}\n")[0])
    if not found or not arms:
        raise LookupError(f"{SOURCE.relative_to(ROOT)} has no table {function}")
    return {kind: given.strip() for kinds, given in arms for kind in KIND.findall(kinds)}


@cache
def lines_by_kind() -> dict[str, Line]:
    """The kinds of lines, in the order in which a line tries them."""
    source, found = SOURCE.read_text(encoding="utf-8"), dict[str, Line]()
    words, places, rests, roles = (table_of(source, it) for it in ("text_of", "operand_places_of", "rest_of", "role_of"))
    for kind in KIND.findall(source.partition("\npub fn line_kinds(")[2].partition("\n}\n")[0]):
        operands = PLACE.findall(places[kind])
        rest = re.fullmatch(r"Some\((\w+)\)", rests.get(kind, ""))
        keyword = next((it for it, _ in operands if it), None)
        fixed = tuple(it for _, it in operands if it)
        found[kind] = Line(kind, words[kind][2:-1], keyword, fixed, rest[1] if rest else None, roles[kind].removeprefix("Role::"))
    return found


@cache
def line_of(word: str, role: str) -> Line:
    """The first kind of line that begins with this word and has this role."""
    return next(it for it in lines_by_kind().values() if (it.word, it.role) == (word, role))


@cache
def words_of_roles(*roles: str) -> frozenset[str]:
    return frozenset(it.word for it in lines_by_kind().values() if it.role in roles)


EDITORS = ROOT / "editors"
VIM, INDENT, GRAMMAR, CONFIGURATION = (
    EDITORS / it
    for it in ("vim/syntax/oom.vim", "vim/indent/oom.vim", "vscode/syntaxes/oom.tmLanguage.json", "vscode/language-configuration.json")
)

# what an editor calls lines with each role, and names of each sort where they are declared or, at a place of an operand, used
LINES = {
    **dict.fromkeys(("Class", "Construct", "Destroy", "Procedure"), "structure"),
    **dict.fromkeys(("Field", "Declaration"), "declaration"),
    **dict.fromkeys(("If", "Else"), "condition"),
    **dict.fromkeys(("Loop", "End"), "block"),
    "Plain": "statement",
}
DECLARED = {"Class": "class", "Procedure": "body", "Field": "local", "Declaration": "local"}
USED = {"Class": "class", "Procedure": "body", "Operation": "body"}
# the roles of the lines with which blocks begin, end, and do both
OPENERS, CLOSERS = ("Class", "Construct", "Destroy", "Procedure", "If", "Loop", "Else"), ("End", "Else")
# the scopes of the grammar
SCOPES = {
    "structure": "keyword.other.oom",
    "declaration": "storage.type.oom",
    "condition": "keyword.control.conditional.oom",
    "block": "keyword.control.oom",
    "statement": "support.function.oom",
    "class": "entity.name.type.class.oom",
    "body": "entity.name.function.oom",
    "local": "variable.other.oom",
    "keyword": "keyword.operator.oom",
}
# what comes behind the first word of a line with operands, and of one without
END, VIM_END = {True: r"(?=\s|$)", False: r"(?=\s*$)"}, {True: r"\%(\s\|$\)", False: r"\s*$"}
# words one of which may stand somewhere, in the file for Vim
VIM_WORDS = re.compile(r"\\%\([a-z|\\]+\\\)")


class Rule(NamedTuple):
    """What is coloured so: the first word of a line with operands or of one without; or what stands behind the first word and so many
    operands, any name that is declared or used there, or one of some words."""

    colour: str
    has_operands: bool = True
    behind: int | None = None
    place: str = ""
    these: tuple[str, ...] = ()


def has_operands(line: Line) -> bool:
    return bool(line.places or line.keyword or line.rest)


def rules() -> dict[Rule, list[str]]:
    texts = dict(re.findall(r'Keyword::(\w+) => b"(\w+)"', (ROOT / "crates/wb_lines/src/words.rt").read_text(encoding="utf-8")))
    lines = lines_by_kind().values()
    found: dict[Rule, set[str]] = {}
    for it in lines:
        of_line = [Rule(LINES[it.role], has_operands(it))]
        of_line += [Rule(DECLARED[it.role], behind=0)] if it.places[:1] == ("Declared",) else []
        of_line += [Rule(USED[place], behind=at, place=place) for at, place in enumerate(it.places) if place in USED]
        if it.keyword:
            these = {texts[other.keyword] for other in lines if other.word == it.word and other.keyword}
            of_line.append(Rule("keyword", behind=0, these=tuple(sorted(these))))
        for rule in of_line:
            found.setdefault(rule, set()).add(it.word)
    return {rule: sorted(words) for rule, words in found.items()}


def line_of_vim(rule: Rule, words: list[str]) -> str:
    any_of, these = (r"\%({}\)".format(r"\|".join(it)) for it in (words, rule.these))
    if rule.behind is None:
        pattern = r"^\s*\zs" + any_of + r"\ze" + VIM_END[rule.has_operands]
    else:
        named = these + r"\ze" + VIM_END[True] if rule.these else r"\a\w*"
        pattern = rf"\%(^\s*{any_of}\s\+" + r"\S\+\s\+" * rule.behind + r"\)\@<=" + named
    return f"syntax match oom{rule.colour.title()} /{pattern}/"


def rule_of_grammar(rule: Rule, words: list[str]) -> dict[str, Any]:
    any_of, colour = f"(?:{'|'.join(words)})", {"name": SCOPES[rule.colour]}
    if rule.behind is None:
        return {"match": rf"^\s*({any_of})" + END[rule.has_operands], "captures": {"1": colour}}
    these = f"(?:{'|'.join(rule.these)})" if rule.these else "[A-Za-z][A-Za-z0-9_]*"
    between = {"2": {"patterns": [{"include": "#operand"}]}} if rule.behind else {}
    captures = {"1": {"patterns": [{"include": "#first"}]}, **between, "3": colour}
    return {"match": rf"^(\s*{any_of})((?:\s+\S+){{{rule.behind}}})\s+({these})" + END[True], "captures": captures}


def beginnings(roles: tuple[str, ...], ends: dict[bool, str]) -> list[str]:
    """How lines with these roles begin: their first words, each with what comes behind it."""
    return sorted({it.word + ends[has_operands(it)] for it in lines_by_kind().values() if it.role in roles})


def compared() -> Iterator[tuple[Path, set[str], set[str]]]:
    """The rules that each file must have, and those that it has."""
    texts = {it: it.read_text(encoding="utf-8") for it in (VIM, INDENT, GRAMMAR, CONFIGURATION)}
    wanted, parts = rules().items(), json.loads(texts[GRAMMAR])["repository"]
    yield VIM, {line_of_vim(*it) for it in wanted}, {it for it in texts[VIM].splitlines() if VIM_WORDS.search(it)}
    found = (json.dumps(it, sort_keys=True) for part in ("first", "names") for it in parts[part]["patterns"])
    yield GRAMMAR, {json.dumps(rule_of_grammar(*it), sort_keys=True) for it in wanted}, set(found)
    more, less = (rf"^\s*(?:{'|'.join(beginnings(it, END))})" for it in (OPENERS, CLOSERS))
    patterns = {"increaseIndentPattern": more, "decreaseIndentPattern": less}
    yield CONFIGURATION, {json.dumps(patterns)}, {json.dumps(json.loads(texts[CONFIGURATION])["indentationRules"])}
    more, less = (r"^\s*\%({}\)".format(r"\|".join(beginnings(it, VIM_END))) for it in (OPENERS, CLOSERS))
    patterns = {f"let s:more = '{more}'", f"let s:less = '{less}'"}
    yield INDENT, patterns, {it for it in texts[INDENT].splitlines() if it.startswith("let s:")}


def compare_editors(words: list[str]) -> int:
    """Compares the words in the files for editors with the tables of `wb_lines`.

    The files are kept by hand: the syntax and the indent file of editors/vim, and the grammar and the configuration of editors/vscode. From
    the tables follow all of their rules that name words of the language: a rule for each sort of lines, by the words that begin them, and
    for each place whose operand is a name or one of some words.
    """
    parser_of(compare_editors.__doc__).parse_args(words)
    tally = Tally()
    for file, wanted, found in compared():
        for it in sorted(wanted | found):
            tally.check(it in wanted and it in found, f"{file.relative_to(ROOT)}: {'lacks' if it in wanted else 'must not have'} {it}")
    return tally.end()
