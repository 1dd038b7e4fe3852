"""Compares the man page and the completions with the program's own help.

They are kept by hand: docs/workbench.1, and the files of bash, zsh and fish in completions/. From the help follow all lines with commands
and options that a shell's file must have, in their order, and what each section of the man page must say, of which only words are compared.
The exit statuses must be as REPORTS.md has them, and the pages and examples that the man page names must be there. How wide the help is,
sessions.txt says.
"""

import re
from collections.abc import Iterator
from difflib import unified_diff
from pathlib import Path
from typing import NamedTuple

from tools.common import COLUMNS, DOCS, ENVIRONMENT, ROOT, Tally, answer_of, program_parser
from tools.sessions import run_section

NAME = "workbench"
MAN_PAGE, COMPLETIONS = DOCS / f"{NAME}.1", ROOT / "completions"
BASH, ZSH, FISH = COMPLETIONS / f"{NAME}.bash", COMPLETIONS / f"_{NAME}", COMPLETIONS / f"{NAME}.fish"

COMMAND = re.compile(r"^  (\w+) +(\S.*)$", re.MULTILINE)
OPTION = re.compile(r"^ +(?:-(\w), )?--([\w-]+)(?: <(\w+)>)?\n +(\S.*)$", re.MULTILINE)
EXAMPLE = "Example: "
# the lines of a shell's file that follow from the help
COMPARED = {
    BASH: re.compile(r"""\w+\)|(?:options=|values=|_workbench_words )'.*|\[\[ " --.*"""),
    ZSH: re.compile(r"\w+\)|'(?:[a-z]+:|--|\(- ).*"),
    FISH: re.compile(r"complete .*"),
}
# how the names of the files end that options name
ENDINGS = {"picture": "svg", "sarif": "sarif"}
# what a man page has between its words: how lines are laid out, and in which type words are
LAID_OUT = re.compile(r"^\.(?:B |\w+.*$)|\\f[BIR]|[\\'`]", re.MULTILINE)
STATUS = re.compile(r"^\| (\d+) \| (.*) \|$", re.MULTILINE)
NAMED = re.compile(r"(?:docs|examples)/[\w-]+\.\w+")


class Option(NamedTuple):
    # none has a letter but those of all commands, and a flag has no value
    letter: str
    name: str
    value: str
    about: str


class Help(NamedTuple):
    """What the program says of a command, or under no name of itself: what it does, its further paragraphs, its examples and options."""

    about: str
    texts: list[str]
    examples: list[str]
    options: list[Option]


Told = dict[str, Help]


def help_of(program: Path) -> Told:
    """What the program's help says of itself and of each command, where lines may have more columns than any has."""

    def ask(*command: str) -> str:
        return answer_of(program, "help", *command, env=ENVIRONMENT | {COLUMNS: "10000"}).messages.decode("ascii")

    whole = ask()
    commands = {command: help_in(about, ask(command) if command != "help" else "") for command, about in COMMAND.findall(whole)}
    return {"": help_in(whole.partition("\n")[0], whole), **commands}


def help_in(about: str, text: str) -> Help:
    paragraphs = text.partition("\nUsage: ")[0].strip().split("\n\n")
    texts = [it for it in paragraphs if it not in ("", about) and not it.startswith((EXAMPLE, "Exit status: "))]
    examples = [it.removeprefix(EXAMPLE) for it in text.splitlines() if it.startswith(EXAMPLE)]
    return Help(about, texts, examples, [Option(*it) for it in OPTION.findall(text)])


def of_bash(told: Told) -> Iterator[str]:
    names = " ".join(filter(None, told))
    yield f"_workbench_words '{names} --help --version' \"$word\""
    for command, it in told.items():
        if command:
            yield f"{command})"
        if command and it.options:
            yield f"options='{' '.join(f'--{option.name}' for option in it.options)}'"
            yield f"values='{' '.join(f'--{option.name}' for option in it.options if option.value)}'"
    yield f"_workbench_words '{names}' \"$word\""
    for name, ending in ENDINGS.items():
        yield f"""[[ " --{name} " == *" ${{COMP_WORDS[at - 1]}} "* ]] && _workbench_files '*.{ending}' "$word\""""


def of_zsh(told: Told) -> Iterator[str]:
    yield from (f"'{command}:{it.about}'" for command, it in told.items() if command)
    for command, it in told.items():
        yield from [f"{command})"] if command else []
        for option in it.options:
            about = re.sub(r"[:\[\]]", r"\\\g<0>", option.about).replace("'", "'\\''")
            files = f'_files -g "*.{ENDINGS[option.name]}"' if option.name in ENDINGS else " "
            value = f":{option.value}:{files}" if option.value else ""
            name = f"(- *)'{{-{option.letter},--{option.name}}}'" if option.letter else f"--{option.name}{'=' if value else ''}"
            yield f"'{name}[{about}]{value}' \\"
        yield from [] if command else ["command)", "argument)"]


def of_fish(told: Told) -> Iterator[str]:
    begin, at_first = f"complete -c {NAME}", f"complete -c {NAME} -n '__fish_use_subcommand'"
    names = " ".join(it for it in told if it not in ("", "help"))
    yield f"{begin} -f"
    for command, it in told.items():
        where = f"{begin} -n '__fish_seen_subcommand_from {command}'" if command else at_first
        for option in it.options:
            letter, about = f" -s {option.letter}" if option.letter else "", option.about.replace("'", "\\'")
            ending = ENDINGS.get(option.name)
            value = f" -r -k -a '(__fish_complete_suffix .{ending})'" if ending else " -x" if option.value else ""
            yield f"{where}{letter} -l {option.name}{value} -d '{about}'"
        if not command:
            yield from (f"{at_first} -a {name} -d '{its.about}'" for name, its in told.items() if name)
            yield f"{begin} -n '__fish_seen_subcommand_from help' -a '{names}'"
            yield f"{begin} -n '__fish_seen_subcommand_from {names}' -k -a '(__fish_complete_suffix .oom)'"


def plain(text: str) -> str:
    """The words of a text, without what a man page has between them."""
    return " ".join(re.findall(r"[\w-]+", LAID_OUT.sub("", text)))


def sections_of(page: str) -> dict[str, list[str]]:
    """The paragraphs of each section of a man page, by their words."""
    _, *rest = re.split(r"^\.SH (.*)\n", page, flags=re.MULTILINE)
    paragraphs = {name: map(plain, re.split(r"^\.[TPI]P\n", text, flags=re.MULTILINE)) for name, text in zip(rest[::2], rest[1::2])}
    return {name: [it for it in texts if it] for name, texts in paragraphs.items()}


def wanted_sections(told: Told, reports: str) -> dict[str, list[str]]:
    """What the man page must say, beside a page with the exit statuses."""
    commands = {command: it for command, it in told.items() if it.options and command}
    owners: dict[Option, list[str]] = {}
    for command, it in commands.items():
        for option in it.options:
            owners.setdefault(option, []).append(command)
    of_some = {option: "" if len(names) == len(commands) else f"Of {' and '.join(names)}" for option, names in owners.items()}
    options = [f"{it.letter and f'-{it.letter}'} --{it.name} {it.value} {of} {it.about}" for it, of in of_some.items()]
    statuses = STATUS.findall(reports.partition("\n## Status\n")[2])
    about = told[""].about
    # the options that a command may be given, but for that of help
    given = {name: [f"--{option.name} {option.value}" for option in it.options if not option.letter] for name, it in commands.items()}
    synopsis = (f"{NAME} {name} {' '.join(options)} FILE" for name, options in given.items())
    wanted = {
        "NAME": [f"{NAME} - {about[:1].lower()}{about[1:]}"],
        "SYNOPSIS": [*synopsis, f"{NAME} help COMMAND"],
        "DESCRIPTION": told[""].texts,
        "COMMANDS": [text for command, it in told.items() if command for text in (f"{command} {it.about}", *it.texts)],
        "OPTIONS": [*sorted(options, key=lambda it: " Of " not in it), "FILE Script file [default: standard input]"],
        "EXIT STATUS": [f"{status} {does[:1].upper()}{does[1:]}" for status, does in statuses],
        "EXAMPLES": ["\n".join(example for it in told.values() for example in it.examples)],
    }
    return {name: [plain(it) for it in texts] for name, texts in wanted.items()}


def compared(told: Told, reports: str) -> Iterator[tuple[str, list[str], list[str]]]:
    """What is compared: its name, the lines that it must have, and those that it has."""
    for file, lines in ((BASH, of_bash(told)), (ZSH, of_zsh(told)), (FISH, of_fish(told))):
        found = map(str.strip, file.read_text(encoding="utf-8").splitlines())
        yield file.name, list(lines), [it for it in found if COMPARED[file].fullmatch(it)]
    page = MAN_PAGE.read_text(encoding="utf-8")
    sections = sections_of(page)
    for name, wanted in wanted_sections(told, reports).items():
        yield f"man page, {name}", wanted, sections.get(name, [])
    named = sorted(set(NAMED.findall(page.replace("\\", ""))))
    yield "what the man page names", [it for it in named if (ROOT / it).is_file()], named


def main(words: list[str]) -> int:
    program, tally = program_parser(__doc__).parse_args(words).program, Tally()
    for name, wanted, found in compared(help_of(program), (DOCS / "REPORTS.md").read_text(encoding="utf-8")):
        difference = list(unified_diff(wanted, found, "wanted", name, n=0, lineterm=""))
        tally.check(bool(wanted) and not difference, "\n".join(difference) or f"{name}: nothing to compare")
    run_section("help-files", program, tally)
    return tally.end()
