"""Makes long scripts whose lines mostly have something to do: pointers are live where they are used, and texts fit. A few lines refuse."""

import random
from collections.abc import Sequence

CLASS = """\
class Node 4
field first
field second Node
construct
allocl self.first 20
store self.first 1 5
end
destroy
free self.first
delete self.second
end
end
class Other 0
field first
end
op drop cell
print "dropped"
free cell
end
proc fill cell:ptr word:int
ptr own
if some cell
alloc own 24
free own
end
print word
return cell
end
"""
SIZES = (0, 1, 15, 16, 17, 31, 32, 40, 64, 100, 200, 240, 500, 1000, 4000, 5000, 20000)
UNITS = (0, 1, 2, 5, 6, 7, 10, 20, 60, 100)
LITERALS = ('""', '"a"', '"bc def"', '"0123456789"', '"the quick brown fox jumps over the lazy dog"')


class Maker:
    """A script as it is made: its lines, and what its pointers name as long as nothing is refused."""

    def __init__(self, chance: random.Random) -> None:
        self.chance = chance
        self.lines: list[str] = []
        self.cells = [f"p{at}" for at in range(7)]
        self.texts = [f"h{at}" for at in range(3)]
        self.nodes = [f"o{at}" for at in range(3)]

    def pick(self, words: Sequence[object]) -> str:
        """One of some words."""
        return str(self.chance.choice(words))

    def guarded(self, pointer: str, *lines: str) -> None:
        """Lines that are run where the pointer isn't null."""
        self.lines += [f"if some {pointer}", *lines, "end"]

    def cell(self) -> None:
        """A line of cells."""
        p, q, size = self.pick(self.cells), self.pick(self.cells), self.pick(SIZES)
        made = self.chance.randrange(9)
        if made < 3:
            self.lines += [f"free {p}", f"{self.pick(('alloc', 'alloc', 'allocl'))} {p} {size}"]
        elif made == 3:
            self.lines += [f"free {p}", f"null {p}"]
        elif made == 4:
            self.lines += [f"{self.pick(('realloc', 'reallocl'))} q {p} {size}", "if some q", f"set {p} q", "end"]
        elif made == 5:
            self.guarded(
                p,
                f"alloclen n {p}",
                "print n",
                "if less 15 n",
                f"store {p} {self.chance.randint(0, 3)} {self.chance.randint(-99, 99)}",
                "end",
            )
        elif made == 6:
            self.guarded(p, f"alloclen n {p}", "if less 15 n", f"load n {p} {self.chance.randint(0, 3)}", "print n", "end")
        elif made == 7:
            self.lines += [f"free {p}", f"set {p} {q}", f"null {q}"] if p != q else []
        else:
            self.lines += [f"callto q fill {p} {self.chance.randint(-9, 9)}", f"set {p} q"]

    def text_operand(self) -> str:
        """A text that may be read now."""
        return self.pick((*LITERALS, "b", "c", "v", "w"))

    def text(self) -> None:
        """A line of texts and views."""
        h, units, made = self.pick(self.texts), self.pick(UNITS), self.chance.randrange(12)
        edited = self.pick(("b", "c"))
        if made < 2:
            self.lines += ["null v", f"free {h}", f"hnew {h} {units}"][1:]
            self.guarded(h, f"copy {h} {self.pick(LITERALS[:2])}" if int(units) else f"setlength {h} 0")
        elif made == 2:
            self.lines += ["setlength c 2", f"{self.pick(('copy', 'append'))} {edited} {self.text_operand()}"]
        elif made == 3:
            self.lines += [
                f"setlength {edited} {self.chance.randint(0, 30)}",
                f"insert {edited} 0 {self.pick(LITERALS)}",
                f"print {edited}",
            ]
        elif made == 4:
            self.lines += [f"deltext {edited} 0 {self.chance.randint(0, 9)}", f"getlen n {edited}", "print n"]
        elif made == 5:
            self.lines += [
                f"left {self.pick(('v', 'w'))} {self.pick((*LITERALS[3:], 'd'))} {self.chance.randint(0, 10)}",
                "print v",
                "print w",
            ]
        elif made == 6:
            self.lines += [
                f"right {self.pick(('v', 'w'))} d {self.chance.randint(0, 9)}",
                f"mid w d {self.chance.randint(0, 4)} {self.chance.randint(0, 6)}",
            ]
        elif made == 7:
            self.guarded(
                h,
                f"getmax n {h}",
                "print n",
                "if less 9 n",
                f'copy {h} "0123456789"',
                f"append b {h}",
                "setlength b 3",
                f"print {h}",
                "end",
            )
        elif made == 8:
            self.guarded(h, f"setlength {h} 0", f"hrealloc q {h} {units}", "if some q", f"set {h} q", "null q", "end")
        elif made == 9:
            self.guarded(
                h, f"getmax n {h}", "if less 5 n", f'copy {h} "xyz"', f'insert {h} {self.chance.randint(0, 3)} "in"', f"print {h}", "end"
            )
        elif made == 10:
            self.lines += [f"{self.pick(('left', 'right'))} v w 0", f"setlength d {self.chance.randint(9, 12)}", 'append d "."', "print v"]
        else:
            self.lines += [f'copy d "{self.chance.randint(100000000, 999999999)}"', "print d", "print w"]

    def whole(self) -> None:
        """A line that asks of the heap, or makes requests fail."""
        self.lines.append(
            self.pick(("heap", "available", "compress", f"failnext {self.pick((1, 2, 3, 9))}", "failevery 5", "failnone", "available"))
        )

    def node(self) -> None:
        """A line of objects."""
        o, p, made = self.pick(self.nodes), self.pick(self.nodes), self.chance.randrange(5)
        if made < 2:
            self.lines += [f"delete {o}", f"new {o} Node"]
        elif made == 2:
            self.guarded(o, f"delete {o}.second", f"null {o}.second", f"new {o}.second Node")
        elif made == 3:
            self.guarded(
                o,
                f"free {o}.first",
                f"null {o}.first",
                "trap n",
                f"construct {o}",
                "end",
                f"if some {o}.first",
                f"load n {o}.first 1",
                "print n",
                "end",
            )
        elif o != p:
            self.guarded(o, f"delete {o}.second", f"set {o}.second {p}", f"null {p}")

    def stack(self) -> None:
        """Some lines under a TRAP, with items."""
        count, undone = self.chance.randint(1, 12), self.pick(("push q", "pushop q drop"))
        end = self.pick((f"popdestroy {count}", "leave -7", f"popcheck q\nfree q\nnull q\npopdestroy {count - 1}"))
        self.lines += [
            "trap n",
            f"repeat {count}",
            f"allocl q {self.pick(SIZES[:9])}",
            undone,
            "end",
            *end.split("\n"),
            "end",
            "print n",
            "null q",
        ]

    def mark(self) -> None:
        """Lines within a mark."""
        number = self.pick((0, 0, 0, 1))
        self.lines += [
            "mark",
            "alloc q 40",
            "realloc q q 90",
            "free q",
            "null q",
            f"check {number}" if self.chance.random() < 0.1 else "heap",
            "markend 0",
        ]

    def odd(self) -> None:
        """A line that may refuse, as it stands."""
        p, q, h, o = self.pick(self.cells), self.pick(self.cells), self.pick(self.texts), self.pick(self.nodes)
        self.lines += self.pick(
            (
                f"free {p}",
                f"set {p} {q}",
                f"store {p} 9 1",
                f"load n {h} 0",
                f"realloc {p} {h} 9",
                f"free {h}",
                f"set {h} {p}",
                f"copy {h} b",
                f"delete {p}",
                f"set {p} {o}.first",
                f"set {o}.second {o}",
                "insert b 99 c",
                "insert b 0 b",
                "append b b",
                f"left v {h} 2",
                f"set {o} {q}",
                "mark",
                "markend 1",
                "checkall 5",
                "check 0",
                f"push {p}",
                "pop 1",
                f"hrealloc {h} {h} 1",
                f"alloclen n {o}",
                f"pushobj {o}",
                "popdestroy 1",
                "add n 999999999",
                f"callto {p} fill {q} n",
                "leaveiferror n",
                f"leaveifnull {p}",
                "return",
            )
        ).split("\n")


def long_script(chance: random.Random) -> str:
    """A script of some hundred lines."""
    maker = Maker(chance)
    sorts = [maker.cell] * 8 + [maker.text] * 4 + [maker.whole] * 3 + [maker.node] * 3 + [maker.stack, maker.mark]
    for _ in range(chance.choice((10, 40, 100, 200))):
        if chance.random() < 0.01:
            maker.odd()
        chance.choice(sorts)()
    declared = [f"ptr {it}" for it in [*maker.cells, *maker.texts, "q"]] + [f"ptr {it} Node" for it in maker.nodes]
    declared += ["int n", "buf b 256", "buf c 60", "buf d 20", "view v", "view w"]
    freed = [f"free {it}" for it in [*maker.cells, *maker.texts]] + [f"delete {it}" for it in maker.nodes]
    lines = ["proc main", *declared, 'copy d "123456789"', *maker.lines, *(freed if chance.random() < 0.6 else []), "end"]
    return CLASS + "\n".join(lines) + "\n"
