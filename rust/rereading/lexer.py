"""Words of a source or of a made file: its tokens without space, comments and documentation, each with its line."""
import re

WORD = re.compile(
    r"""(?P<space>\s+)|(?P<safety>//\ SAFETY:[^\n]*)|(?P<mark>//\ rust:[^\n]*)|(?P<comment>//[^\n]*)"""
    r"""|(?P<text>b?"(?:\\.|[^"\\])*"|b?'(?:\\(?:u\{\w+\}|x\w\w|.)|[^'\\])')|(?P<life>'\w+)"""
    r"""|(?P<number>\d\w*(?:\.\d\w*)?)|(?P<name>[^\W\d]\w*)"""
    r"""|(?P<sign>::|->|=>|==|!=|<<=|<=|<<|&&|\|\||[-+*/%^&|]=|\.\.=|\.\.|.)""",
    re.S | re.X,
)
OPENING = {"(": ")", "[": "]", "{": "}"}
CLOSING = set(OPENING.values())
NAME = re.compile(r"[^\W\d]\w*")


# (What stands between `/*` and `*/` is read too: no file has such comments.)


class Unexplained(Exception):
    """A place of a made file that no rule explains by its source, or a source that no rule is for."""


class Word(str):
    """A word, with its line and the place where it begins."""

    __slots__ = ("line", "at")


class Words:
    """The words of a text, the marks by the word that they stand before, and the empty lines.

    >>> words = Words("fn f() {\\n    // rust: level\\n    g(1..2, \\"a // b\\") // one\\n}")
    >>> words.all[:6], words.all[8:13], words.marks, words.all[-1].line
    (['fn', 'f', '(', ')', '{', 'g'], ['..', '2', ',', '"a // b"', ')'], {5: ['level']}, 4)
    """

    def __init__(self, text, name="a file"):
        self.name, self.text, self.all, self.marks = name, text, [], {}
        line = 1
        for match in WORD.finditer(text):
            kind, it = match.lastgroup, Word(match[0])
            if kind == "mark":
                self.marks.setdefault(len(self.all), []).append(it.removeprefix("// rust:").strip())
            elif kind not in ("space", "comment"):
                it.line, it.at = line, match.start()
                self.all.append(it)
            line += it.count("\n")
        self.empty = {n for n, it in enumerate(text.split("\n"), 1) if not it.strip()}
        self.partner = partners(self.all, name)

    def fail(self, i, what):
        line = self.all[min(i, len(self.all) - 1)].line if self.all else 1
        raise Unexplained(f"{self.name}:{line}: {what}")

    def spaced(self, i, end):
        """The text from one word to before another, with one space between two."""
        return " ".join(self.text[self.all[i].at : self.all[end].at].split())

    def find(self, i, signs):
        """The first of these words outside of brackets, from a place on."""
        while i < len(self.all) and self.all[i] not in signs:
            i = self.partner.get(i, i) + 1
        if i >= len(self.all):
            self.fail(i, f"none of {signs} is there")
        return i


def partners(words, name="a file"):
    """The place of the closing bracket by that of each opening one.

    >>> partners(["(", "[", "]", ")"])
    {1: 2, 0: 3}
    >>> partners(["(", "]"])
    Traceback (most recent call last):
    rereading.lexer.Unexplained: a file: `]` closes nothing
    """
    found, open_ones = {}, []
    for i, it in enumerate(words):
        if it in OPENING:
            open_ones.append(i)
        elif it in CLOSING:
            if not open_ones or OPENING[words[open_ones[-1]]] != it:
                raise Unexplained(f"{name}: `{it}` closes nothing")
            found[open_ones.pop()] = i
    if open_ones:
        raise Unexplained(f"{name}: `{words[open_ones[-1]]}` is never closed")
    return found


def words_of(text):
    """The words alone.

    >>> words_of("u8x16::every(1) >> 2")
    ['u8x16', '::', 'every', '(', '1', ')', '>', '>', '2']
    """
    return [match[0] for match in WORD.finditer(text) if match.lastgroup not in ("space", "comment", "mark")]


def split(words):
    """What stands between commas outside of brackets, those of generics too.

    >>> [" ".join(it) for it in split(words_of("a: &[u8], f: F<(u8, u8), Fn(u8) -> u8>,"))]
    ['a : & [ u8 ]', 'f : F < ( u8 , u8 ) , Fn ( u8 ) -> u8 >']
    """
    parts, depth, within = [[]], 0, 0
    for it in words:
        depth += (it in OPENING) - (it in CLOSING)
        within += (it == "<") - (it == ">") if not depth else 0
        if it == "," and not depth and not within:
            parts.append([])
        else:
            parts[-1].append(it)
    return [it for it in parts if it]


def listed(words):
    """The words of a list: with a comma between two."""
    out = []
    for n, it in enumerate(words):
        out += [",", *it] if n else it
    return out
