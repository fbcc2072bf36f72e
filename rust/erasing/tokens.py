"""Tokens of a source, and what is read of them."""
import re

TOKEN = re.compile(
    r"""(?P<space>\s+)|(?P<comment>//[^\n]*|/\*.*?\*/)|(?P<string>b?"(?:\\.|[^"\\])*")"""
    r"""|(?P<char>b?'(?:\\.[^']*|[^'\\])')|(?P<life>'[A-Za-z_]\w*)|(?P<word>[A-Za-z_]\w*)|(?P<number>\d\w*)|(?P<sign>.)""",
    re.S,
)
OPENING, CLOSING = "([{", ")]}"


class Fault(Exception):
    """What the script doesn't know."""


def spaced(text):
    """The words of a text with one space between two."""
    return " ".join(text.split())


def words(text):
    """The tokens of a text but for space and comments.

    >>> words("f(1) // one")
    ['f', '(', '1', ')']
    """
    return [m[0] for m in TOKEN.finditer(text) if m.lastgroup not in ("space", "comment")]


class Source:
    """The tokens of a file, with the partner of each bracket.

    >>> Source("fn f(a: u8) {").partner
    Traceback (most recent call last):
    erasing.tokens.Fault: source:1: a bracket that nothing closes
    """

    def __init__(self, text, name="source"):
        self.name = name
        self.tokens = [(m.lastgroup, m[0]) for m in TOKEN.finditer(text)]
        self.partner = {}
        stack = []
        for i, (kind, it) in enumerate(self.tokens):
            if kind == "sign" and it in OPENING:
                stack.append(i)
            elif kind == "sign" and it in CLOSING:
                if not stack:
                    self.fault(i, "a bracket that nothing opens")
                self.partner[stack.pop()] = i
        if stack:
            self.fault(stack[-1], "a bracket that nothing closes")

    def place(self, i):
        """The file and the line of a token."""
        return f"{self.name}:{1 + sum(it.count(chr(10)) for _, it in self.tokens[:i])}"

    def fault(self, i, what):
        raise Fault(f"{self.place(i)}: {what}")

    def text(self, i, end):
        return "".join(it for _, it in self.tokens[i:end])

    def next(self, i, end):
        """The first token from here on that is neither space nor comment."""
        while i < end and self.tokens[i][0] in ("space", "comment"):
            i += 1
        return i

    def word(self, i, end):
        """The first word behind this one."""
        return self.tokens[self.next(i + 1, end)][1]

    def find(self, i, end, signs):
        """The first of these signs or words outside of brackets."""
        while i < end and self.tokens[i][1] not in signs:
            i = self.partner.get(i, i) + 1
        if i >= end:
            self.fault(end - 1, f"none of {signs} before this")
        return i

    def split(self, i, end):
        """What stands between commas that are in no brackets.

        >>> source = Source("a: &[u8], f: F<(u8, u8), Fn(u8) -> u8>,")
        >>> source.split(0, len(source.tokens))
        ['a: &[u8]', 'f: F<(u8, u8), Fn(u8) -> u8>']
        """
        parts, begin, depth = [], i, 0
        while i < end:
            depth += self.angle(i)
            if self.tokens[i][1] == "," and not depth:
                parts.append(self.text(begin, i).strip())
                begin = i + 1
            i = self.partner.get(i, i) + 1
        parts.append(self.text(begin, end).strip())
        return [it for it in parts if it]

    def angle(self, i):
        """How much deeper in brackets of types it is behind this token."""
        it = self.tokens[i][1]
        return (it == "<") - (it == ">" and self.tokens[i - 1][1] != "-")


class Masked:
    """A text with its strings and comments out of sight."""

    def __init__(self, text):
        self.hidden = []
        self.text = "".join(self.hide(m) for m in TOKEN.finditer(text))

    def hide(self, match):
        if match.lastgroup not in ("comment", "string", "char"):
            return match[0]
        self.hidden.append(match[0])
        return f"\x01{len(self.hidden) - 1}\x02"

    def shown(self):
        return re.sub("\x01(\\d+)\x02", lambda m: self.hidden[int(m[1])], self.text)


def attached(lead):
    """Of what stands before an item: what doesn't belong to it, and what does.

    >>> attached("//! A page.\\n\\n/// An item.\\n")
    ('//! A page.\\n\\n', '/// An item.\\n')
    """
    cut = lead.rfind("\n\n") + 2
    if cut > 1:
        return lead[:cut], lead[cut:]
    return (lead, "") if "//!" in lead else ("", lead)


def leaves(tree):
    """The paths of a tree of imports.

    >>> leaves("std::{env, io::{self, Read}}")
    ['std::env', 'std::io', 'std::io::Read']
    """
    tree = tree.strip()
    if not tree.endswith("}"):
        return [tree]
    head, inner = tree[: tree.index("{")], tree[tree.index("{") + 1 : -1]
    parts, depth = [""], 0
    for it in inner:
        depth += (it == "{") - (it == "}")
        if it == "," and not depth:
            parts.append("")
        else:
            parts[-1] += it
    found = [path for part in parts if part.strip() for path in leaves(part)]
    return [head.removesuffix("::") if it == "self" else head + it for it in found]
