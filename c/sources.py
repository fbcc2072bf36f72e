#!/usr/bin/env python3
"""Prints one sum of what the shipped libraries are compiled from: of each source of the crates that they are made of without
its comments, where white space is one space but in texts, and of `dispatch.c`. So a comment or a line break doesn't make a
library stale, and each change of a token does.
"""
import doctest
import hashlib
import sys
from pathlib import Path

sys.dont_write_bytecode = True

TOP = Path(__file__).resolve().parent.parent
sys.path.append(str(TOP / "rust"))
from erasing.tokens import TOKEN  # noqa: E402

CRATES = "mask_bits", "vortex_mask", "mask_c"


def code(text):
    """A source without comments, with one space for each white space. What `TOKEN` can't tell apart is refused.

    >>> code("/// Words.\\nfn f() {\\n    // one\\n    a >> b\\n}\\n") == code("fn f() { a >> b }")
    True
    >>> code("a >> b") == code("a > > b"), code("'\\\\'' // ' one\\n") == code("'\\\\'' // two"), code("a b") == code("ab")
    (False, True, False)
    >>> code('f("a  b")') == code('f("a b")'), code('f("// a")') == code('f("// b")'), code("'\\"' // a") == code("'\\"' // b")
    (False, False, True)
    >>> code("/* a */")
    Traceback (most recent call last):
    ValueError: `/* a */` is no comment of one line
    >>> code('r"a"')
    Traceback (most recent call last):
    ValueError: a raw text
    """
    parts, before = [], ""
    for it in TOKEN.finditer(text):
        kind = it.lastgroup
        if kind == "comment" and it[0].startswith("/*"):
            raise ValueError(f"`{it[0]}` is no comment of one line")
        if it[0] in ("r", "br") and text[it.end() : it.end() + 1] in ('"', "#"):
            raise ValueError("a raw text")
        before = " " if kind in ("space", "comment") else it[0]
        if before != " " or parts and parts[-1] != " ":
            parts.append(before)
    return "".join(parts).strip()


def main():
    if doctest.testmod().failed:
        return 1
    found = [it for crate in CRATES for it in sorted((TOP / "crates" / crate / "src").rglob("*")) if it.is_file()]
    texts = {it: code(it.read_text()) for it in found}
    texts[TOP / "c/dispatch.c"] = (TOP / "c/dispatch.c").read_text()
    sums = (f"{hashlib.sha256(text.encode()).hexdigest()}  {it.relative_to(TOP)}\n" for it, text in texts.items())
    print(hashlib.sha256("".join(sums).encode()).hexdigest())
    return 0


if __name__ == "__main__":
    sys.exit(main())
