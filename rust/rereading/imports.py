"""Imports: compared as paths with what they are called, in any order among neighbors, since `rustfmt` puts them in order."""
from rereading.lexer import OPENING, split
from rereading.rules import CRATES, IMPORTED, IMPORTED_OUTSIDE, NOT_IMPORTED


class Imports(str):
    """Neighbors among imports as one word: each entry has what stands before `use`, and a path.

    >>> Imports([("", "a::b as c"), ("pub", "b")], 1, 2)
    'pub use b; use a::b as c;'
    """

    def __new__(cls, entries, line, last, joins=False):
        text = "; ".join(sorted(f"{before} use {path}".strip() for before, path in entries))
        made = super().__new__(cls, text + ";")
        made.entries, made.line, made.last, made.joins = list(entries), line, last, joins
        return made


def paths(words):
    """The paths of a tree of imports, with what they are called.

    >>> from rereading.lexer import words_of
    >>> paths(words_of("std::{env, io::{self, Read}, fmt as f, x::*}"))
    ['std::env', 'std::io', 'std::io::Read', 'std::fmt as f', 'std::x::*']
    """
    head, i = "", 0
    while i < len(words):
        if words[i] in OPENING:
            found = [head + it for part in split(words[i + 1 : -1]) for it in paths(part)]
            return [it.replace("::self", "", 1) if it.startswith(head + "self") else it for it in found]
        head += f" {words[i]} " if words[i] == "as" else words[i]
        i += 1
    return [head]


def place_of(path, crate, kit):
    """What a path of a source is in the package, and nothing if nothing is there.

    >>> place_of("mask_bits::BitBuffer", "vortex_mask", "KIT"), place_of("mask_bits::BitBuffer", "maskrun", "KIT")
    ('crate::proved::mask_bits::BitBuffer', '::row_mask::BitBuffer')
    >>> place_of("crate::words", "mask_bits", "KIT"), place_of("super::a", "mask_bits", "KIT")
    ('crate::proved::mask_bits::words', 'super::a')
    >>> place_of("std::alloc::AllocError", "mask_bits", "crate::kit"), place_of("crate::laws", "mask_bits", "KIT")
    ('crate::kit::AllocError', None)
    """
    root, *rest = path.split("::")
    table = IMPORTED if CRATES[crate].inside else {**IMPORTED, **IMPORTED_OUTSIDE}
    if path in NOT_IMPORTED or "laws" in rest:
        return None
    if path in table:
        return table[path].replace("KIT", kit)
    if root == "crate":
        return "::".join([CRATES[crate].path, *rest])
    if root in CRATES and CRATES[root].inside:
        return "::".join([CRATES[root].path if CRATES[crate].inside else "::row_mask", *rest])
    return path


def joined(words, empty):
    """Words in which neighbors among imports are one: those with no empty line between."""
    out = []
    for it in words:
        before = out[-1] if out else None
        if isinstance(it, Imports) and isinstance(before, Imports) and is_next(before, it, empty):
            out[-1] = Imports(before.entries + it.entries, before.line, it.last)
        else:
            out.append(it)
    return out


def is_next(one, other, empty):
    return one.joins or not any(n in empty for n in range(one.last, other.line))


def folded(words):
    """The words of a file, in which each import is one.

    >>> from rereading.lexer import Words
    >>> folded(Words("#[doc(hidden)] pub(crate) use a::{b, c}; fn f() {}"))[0]
    '# [ doc ( hidden ) ] pub ( crate ) use a::b; # [ doc ( hidden ) ] pub ( crate ) use a::c;'
    """
    out, i = [], 0
    while i < len(words.all):
        if words.all[i] != "use":
            out.append(words.all[i])
            i += 1
            continue
        last, begin = words.find(i, [";"]), before_import(out)
        entries = [(" ".join(out[begin:]), path) for path in paths(words.all[i + 1 : last])]
        line = (out[begin:] or [words.all[i]])[0].line
        out[begin:] = [Imports(entries, line, words.all[last].line)]
        i = last + 1
    return joined(out, words.empty)


def before_import(words):
    """Where an import begins that these words stand before: at its attributes, or at `pub`."""
    i = len(words)
    if words[-1:] == [")"] and words[-4:-2] == ["pub", "("]:
        i -= 4
    elif words[-1:] == ["pub"]:
        i -= 1
    while i and words[i - 1] == "]":
        at = i - 1
        while at and words[at] != "#":
            at -= 1
        if words[at] != "#" or words[at + 1] == "!":
            break
        i = at
    return i
