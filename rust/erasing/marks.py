"""Marks of the sources: comments above a function, a module or an implementation that say what is made of it in Rust.

| Mark | What is made |
|---|---|
| `// rust: level` | a copy that is compiled for x86-64-v3, and a call that goes to it where the processor has that |
| `// rust: wide level` | the same of a loop over vectors alone: a program for x86-64-v2 takes its own |
| `// rust: shifted level` | the same of what shifts words within such a loop: just such a program takes the copy |
| `.. to v4` | another copy for x86-64-v4, which goes first |
| `.. to v4 where CONDITION` | the same, where the clock is lowered for AVX-512 only if it gains much: on that condition |
| `.. to vpopcntdq` | another for x86-64-v4 with the instruction that counts the set bits of words, which goes first |
| `.. if CONDITION` | the copy is called only where there is so much to do that it pays to ask |
| `.. alone` | what it calls isn't inlined always |
| `// rust: called at its level` | a levelled function goes on to the copy of its own level |
| `// rust: copied by instruction` | a copy, for processors with an instruction for the bits at set places, in which what is \
marked `by instruction` stands in the places of the functions with that mark |
| `// rust: visible` | private functions, modules and fields that calls by hand go to |
| `// rust: inline` | inlined always: tests of places make it seem too long for that |
| `// rust: by hand` | nothing of an implementation or a method: the package has its own |
| `// rust: lawful` | an `unsafe` trait: no compiler sees whether an implementation answers as the contract says |
| `// rust: replaced by PATH` | of a module, and of the package's calls of a function: what stands at that path by hand |
| `// rust: by instruction PATH` | of a function: what stands at that path, in such copies. Of a type: the type at that path, \
in the package's calls with this one, where the processor has such an instruction, and it is quick |
| `// rust: named NAME` | a method that has this name in public, since another has that of the source there: Rust's own, or \
one by hand that returns no `Result` |
| `// rust: needs TEXT` | what a call says that it needs where its condition is broken, in place of the condition in Rust |
| `// rust: says TEXT` | what it says then: the text of the Rust crate. The two values stand at its `{}`, or behind it |
| `.. NAME needs TEXT`, `.. NAME says TEXT` | the same of the condition with this name, of a call that has several |
"""
import re
from collections import namedtuple
from functools import cache
from pathlib import Path

from erasing.tokens import Fault

CRATES = Path(__file__).resolve().parents[2] / "crates"
LINE = re.compile(r"^[ \t]*// rust:(.*)\n", re.M)
LEVEL = re.compile(r"(?P<kind>wide |shifted )?level(?: to (?P<most>v4|vpopcntdq)(?: where (?P<where>.+?))?)?(?: if (?P<much>.+?))?(?P<alone> alone)?")
TOLD = re.compile(r"(?:(\w+) )?(needs|says) (\S.*)")
NAMED = re.compile(r"named (\w+)")
INSTEAD = re.compile(r"(replaced by|by instruction) ((?:\w+::)*\w+)")
OTHERS = ["called at its level", "copied by instruction", "visible", "inline", "by hand", "lawful"]
HEAD = re.compile(r"^([ \t]*)(?:pub(?:\(\w+\))? )?(?:unsafe )?(?:extern \"C\" )?(fn|mod|struct|trait) (\w+)", re.M)


class Marks:
    """The marks above an item.

    >>> marks = Marks(["wide level if len > 128", "visible"])
    >>> marks.level, marks.much, marks.alone, marks.has("visible"), marks.has("inline")
    ('wide_level', 'len > 128', False, True, False)
    >>> (it := Marks(["level to v4 where n >= 4 if len > 128"])).most, it.where, it.much
    ('v4', 'n >= 4', 'len > 128')
    >>> Marks(["within needs `a < b`", "says No {} of {}"]).told
    {'within': ('needs', '`a < b`'), None: ('says', 'No {} of {}')}
    >>> Marks(["named try_clone"]).named
    'try_clone'
    >>> Marks(["replaced by native::by_loop"]).instead
    {'replaced by': 'crate::native::by_loop'}
    >>> Marks(["levels"])
    Traceback (most recent call last):
    erasing.tokens.Fault: no mark is `// rust: levels`
    """

    def __init__(self, words=()):
        self.text = ", ".join(words)
        self.level = self.most = self.where = self.much = self.named = None
        self.alone = False
        self.others = set()
        # what is said where a condition is broken, by the condition's name
        self.told = {}
        # what stands by hand in the item's place, by the words before its path
        self.instead = {}
        for it in words:
            match, told = LEVEL.fullmatch(it), TOLD.fullmatch(it)
            if told and told[1] not in self.told:
                self.told[told[1]] = (told[2], told[3])
            elif match and self.level is None:
                self.level = f"{(match['kind'] or '').strip()}_level".lstrip("_")
                self.most, self.where = match["most"], match["where"]
                self.much, self.alone = match["much"], bool(match["alone"])
            elif (match := NAMED.fullmatch(it)) and self.named is None:
                self.named = match[1]
            elif (match := INSTEAD.fullmatch(it)) and match[1] not in self.instead:
                self.instead[match[1]] = f"crate::{match[2]}"
            elif it in OTHERS and it not in self.others:
                self.others.add(it)
            else:
                raise Fault(f"no mark is `// rust: {it}`")

    def has(self, word):
        return word in self.others


def taken(lead):
    """What stands before an item without its marks, and these, as a list of words.

    >>> taken("/// A walk.\\n// rust: level\\n#[inline]\\n")
    ('/// A walk.\\n#[inline]\\n', ['level'])
    """
    return LINE.sub("", lead), [it.strip() for it in LINE.findall(lead)]


class Marked(namedtuple("Marked", "kind crate name at marks")):
    """A marked item: whether it is an `fn`, a `mod`, a `struct` or a `trait`, its crate, its name, what stands before that in
    its path in what is made (nothing of a method), and its marks."""


@cache
def of_all():
    """The marked items of all sources, but for implementations."""
    found = []
    for crate in ("mask_bits", "vortex_mask", "mask_c"):
        folder = CRATES / crate / "src"
        for path in sorted(folder.rglob("*.rt")):
            text = path.read_text()
            place = "::".join(it for it in path.relative_to(folder).with_suffix("").parts if it != "lib")
            for head in HEAD.finditer(text):
                above = re.search(r"(?:^[ \t]*(?://|#\[).*\n)*\Z", text[: head.start()], re.M)[0]
                if marks := taken(above)[1]:
                    at = "" if head[1] else f"crate::proved::{crate}::{place}::"
                    found.append(Marked(head[2], crate, head[3], at, Marks(marks)))
    return found


def functions():
    """The marked functions."""
    return [it for it in of_all() if it.kind == "fn"]


def named(word):
    """The names of the functions with a mark."""
    return {it.name for it in functions() if it.marks.has(word)}


@cache
def lawful():
    """The names of the traits whose implementations have to be lawful."""
    return {it.name for it in of_all() if it.kind == "trait" and it.marks.has("lawful")}


@cache
def instead(kind, words):
    """What stands by hand in the places of items of a kind, by their names."""
    return {it.name: it.marks.instead[words] for it in of_all() if it.kind == kind and words in it.marks.instead}


@cache
def modules_by_hand():
    """The modules in whose places others stand by hand, by their paths in the sources."""
    own = (it for it in of_all() if it.kind == "mod" and "replaced by" in it.marks.instead)
    return {f"{it.crate}::{it.name}": it.marks.instead["replaced by"] for it in own}


@cache
def public():
    """The public names of methods that have another one there, by their own."""
    return {it.name: it.marks.named for it in functions() if it.marks.named}


@cache
def inner():
    """The functions that levelled ones go on to at their own level, each with that copy's path."""
    return {it.name: f"{it.at}{it.name}_any" for it in functions() if it.marks.has("called at its level")}


@cache
def much():
    """The conditions of levels, by the names of their functions."""
    return {it.name: it.marks.much for it in functions() if it.marks.much}


@cache
def roots():
    """The copies into which all that they call is inlined."""
    return {f"{it.name}_any" for it in functions() if it.marks.level and not it.marks.alone}
