"""Modules that have one by hand in their place. That has just the functions and types in public that the source has, with
the same signatures, and what the source requires stands as the reason of each function that has something unsafe."""
import pathlib
import re
from collections import namedtuple

from erasing.changes import Counts
from erasing.items import Erasure, Function
from erasing.tokens import Fault, Source, spaced, words

RUST = pathlib.Path(__file__).resolve().parent.parent
TYPES = ("enum", "struct", "type")
Item = namedtuple("Item", "signature owed text")


def text_at(place):
    """The text of a module of the package."""
    return (RUST / (place.replace("crate::", "src/").replace("::", "/") + ".rs")).read_text()


def public_items(text, name):
    """The public functions and types of a file: their signatures, what the caller owes, and their texts.

    >>> items = public_items("pub fn f<T>(a: &mut [T], mut n: u8) -> T requires few { n ≤ 8 } { g(n) } pub type A = u8;", "a.rt")
    >>> items["f"].signature, items["f"].owed, items["A"].signature
    ('fn f < T > ( a : & mut [ T ] , n : u8 ) - > T', ['n ≤ 8'], 'type A')
    >>> public_items("pub(crate) fn f() {} fn g() {}", "a.rs")
    {}
    """
    source, found, i = Source(text, name), {}, 0
    end = len(source.tokens)
    while i < end:
        kind = source.word(i, end) if source.tokens[i][1] == "pub" else None
        if kind == "fn" or kind in TYPES:
            last = source.find(i, end, ["{", ";", "=", "requires", "ensures"])
            signature, clauses = ["type", *words(source.text(i, last))[2:]], []
            if kind == "fn":
                signature = words(Function(source, i, last).signature(before=""))
                clauses, last = Erasure(None, source, set(), set(), Counts()).clauses(last, end)
            begin, i = i, source.partner.get(last, last)
            owed = [it for word, _, it in clauses if word == "requires"]
            shown = re.sub(r"\bmut (?=\w+ : )", "", " ".join(signature))
            found[signature[1]] = Item(shown, owed, source.text(begin, i + 1))
        i = source.partner.get(i, i) + 1
    return found


def compared(name, source, place, text):
    """Nothing, if the text of the module at a place fits the source that it stands for.

    >>> source = "pub fn f(a: u8) -> u8 requires { 0 < a } ensures { result ≡ a - 1 } { a - 1 }"
    >>> made = "pub fn f(a: u8) -> u8 { // SAFETY: `0 < a`.\\n unsafe { a.unchecked_sub(1) } } pub(crate) fn g() {}"
    >>> compared("a.rt", source, "kit::a", made)
    >>> compared("a.rt", source, "kit::a", made.replace("-> u8", "-> u16"))
    Traceback (most recent call last):
    erasing.tokens.Fault: kit::a: `fn f ( a : u8 ) - > u8` of a.rt is `fn f ( a : u8 ) - > u16` here
    >>> compared("a.rt", source, "kit::a", made.replace("0 <", "1 <"))
    Traceback (most recent call last):
    erasing.tokens.Fault: kit::a: f gives no reason `0 < a`
    >>> compared("a.rt", source, "kit::a", made + "pub fn h() {}")
    Traceback (most recent call last):
    erasing.tokens.Fault: kit::a: `nothing` of a.rt is `fn h ( )` here
    """
    nothing = Item("nothing", [], "")
    one, other = public_items(source, name), public_items(text, place)
    for it in sorted(one.keys() | other.keys()):
        wanted, found = one.get(it, nothing), other.get(it, nothing)
        if wanted.signature != found.signature:
            raise Fault(f"{place}: `{wanted.signature}` of {name} is `{found.signature}` here")
        reasons = spaced(" ".join(re.findall(r"// (.*)", found.text)))
        for clause in wanted.owed if "unsafe" in words(found.text) else []:
            if f"`{clause}`" not in reasons:
                raise Fault(f"{place}: {it} gives no reason `{clause}`")
