"""Conditions of contracts as tests in Rust: a clause is read as a term, and the term is said in Rust's words."""
import re
from collections import namedtuple

from rereading.lexer import Unexplained, words_of
from rereading.rules import TESTS

PART = re.compile(r"[^\W\d]\w*(?:\.\w+)*|\d+|\S")
Apply = namedtuple("Apply", "of operands")
Binary = namedtuple("Binary", "sign left right")
Within = namedtuple("Within", "inner")
Each = namedtuple("Each", "name inner")
# The signs, those that bind least first.
SIGNS = [["→"], ["≤", "<", "≡"], ["∷"], ["+"], ["*", "/"], ["^"]]
# Each sign of a comparison: the test's name, the sign in Rust, and the sign that says the same from the other side.
COMPARED = {
    "<": ("below", "<", ">"),
    "≤": ("at_most", "<=", "≥"),
    "≡": ("equal", "==", "≡"),
    ">": ("above", ">", "<"),
    "≥": ("at_least", ">=", "≤"),
}


class Reader:
    """Reads a term.

    >>> Reader("a + 1 ≤ f b.now (g c)").term()
    Binary(sign='≤', left=Binary(sign='+', left='a', right='1'), right=Apply(of='f', operands=['b.now', \
Within(inner=Apply(of='g', operands=['c']))]))
    """

    def __init__(self, text):
        self.text, self.left = text, PART.findall(text)

    def term(self):
        found = self.signed(0)
        if self.left:
            raise Unexplained(f"`{self.text}`: `{self.left[0]}` isn't read")
        return found

    def signed(self, level):
        if level == len(SIGNS):
            return self.applied()
        found = self.signed(level + 1)
        while self.left and self.left[0] in SIGNS[level]:
            found = Binary(self.left.pop(0), found, self.signed(level + 1))
        return found

    def applied(self):
        parts = [self.atom()]
        while self.left and (self.left[0] == "(" or re.match(r"\w", self.left[0])):
            parts.append(self.atom())
        return Apply(parts[0], parts[1:]) if parts[1:] else parts[0]

    def atom(self):
        it = self.left.pop(0)
        if it == "(":
            inner = self.signed(0)
            if not self.left or self.left.pop(0) != ")":
                raise Unexplained(f"`{self.text}`: a bracket isn't closed")
            return Within(inner)
        if it == "λ":
            name = self.left.pop(0)
            if self.left.pop(0) != ".":
                raise Unexplained(f"`{self.text}`: no name behind `λ`")
            return Each(name, self.signed(0))
        if not re.match(r"\w", it):
            raise Unexplained(f"`{self.text}`: `{it}` is no term")
        return it


def bare(term):
    """A term without brackets around it."""
    return bare(term.inner) if isinstance(term, Within) else term


def is_met(term):
    """Whether each value in Rust meets this: closures may be called, iterators asked, no list of them outgrows memory, and
    a clone is equal to what it is of."""
    match term:
        case Apply(of, [_]) if of.endswith((".can_next", ".IsAlwaysCallable")):
            return True
        case Apply("IsFinite" | "UpTo", [of, *_]):
            return isinstance(bare(of), Apply) and bare(of).of.endswith(".remaining")
        case Binary("→", Binary("≡", "self", str()), Apply(of, [str()])):
            return of.endswith(".pre")
        case Apply("ForValue", ["self", Within(Each(_, Apply("IsOnlyClone", _)))]):
            return True
    return False


class Test:
    """What a clause is as a test, with what is said where it is broken, and the iterators whose items are listed for it.

    >>> said = lambda types, text, told=None: " ".join(Test("f", types, text, told).words)
    >>> said({"bytes": "Bytes"}, "offset + len ≤ 8 * length bytes").split(" & ")[0]
    'crate :: conditions :: need_at_most ( ( offset as u128 ) + ( len as u128 ) , 8 * ( bytes . len ( ) as u128 ) ,'
    >>> said({"bytes": "Bytes"}, "offset + len ≤ 8 * length bytes").split(" & ")[1]
    '[ "`f` needs `offset + len <= 8 * bytes.len()`: " , " is not at most " ] )'
    >>> said({}, "0 < n")
    'crate :: conditions :: need_above ( n , 0 , & [ "`f` needs `n > 0`: " , " is not above " ] )'
    >>> said({}, "n < count (truth self.now)", ("says", "No {} of {}"))[-25:]
    '[ "`f`: No " , " of " ] )'
    >>> said({}, "8 / size < 9")
    Traceback (most recent call last):
    rereading.lexer.Unexplained: `8 / size < 9` divides by what may be 0
    >>> Test("f", {}, "IsFinite (I.remaining it)").words is None
    True
    """

    def __init__(self, call, types, text, told=None):
        self.call, self.types, self.text, self.told, self.listed = call, types, text, told, []
        term = Reader(text).term()
        self.words = None if is_met(term) else words_of(f"{TESTS}::need_{self.said(term)}")

    def said(self, term):
        match term:
            case Apply("All", [Within(Each(name, Binary("<" | "≤" as sign, left, bound))), items]) if left == name:
                items, bound, test = place(items), self.number(bound), COMPARED[sign][0]
                return f"each_{test}({items}, {bound}, {self.needs(f'each of `{items}` {spaced(test)} `{bound}`')})"
            case Apply("IsStrictlyIncreasing", [items]):
                return self.ascending(place(items), place(items))
            case Apply("IsNonDecreasing", [items]):
                return f"sorted({place(items)}, {self.needs(f'each of `{place(items)}` at least the one before it')})"
            case Apply("IsWithinBytes", [of, offset, count]):
                of, offset, count = place(of), place(offset), place(count)
                return f"within({of}, {offset}, {count}, {self.needs(f'`{offset} + {count} <= 8 * {of}.len()`')})"
            case Apply("AreInStep", [values, validity]):
                needs = self.needs(f"`{validity}` as long as `{values}`")
                return f"in_step(&{values}, {validity}.as_ref(), {needs})"
            case Apply("IsStack", [Within(Binary("∷", Apply("truth", ["self.now"]), Apply("map", ["truth", masks])))]):
                needs = self.needs("each mask as long as the one before it has true values")
                return f"stack(self, {place(masks)}, {needs})"
            case Apply("AreRanges", [Within(Apply("values", [of])), ranges]):
                return f'ranges(&{of}, &{ranges.removesuffix(".items")}, "`{self.call}`")'
            case Apply("EachRunFrom", [_, items, "IsAscending"]):
                self.listed.append(items)
                return self.ascending(items, f"&{items}")
            case Apply("EachRunFrom", [_, items, Within(Apply("AreRanks", [Within(limit), count]))]):
                self.listed.append(items)
                limit, count = self.number(limit), place(count)
                needs = self.needs(f"`{count}` ascending `{items}` below `{limit}`")
                return f"ranks(&{items}, {limit}, {count}, {needs})"
            case Binary(sign, left, right) if sign in COMPARED:
                return self.compared(sign, left, right)
        raise Unexplained(f"`{self.text}` has no form of a test")

    def ascending(self, items, lent):
        return f"ascending({lent}, {self.needs(f'each of `{items}` above the one before it')})"

    def needs(self, text):
        """What is said of the call: what it needs, or what a mark has in place of that."""
        how, text = self.told or ("needs", text)
        return f'"`{self.call}` needs {text}: "' if how == "needs" else f'"`{self.call}`: {text}: "'

    def compared(self, sign, left, right):
        """A comparison, of sums and products in 128 bits, so that these are exact. A number stands on the right."""
        wide = is_wide(left) or is_wide(right)
        if (sign, right) == ("<", Binary("^", "2", "64")):
            sign, right = "≤", "usize.MAX"
        elif isinstance(left, str) and left.isdigit():
            left, sign, right = right, COMPARED[sign][2], left
        test, rust, _ = COMPARED[sign]
        needs = self.needs(f"`{shown(self.number(left))} {rust} {shown(self.number(right))}`")
        between = '" is not "' if test == "equal" else f'" is not {spaced(test)} "'
        if "{}" in needs:
            # (a text with places for the values)
            needs, between, end = needs.split("{}")
            if end != ': "':
                raise Unexplained(f"`{self.told[1]}` goes on behind its values")
            needs, between = f'{needs}"', f'"{between}"'
        return f"{test}({self.number(left, wide)}, {self.number(right, wide)}, &[{needs}, {between}])"

    def number(self, term, wide=False):
        match term:
            case str() if term.isdigit():
                return term
            case Within(inner) if isinstance(inner, Binary):
                return f"({self.number(inner, wide)})"
            case Binary("/", _, by) if not (isinstance(by, str) and by.isdigit() and int(by)):
                raise Unexplained(f"`{self.text}` divides by what may be 0")
            case Binary("+" | "*" | "/" as sign, left, right):
                return f"{self.number(left, wide)} {sign} {self.number(right, wide)}"
        return f"({self.measure(term)} as u128)" if wide else self.measure(term)

    def measure(self, term):
        match term:
            case "usize.MAX":
                return "usize::MAX"
            case Within(inner):
                return self.measure(inner)
            case str():
                return place(term)
            case Apply("length" | "vec_len", [of]):
                it = self.listed_values(of)
                # (chunks count whole words)
                return f"(64 * {it}.len() + {it}.remainder_len())" if "BitChunks" in self.types.get(it, "") else f"{it}.len()"
            case Apply("count", [Within(Apply("word_bits", [word]))]):
                return f"({self.measure(word)}.count_ones() as usize)"
            case Apply("count", [of]):
                return f"{self.listed_values(of)}.true_count()"
            case Apply("started_words", [bits]):
                return f"{self.measure(bits)}.div_ceil(64)"
            case Apply("slice_index", [of, i]):
                return f"{place(of)}[{place(i)}]"
        raise Unexplained(f"`{self.text}` has no form of a test")

    def listed_values(self, of):
        """What has the values that are counted: a list, or the values of a buffer or of a mask."""
        match bare(of):
            case Apply("values" | "nullable_values" | "truth", [it]):
                return place(it)
            case it:
                return place(it)


def is_wide(term):
    match term:
        case Binary(sign, left, right):
            return sign in "+*^" or is_wide(left) or is_wide(right)
        case Within(inner):
            return is_wide(inner)
        case Apply(_, operands):
            return any(is_wide(it) for it in operands)
    return False


def spaced(name):
    return name.replace("_", " ")


def shown(said):
    """A measure without the conversion that its type needs."""
    return said[1:].removesuffix(" as usize)") if said.endswith(".count_ones() as usize)") else said


def place(term):
    """What a path of a contract is in the function: the value itself, and not what it is before or after."""
    if not isinstance(term, str):
        raise Unexplained(f"no value is `{term}`")
    return ".".join(it for it in term.split(".") if it not in ("now", "old"))
