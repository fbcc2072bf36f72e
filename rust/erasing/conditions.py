"""What a caller owes, as a test in Rust."""
import re

from erasing.tokens import Fault, spaced

# What every Rust value meets: a closure may be called, an iterator can be asked, and ends before memory does, a clone
# is equal to what it is of, and no slice and no list of bits in memory is longer than its type says.
MET = [
    r"\w+\.can_next \w+",
    r"IsFinite \(\w+\.remaining \w+\)",
    r"UpTo \(\w+\.remaining \w+\) usize\.MAX",
    r"\w+\.IsAlwaysCallable \w+(\.now)?",
    r"self ≡ AllOr\.\w+ → \w+\.pre \w+",
    r"ForValue self \(λ x\. IsOnlyClone T\.is_clone x\.now\)",
]
NUMBER = re.compile(r"\d+|usize\.MAX|[\w.]+|[()+*/^]|[≤<≡]|\S")
TESTS = "crate::conditions"


# How a comparison is tested, how it reads in Rust, and what is said where it is broken.
COMPARED = {
    "<": ("below", "<", "is not below"), "≤": ("at_most", "<=", "is not at most"), "≡": ("equal", "==", "is not"),
    ">": ("above", ">", "is not above"), "≥": ("at_least", ">=", "is not at least"),
}
TURNED = {"<": ">", "≤": "≥", "≡": "≡"}


class Condition:
    """A condition of a call as a test in Rust, by the types of the parameters, with what is said where it is broken.

    >>> Condition("cut", {"start": "usize", "end": "usize", "self": "BitBuffer"}, "start ≤ end").test()
    'need_at_most(start, end, &["`cut` needs `start <= end`: ", " is not at most "])'
    >>> Condition("at", {"i": "usize", "self": "&BitBuffer"}, "i < length (values self.now)").test()
    'need_below(i, self.len(), &["`at` needs `i < self.len()`: ", " is not below "])'
    >>> Condition("by", {"size": "usize"}, "0 < size").test()
    'need_above(size, 0, &["`by` needs `size > 0`: ", " is not above "])'
    >>> Condition("add", {"n": "usize", "self": "A"}, "length self.old + n < 2 ^ 64").test()
    'need_at_most((self.len() as u128) + (n as u128), (usize::MAX as u128), \
&["`add` needs `self.len() + n <= usize::MAX`: ", " is not at most "])'
    >>> Condition("at", {"i": "usize", "c": "&BitChunks<'_>"}, "64 * i < length c.now", ("needs", "a word")).test()
    'need_below(64 * (i as u128), ((64 * c.len() + c.remainder_len()) as u128), &["`at` needs a word: ", " is not below "])'
    >>> Condition("at", {"n": "usize"}, "n < count (truth self.now)", ("says", "No {} of {}")).test()
    'need_below(n, self.true_count(), &["`at`: No ", " of "])'
    >>> Condition("of", {"ks": "&[usize]"}, "All (λ k. k < count (values b.now)) ks.now").test()
    'need_each_below(ks, b.true_count(), "`of` needs each of `ks` below `b.true_count()`: ")'
    >>> Condition("of", {}, "F.IsAlwaysCallable test").test() is None
    True
    >>> Condition("of", {"offset": "usize", "len": "usize"}, "offset / 8 ≤ len").test()
    'need_at_most(offset / 8, len, &["`of` needs `offset / 8 <= len`: ", " is not at most "])'
    >>> Condition("of", {"size": "usize"}, "8 / size < 9").test()
    Traceback (most recent call last):
    erasing.tokens.Fault: `8 / size < 9` divides by what may be 0
    """

    def __init__(self, call, types, words, told=None):
        self.call = call
        self.types = types
        self.words = spaced(words)
        # a mark, in place of what the form of the condition says
        self.told = told
        # iterators whose items are listed, since a condition is of them
        self.listed = []

    def test(self):
        """The test, or nothing where every value meets it."""
        self.form = next((it for it in MET if re.fullmatch(it, self.words)), None)
        if self.form:
            return None
        forms = [
            (r"All \(λ (\w+)\. \1 ([<≤]) (.+)\) (\S+)", self.each),
            (r"IsStrictlyIncreasing (\S+)", lambda it: self.ascending(self.place(it), self.place(it))),
            (r"IsNonDecreasing (\S+)", self.sorted),
            (r"IsWithinBytes (\S+) (\S+) (\S+)", self.within),
            (r"AreInStep (\w+) (\w+)", self.in_step),
            (r"IsStack \(truth self\.now ∷ map truth (\w+)\.now\)", self.stack),
            (r"AreRanges \(values (\w+)\) (\w+)\.items", self.ranges),
            (r"EachRunFrom \w+\.next_gives (\w+) IsAscending", self.ascending_items),
            (r"EachRunFrom \w+\.next_gives (\w+) \(AreRanks \((.+)\) (\w+)\)", self.ranks),
        ]
        for form, made in forms:
            if match := re.fullmatch(form, self.words):
                self.form = form
                return made(*match.groups())
        self.form = "a comparison"
        return self.compared(self.words)

    def says(self, needs):
        """What is said before the values: what a mark has, or else what the form does."""
        how, text = self.told or ("needs", needs)
        return f"`{self.call}` needs {text}: " if how == "needs" else f"`{self.call}`: {text}: "

    def each(self, name, sign, bound, items):
        items, bound = self.place(items), self.sum(bound)
        test, _, is_not = COMPARED[sign]
        needs = self.says(f"each of `{items}` {is_not.removeprefix('is not ')} `{bound}`")
        return f'need_each_{test}({items}, {bound}, "{needs}")'

    def ascending(self, items, lent):
        return f'need_ascending({lent}, "{self.says(f"each of `{items}` above the one before it")}")'

    def ascending_items(self, items):
        self.listed.append(items)
        return self.ascending(items, f"&{items}")

    def sorted(self, items):
        items = self.place(items)
        return f'need_sorted({items}, "{self.says(f"each of `{items}` at least the one before it")}")'

    def within(self, *operands):
        items, offset, count = map(self.place, operands)
        return f'need_within({items}, {offset}, {count}, "{self.says(f"`{offset} + {count} <= 8 * {items}.len()`")}")'

    def in_step(self, values, validity):
        needs = self.says(f"`{validity}` as long as `{values}`")
        return f'need_in_step(&{values}, {validity}.as_ref(), "{needs}")'

    def stack(self, masks):
        return f'need_stack(self, {masks}, "{self.says(f"each mask as long as the one before it has true values")}")'

    def ranges(self, buffer, ranges):
        return f'need_ranges(&{buffer}, &{ranges}, "`{self.call}`")'

    def ranks(self, items, values, count):
        self.listed.append(items)
        values = self.sum(values)
        needs = self.says(f"`{count}` ascending `{items}` below `{values}`")
        return f'need_ranks(&{items}, {values}, {count}, "{needs}")'

    def compared(self, words):
        left, sign, right = re.fullmatch(r"(.+?) ([≤<≡]) (.+)", words).groups()
        # (sums and products are exact in 128 bits)
        wide = any(it in "+*^" for it in words.split())
        if (sign, right) == ("<", "2 ^ 64"):
            sign, right = "≤", "usize.MAX"
        elif left.isdigit():
            left, sign, right = right, TURNED[sign], left
        test, rust, is_not = COMPARED[sign]
        one, other = (self.shown(self.sum(it)) for it in (left, right))
        parts = [self.says(f"`{one} {rust} {other}`"), f" {is_not} "]
        if "{}" in parts[0]:
            first, between, rest = parts[0].removesuffix(": ").split("{}")
            if rest:
                raise Fault(f"a value has to end `{self.told[1]}`")
            parts = [first, between]
        one, other = (self.sum(it, wide) for it in (left, right))
        return f"""need_{test}({one}, {other}, &["{parts[0]}", "{parts[1]}"])"""

    def shown(self, made):
        """An expression as a reader has it."""
        return re.sub(r"\((\w\S* *\S*\.count_ones\(\)) as usize\)", r"\1", made)

    def sum(self, words, wide=False):
        """A sum of products."""
        self.left = NUMBER.findall(words)
        made = self.chain(wide)
        if self.left:
            raise Fault(f"no form for `{self.words}`: {self.left}")
        return made

    def chain(self, wide):
        made = self.atom(wide)
        while self.left and self.left[0] in "+*/":
            sign = self.left.pop(0)
            if sign == "/" and not re.fullmatch(r"[1-9]\d*", self.left[0]):
                # (in the logic that is a number, and Rust panics)
                raise Fault(f"`{self.words}` divides by what may be 0")
            made += f" {sign} {self.atom(wide)}"
        return made

    def atom(self, wide):
        it = self.left.pop(0)
        if it.isdigit():
            return it
        if it == "(":
            made = self.chain(wide)
            self.left.remove(")")
            return f"({made})"
        made = self.measure(it)
        return f"({made} as u128)" if wide else made

    def measure(self, it):
        if it == "usize.MAX":
            return "usize::MAX"
        if it in ("length", "vec_len", "count") and self.left and self.left[0] not in "+*/)":
            return self.size(it, self.operand())
        if it == "started_words":
            self.left.pop(0)
            made = self.measure(self.left.pop(0))
            self.left.pop(0)
            return f"{made}.div_ceil(64)"
        if it == "slice_index":
            return f"{self.place(self.left.pop(0))}[{self.left.pop(0)}]"
        if re.fullmatch(r"[a-z_]\w*(\.\w+)*", it):
            return self.place(it)
        raise Fault(f"no form for `{self.words}`: {it}")

    def operand(self):
        """What is counted, behind the word for its list."""
        if self.left[0] != "(":
            return "", self.place(self.left.pop(0))
        self.left.pop(0)
        word = self.left.pop(0)
        if self.left[0] == "(":
            self.left.pop(0)
            made = self.measure(self.left.pop(0))
            self.left.pop(0)
        else:
            made = self.place(self.left.pop(0))
        self.left.pop(0)
        return word, made

    def size(self, measure, operand):
        word, it = operand
        if measure == "count":
            return f"({it}.count_ones() as usize)" if word == "word_bits" else f"{it}.true_count()"
        if "BitChunks" in self.types.get(it, ""):
            # (their own `len` is of whole words)
            return f"(64 * {it}.len() + {it}.remainder_len())"
        return f"{it}.len()"

    def place(self, it):
        return re.sub(r"\.(now|old)\b", "", it)
