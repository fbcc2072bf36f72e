"""Lists of truth values as texts of digits, as `10110`, and what each call makes of them, by plain loops.

A mask of no values is held as `AllTrue` or as `AllFalse`, by how it was made: so a plain mask is a list, and whether
it is held as `AllTrue`.
"""
import re
from functools import lru_cache, partial
from itertools import accumulate
from typing import NamedTuple

MAX = 2**64 - 1
# A value is true where what is left of its word by the first number is from the second on, and below the last.
ODD, THREE_IN_FIVE, TWO_IN_THREE = (2, 1, 2), (5, 0, 3), (3, 1, 3)
# Of whole lists at once, each as the number with its bits.
OPERATIONS = {"bitand": lambda a, b: a & b, "bitor": lambda a, b: a | b, "bitand_not": lambda a, b: a & ~b}


class Mask(NamedTuple):
    values: str
    is_all_true: bool

    def count(self):
        return self.values.count("1")

    def is_mixed(self):
        return "0" in self.values and "1" in self.values

    def part(self, start, end):
        return mask(self.values[start:end], self.is_all_true)


def mask(values, if_empty=False):
    """A mask of these values, which is held as `AllTrue` if they are all true, and of no values if that is said."""
    return Mask(values, "0" not in values if values else if_empty)


# ---- lists

def repeating(length, period, trues):
    """Of each `period` values the first `trues` are true."""
    one = "1" * trues + "0" * (period - trues)
    return (one * (length // period + 1))[:length]


def words(state):
    """64-bit words at random, from a state that is not 0."""
    while True:
        state ^= state << 13 & MAX
        state ^= state >> 7
        state ^= state << 17 & MAX
        yield state


def drawn(source, length, share):
    """As many values by words: how they are true says the share, as `ODD`."""
    by, first, end = share
    return "".join("1" if first <= next(source) % by < end else "0" for _ in range(length))


def bits_of(word, count=64):
    """The bits of a word, the lowest first."""
    return f"{word:0{count}b}"[::-1][:count]


def word_of(values):
    return int(values[::-1], 2) if values else 0


def words_of(values):
    return [word_of(values[i : i + 64]) for i in range(0, len(values), 64)]


def negated(values):
    return values.translate({ord("0"): "1", ord("1"): "0"})


def negated_at(values, i):
    return values[:i] + negated(values[i : i + 1]) + values[i + 1 :]


# ---- what is found in a list, and what is made of lists

@lru_cache(8)
def indices(values):
    return [it.start() for it in re.finditer("1", values)]


@lru_cache(8)
def ranges(values):
    return [f"{it.start()}..{it.end()}" for it in re.finditer("1+", values)]


@lru_cache(8)
def counts(values):
    """How many true values stand before each value, and in all."""
    return [*accumulate(map(int, values), initial=0)]


def combined(name, a, b):
    return bits_of(OPERATIONS[name](word_of(a), word_of(b)), len(a))


def kleene(name, a, b):
    """Kleene's table of two lists with nulls, as `1?0`: what decides it alone, or else a null, or else the other value."""
    decides = "0" if name == "and_kleene" else "1"
    found = ({x, y} for x, y in zip(a, b))
    return "".join(decides if decides in it else "?" if "?" in it else negated(decides) for it in found)


def narrowed(rows, ranks):
    """The values of `rows`, of which true value number n stays where value n of `ranks` is true."""
    between = rows.split("1")
    found = [""] * (2 * len(between) - 1)
    found[::2], found[1::2] = between, ranks
    return "".join(found)


def narrowed_mask(rows, ranks):
    return mask(narrowed(rows.values, ranks.values), rows.is_all_true and ranks.is_all_true)


def rank_path(rows, ranks, cached=(False, False)):
    """The path of the rank intersection of two mixed masks, and None of others; `cached` says which cache indices."""
    length, count, ranked, offered = len(rows.values), rows.count(), ranks.count(), len(ranks.values)
    if not (rows.is_mixed() and ranks.is_mixed()):
        return None
    if all(cached) and ranked < -(-length // 64) or 64 * count < length:
        return "Indices"
    if 32 * ranked < offered:
        return "MaskDriven"
    return "RankIndices" if cached[1] and 4 * ranked <= offered else "BitBuffers"


def steps_text(path, rows, want):
    """What a path counts that leaves `want` of `rows`: deposits, words, selections; offered, placed, spots. Where it
    deposits, it does so for each started word, and else it reads none past the last index that stays."""
    found, started = indices(want), -(-len(want) // 64)
    read = found[-1] // 64 + 1 if found else 0
    if path == "MaskDriven":
        return f"0,{read},{len(found)} 0,0,{sum(i % 64 for i in found)}"
    if path in ("BitBuffers", "RankIndices"):
        return f"{started},{started},0 {rows.count('1')},{len(found)},0"
    return "0,0,0 0,0,0"


def limited(values, k):
    """The values, of which the first k true ones stay."""
    end = max(indices(values)[:k], default=-1) + 1
    return values[:end] + "0" * (len(values) - end)


def without_first(values, k):
    """The values, of which all true ones but the first k stay."""
    begin = max(indices(values)[:k], default=-1) + 1
    return "0" * begin + values[begin:]


def at_rows(rows, values):
    """The values at the true ones of `rows`: of a word, its bits at set places, one after another."""
    return "".join(values[i] for i in indices(rows))


# ---- texts, as the rows say them

def text(values):
    return values or "-"


def mask_text(a):
    held = f"{a.count()} of {len(a.values)} " + ("AllTrue" if a.is_all_true else "AllFalse")
    return f"{a.values} Values" if a.is_mixed() else held


def combined_text(name, a, b, *_):
    return mask_text(mask(combined(name, a.values, b.values), bool(OPERATIONS[name](a.is_all_true, b.is_all_true))))


def list_text(items):
    return ",".join(map(str, items)) or "-"


def lent_by(a, lent):
    """What a mask lends: this where it is mixed."""
    return lent if a.is_mixed() else "All" if a.is_all_true else "None"


# The lists that a mask caches.
LISTS = {"i": indices, "r": ranges}


def cached_text(a, caches):
    """The mask with what it has cached, if it is mixed."""
    listed = (LISTS[it] for it in "ir" if it in caches and a.is_mixed())
    return mask_text(a) + "".join(f" {of.__name__} {list_text(of(a.values))}" for of in listed)


def lent_text(a, kind, caches):
    """A list that a mask lends, and the mask after it, which has it cached beside these, if it is told of them."""
    lent = lent_by(a, list_text(LISTS[kind](a.values)))
    return f"{lent} then {mask_text(a) if caches is None else cached_text(a, caches + kind)}"


def counted_text(a, b, *_):
    """Rank intersection, and what it counts: of masks whose indices aren't cached."""
    want = narrowed_mask(a, b)
    return f"{mask_text(want)} steps {steps_text(rank_path(a, b), a.values, want.values)}"


def threshold_text(a, num, den, caches):
    """The list that a mask lends by a threshold of its density, which is then cached beside these."""
    kind, name = ("r", "Slices ") if a.count() * den >= num * len(a.values) else ("i", "Indices ")
    return name * a.is_mixed() + lent_text(a, kind, caches)


def walk_text(values):
    """Each value with how many are left, and how many past the last."""
    return "".join(f"{len(values) - i}:{it} " for i, it in enumerate(values)) + "0"


def index_text(found, n):
    return str(found[n]) if 0 <= n < len(found) else "none"


def flag(value):
    return "true" if value else "false"


# ---- what calls answer of a mask, another one, and numbers; `lists` are those that the mask caches, or None is told

ALONE = {
    "mask,clone": lambda a, b, numbers, lists: cached_text(a, lists or ""),
    "not,into_not": lambda a, *_: mask_text(mask(negated(a.values), not a.is_all_true)),
    "to_bit_buffer,into_bit_buffer,display": lambda a, *_: text(a.values),
    "len": lambda a, *_: len(a.values),
    "true_count": lambda a, *_: a.count(),
    "false_count": lambda a, *_: a.values.count("0"),
    "is_empty": lambda a, *_: flag(not a.values),
    "all_true": lambda a, *_: flag("0" not in a.values),
    "all_false": lambda a, *_: flag("1" not in a.values),
    "first": lambda a, *_: index_text(indices(a.values), 0),
    "last": lambda a, *_: index_text(indices(a.values), a.count() - 1),
    "bit_buffer": lambda a, *_: lent_by(a, a.values),
    "density": lambda a, *_: f"{a.count()}/{len(a.values)}" if a.is_mixed() else f"{int(a.is_all_true)}/1",
    "debug": lambda a, *_: (
        f"true_count={a.count()}, len={len(a.values)}" if a.is_mixed()
        else f"All {flag(a.is_all_true)}({len(a.values)})"
    ),
    "debug_values": lambda a, *_: f"Some(true_count={a.count()}, len={len(a.values)})" if a.is_mixed() else "None",
    "set_indices": lambda a, *_: " ".join(["indices", *map(str, indices(a.values))]),
    "set_slices": lambda a, *_: " ".join(["ranges", *ranges(a.values)]),
    "clear": lambda *_: f"done then {mask_text(mask(''))}",
    "indices": lambda a, b, numbers, lists: lent_text(a, "i", lists),
    "slices": lambda a, b, numbers, lists: lent_text(a, "r", lists),
}
ANSWERS = {
    **ALONE,
    **{f"{it},into_{it},to_{it}": partial(combined_text, it) for it in OPERATIONS},
    "value": lambda a, b, i, _: flag(a.values[i[0]] == "1"),
    "threshold_iter": lambda a, b, numbers, lists: threshold_text(a, *numbers, lists),
    "slice": lambda a, b, ends, lists: cached_text(a.part(*ends), (lists or "") * ([*ends] == [0, len(a.values)])),
    "count_range": lambda a, b, ends, _: a.part(*ends).count(),
    "limit,to_limited": lambda a, b, k, _: mask_text(mask(limited(a.values, k[0]), a.is_all_true)),
    "without_first": lambda a, b, k, _: mask_text(mask(without_first(a.values, k[0]), a.is_all_true)),
    "groups": lambda a, b, n, _: ",".join(mask_text(a.part(i, i + n[0])) for i in range(0, len(a.values), n[0])) or "-",
    "valid_counts_for_indices": lambda a, b, numbers, _: list_text(counts(a.values)[i] for i in numbers),
    "choose": lambda a, b, rows, _: list_text(rows[i] for i in indices(a.values)),
    "and_rows": lambda a, b, *_: mask_text(mask(combined("bitand", a.values, b.values))),
    "choose_values": lambda a, b, *_: mask_text(mask(at_rows(a.values, b.values), b.is_all_true)),
    "intersect_by_rank_counted": counted_text,
    "intersect_by_rank": lambda a, b, *_: mask_text(narrowed_mask(a, b)),
    "equal": lambda a, b, *_: flag(a.values == b.values),
    "concat,from_masks": lambda a, b, *_: mask_text(mask(a.values + b.values)),
    "from_buffer,from_rows,from_bools,from_excluded_indices,from_unsorted_indices": lambda a, *_: mask_text(a),
    "from_indices,from_intersection_indices": lambda a, *_: cached_text(a, "i"),
    "from_slices,from_buffer_with_slices": lambda a, *_: cached_text(a, "r"),
}
BY_NAME = {name: of for names, of in ANSWERS.items() for name in names.split(",")}


def answer(call, a, b=None, numbers=(), lists=None):
    told = str(BY_NAME[call.removeprefix("values.")](a, b, numbers, lists))
    return told.replace(" Values", "") if call.startswith("values.") else told
