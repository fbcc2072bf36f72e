"""The rows of the sweeps, by section: a list of shares, and a function that gives the rows of one. Deposits, kernels,
masks and densities go by fixed streams of words; the others look at lengths and offsets where the code has a branch."""
from plain import (
    ALONE, MAX, ODD, OPERATIONS, THREE_IN_FIVE, TWO_IN_THREE, answer, at_rows, bits_of, cached_text, combined, drawn,
    flag, index_text, indices, kleene, list_text, mask, mask_text, narrowed, narrowed_mask, negated, negated_at, rank_path,
    ranges, repeating, steps_text, text, walk_text, word_of, words, words_of,
)

# Whether the rows are for the Rust build (as `.ci/sweeps` says).
is_rust = False
STATE = 0x2545_F491_4F6C_DD1D
# Lists from each bit of a byte on, and from the next byte's first.
OFFSETS = range(9)
# Around sizes at which a body might give up: the last is no whole number of bytes.
LONG = [4_095, 4_096, 4_097, 65_537, 1_048_583]
# The constructors of a list, by how they hold one of no values.
EMPTY_FALSE = ["bools:", "rows:", "indices:", "common:", "slices:", "buffer:", "ranged:"]
EMPTY_TRUE = ["excluded:", "concat:", "masks:"]
# The calls that the values inside a mask have too.
OF_VALUES = "len", "is_empty", "true_count", "density", "bit_buffer", "into_bit_buffer", "debug", "clone"
OF_VALUES += "indices", "slices"
# The kernels, each with its path, and those paths that find indices one by one, and cache them.
KERNELS = {
    "intersect_bit_buffers": "BitBuffers",
    "intersect_bit_buffers_by_loop": "BitBuffers",
    "intersect_bit_buffer_by_rank_indices": "RankIndices",
    "intersect_bit_buffer_by_rank_indices_by_loop": "RankIndices",
    "intersect_by_rank_indices": "Indices",
    "intersect_mask_driven": "MaskDriven",
}
ONE_BY_ONE = "Indices", "MaskDriven"
# Of the densities: how many of 1,024 values are true.
THRESHOLDS = [5, 10, 20, 128, 512, 1_000]


def at(offsets, kinds="+-~"):
    """Lists from bits of their bytes on, with set bits around them (+), clear ones (-), and some of each (~)."""
    return [f"{offset}{kind}" for offset in offsets for kind in kinds]


def spread(rows, first, second=("bools:",)):
    """Each row with each of these forms in the place of `@`, and each of those in that of `%`."""
    for row in rows:
        for one in first if "@" in row else [""]:
            for other in second if "%" in row else [""]:
                yield row.replace("@", one).replace("%", other)


# ---- masks

def row(names, a, operand, b=None, numbers=()):
    """Calls that answer the same of a mask, and what else their words say."""
    others = [("" if names == "and_rows" else "%") + text(b.values)] if b else []
    others += [list_text(numbers)] if names in ("choose", "valid_counts_for_indices") else map(str, numbers)
    return f"{names} {' '.join([operand, *others])} => {answer(names.split(',')[0], a, b, numbers)}"


def calls(a, operand):
    """The calls of a mask; of it and numbers; and of it and another: the list reversed, itself, with one value negated,
    and ranks. Of a mixed one, those of its values."""
    values, count, length = a.values, a.count(), len(a.values)
    yield from (row(names, a, operand) for names in ALONE)
    yield row("valid_counts_for_indices", a, operand, numbers=range(length + 1))
    yield row("choose", a, operand, numbers=range(length))
    for names in ("bitand,into_bitand", "bitor,into_bitor", "to_bitand_not,bitand_not", "choose_values", "and_rows"):
        yield row(names, a, operand, mask(values[::-1]))
    last = max(length - 1, 0)
    for other in [values, *(negated_at(values, i) for i in (0, last // 2, last))]:
        yield row("equal", a, operand, mask(other))
    for names in ("intersect_by_rank,intersect_all_by_rank", "intersect_by_rank_counted"):
        yield row(names, a, operand, mask(repeating(count, 3, 1)))
    for k in sorted({0, 1, count // 2, max(count - 1, 0), count, count + 1, 65_536, MAX}):
        yield row("limit,to_limited", a, operand, numbers=[k])
        yield row("without_first", a, operand, numbers=[k])
    for it in [(0, length), (0, length // 3), (length // 3, length), (length // 5, length // 2), (length, length)]:
        yield from (row(name, a, operand, numbers=it) for name in ("slice", "count_range"))
    yield from (row("groups", a, operand, numbers=[it]) for it in (65, max(length // 3, 1), MAX))
    for it in thresholds(a):
        yield row("threshold_iter", a, operand, numbers=it)
    if a.is_mixed():
        yield from calls_of_values(a, operand)


def calls_of_values(a, operand):
    """The calls of the values inside a mixed mask."""
    yield from (row(f"values.{name}", a, operand) for name in OF_VALUES)
    for i in sorted({0, len(a.values) // 2, len(a.values) - 1}):
        yield row("values.value", a, operand, numbers=[i])
    for it in thresholds(a):
        yield row("values.threshold_iter", a, operand, numbers=it)


def thresholds(a):
    """One half, the density of a mask, one just above it, and next to nothing."""
    count, length = a.count(), max(len(a.values), 1)
    return [(1, 2), (count, length), (count + 1, length), (1, MAX)]


def calls_and_walks(a, operand):
    """And each value, and each true one by its number."""
    yield from calls(a, operand)
    yield f"each_value {operand} => {text(a.values)}"
    yield f"each_rank {operand} => {' '.join(['ranks', *map(str, indices(a.values))])}"
    yield f"iter {operand} => {walk_text(a.values)}"


def by_constructors(values, of):
    """The rows of a list by each constructor."""
    for forms, if_empty in [(EMPTY_FALSE, False), (EMPTY_TRUE, True)]:
        yield from spread(of(mask(values, if_empty), "@" + text(values)), forms)


def one_drawn(length, share):
    """The list of this length, of lists of each length from 0 on that are drawn one after another."""
    return drawn(words(STATE), sum(range(length + 1)), share)[sum(range(length)) :]


def masks(length, start):
    """A list of each length, by each constructor, and from the bits 0 to 63 on of its bytes."""
    values = one_drawn(length, ODD)
    if start == 0:
        yield from by_constructors(values, calls_and_walks)
        yield f"from_unsorted_indices {length} {list_text(indices(values)[::-1])} => {mask_text(mask(values))}"
    yield from spread(calls_and_walks(mask(values), "@" + text(values)), at(range(start, start + 32)))


def masks_of_one_value(length):
    for value, form in [("0", "none:"), ("1", "all:")]:
        yield from by_constructors(value * length, calls_and_walks)
        yield from spread(calls_and_walks(mask(value * length, value == "1"), f"{form}{length}"), [""])


def long_masks(length):
    """The calls of a long mask, with each cached list, and as many indices, ranges and masks."""
    values = repeating(length, 3, 1)
    a, operand = mask(values), "@" + text(values)
    yield from spread(calls(a, operand), ["0+", "3-"], ["5+"])
    for cached in ["", "i", "r", "ir"]:
        yield from spread([f"mask,clone @{values} -> {cached_text(a, cached)}"], [f"{cached}:" * bool(cached) + "3+"])
    yield from by_constructors(values, lambda of, operand: [f"mask {operand} => {mask_text(of)}"])


def many_masks(count):
    """None true, all true, or mixed, and every fifth has no values; and masks that each narrow the ones before."""
    lists = [repeating(n % 5, 3, n % 3) for n in range(count)]
    yield f"concat,from_masks {' '.join(map(text, lists)) or '()'} => {mask_text(mask(''.join(lists), True))}"
    left = mask(repeating(2_200, 5, 4))
    stack = [left]
    for n in range(count):
        is_narrower = n % (1 + count // 1_000) == 0
        stack.append(mask(negated_at("1" * left.count(), n % 70 if is_narrower else MAX)))
        left = narrowed_mask(left, stack[-1]) if is_narrower else left
    yield f"intersect_all_by_rank {' '.join(text(it.values) for it in stack)} => {mask_text(left)}"


# ---- buffers

def debug_text(values):
    """In Rust, `Debug` prints 64 values of a longer buffer, and its length."""
    return f"BitBuffer({values[:64]}.., len={len(values)})" if is_rust and len(values) > 64 else f"BitBuffer({values})"


def buffer_reads(values, operand):
    found, length = indices(values), len(values)
    for name in ("is_empty", "len", "true_count", "false_count"):
        yield f"bits.{name} {operand} => {answer(name, mask(values))}"
    yield f"bits.last_set_index {operand} => {index_text(found, len(found) - 1)}"
    for n in {0, len(found) // 3, max(len(found) - 1, 0), len(found), MAX}:
        yield f"bits.select,ranks.select {operand} {n} => {index_text(found, n)}"
    yield f"bits.debug {operand} => {debug_text(values)}"
    yield f"bits.set_indices {operand} => {' '.join(['indices', *map(str, found)])}"
    yield f"bits.indices {operand} => {list_text(found)}"
    yield f"bits.set_slices {operand} => {' '.join(['ranges', *ranges(values)])}"
    yield f"bits.runs {operand} => {list_text(ranges(values))}"
    for start in {0, 1, length // 3, 63, 64, length}:
        for value in "01" if start <= length else "":
            first = values.find(value, start)
            yield f"bits.first_from {operand} {start} {value} => {first if first >= 0 else length}"
        for end in {0, 8, length // 2, 64, 65, length}:
            if start <= end <= length:
                yield f"bits.count_range {operand} {start} {end} => {values[start:end].count('1')}"
                yield f"bits.slice {operand} {start} {end} => {text(values[start:end])}"


def buffer_walks(values, operand):
    found, started, whole = indices(values), words_of(values), len(values) // 64
    yield f"bits.each_value {operand} => {values} by index"
    yield f"bits.iter {operand} => {walk_text(values)}0"
    selected = [index_text(found, n) for n in range(len(found) + 3)]
    yield f"bits.select_each,ranks.select_each {operand} {len(selected)} => {' '.join([*selected, 'by number'])}"
    below = [values[:n].count("1") for n in range(len(values) + 1)]
    yield f"ranks.count_below_each {operand} => {' '.join(['below', *map(str, below)])}"
    yield f"bits.padded {operand} => {walk_text(started)}"
    rest = f"rest {len(values) % 64} {word_of(values[64 * whole :])}"
    listed = " ".join(map(str, [whole, *started[:whole]]))
    yield f"bits.words {operand} => {walk_text(started[:whole])} of {listed} {rest}"


def buffers(length):
    values = one_drawn(length, THREE_IN_FIVE)
    operand = "@" + text(values)
    yield from spread([*buffer_reads(values, operand), *buffer_walks(values, operand)], at(OFFSETS))


def buffer_pairs(a, b):
    """Boolean calls, equality and chosen values."""
    left, right = "@" + text(a), "%" + text(b)
    for name in OPERATIONS:
        yield f"bits.{name},bits.into_{name} {left} {right} => {text(combined(name, a, b))}"
    yield f"bits.and_rows {left} {text(b)} => {text(combined('bitand', a, b))}"
    yield f"bits.choose_values {left} {right} => {text(at_rows(a, b))}"
    yield f"bits.equal {left} {right} => {flag(a == b)}"


def pairs_of_offsets(length):
    """Two lists, and one beside itself, and beside one that differs in the last value alone."""
    source = words(0x9E37_79B9_7F4A_7C15 + length)
    a, b = drawn(source, length, THREE_IN_FIVE), drawn(source, length, THREE_IN_FIVE)
    yield from spread([f"bits.not,bits.into_not @{text(a)} => {text(negated(a))}"], at(range(64)))
    for other in [b, a, negated_at(a, length - 1)]:
        yield from spread(buffer_pairs(a, other), at(OFFSETS, "+-"), at(OFFSETS, "+-"))


def long_buffers(length):
    a, b = repeating(length, 3, 1), repeating(length, 7, 4)
    padded = a + "1" * (72 + -length % 8)
    given = list_text(word_of(padded[i : i + 8]) for i in range(0, len(padded), 8))
    yield f"bits.from_bools,bits.from_rows {a} => {a}"
    yield f"bits.from_vec {given} {length} => {a}"
    yield f"bits.from_indices {length} {list_text(indices(a))} => {a}"
    yield f"bits.new_set {length} => {'1' * length}"
    yield f"bits.new_unset {length} => {'0' * length}"
    negations = [f"bits.not,bits.into_not @{a} => {negated(a)}"]
    yield from spread([*buffer_reads(a, "@" + a), *buffer_pairs(a, b), *negations], ["0+", "3-"], ["5+"])


# ---- builders

def builders(before):
    """So many values, an operation, and what is written next, which finds clear bits."""
    start, *lists = (drawn(words(STATE), n, ODD) for n in (before, 0, 1, 9, 63, 64, 65, 193, 20_021))
    changes = [(f"b:{form}{text(it)}", it) for it in lists for form in at(OFFSETS, "+-")]
    for word in (MAX, 0x9E37_79B9_7F4A_7C15, 0):
        changes += [(f"w:{word:#x}:{count}", bits_of(word)[:count]) for count in range(65)]
    for n in (0, 1, 7, 8, 9, 60, 63, 64, 65, 127, 128, 129, 300, 12_345):
        changes += [(f"n:{value}:{n}", value * n) for value in "01"]
    for operation, added in changes:
        yield f"builder new_unset:0 b:{text(start)} {operation} n:0:5 w:0x2:3 => {start}{added}00000010"
    for i, it in enumerate(start):
        yield f"builder new_unset:0 b:{start} {'set' if it == '0' else 'unset'}:{i} => {negated_at(start, i)}"


# ---- deposits, extracts and selections of a word

def words_at_random(first, end):
    """The deposits and extracts of these rounds, and the selections of the first 250 of them. Every seventh places are
    a word, and the others have ever fewer set bits; every other one is complemented. All rounds draw from one stream.

    >>> sum(end - first for first, end in SECTIONS["words"][0])
    20000
    >>> for turn in (0, 1, 5_000, 19_999):
    ...     print(next(words_at_random(turn, turn + 1)).partition(" ")[2])
    0x64f0eeb9026e6076 0xdc1b77ae0bf34dad -> 0xD01004A608C0058C
    0x2ceb16e0a1c54aec 0xcff8fbffdb7fbfcb -> 0x48B0E050D0549748
    0xeb0c0135f1e11d94 0x400214000210 -> 0x204000000
    0x7f5c3d26cfffcd26 0xe40dbbaee91521e5 -> 0x6005BBAE89040124
    """
    source = words(0x9E37_79B9_7F4A_7C15)
    for turn in range(end):
        places = next(source)
        for _ in range(turn % 7):
            places &= next(source)
        places, word = MAX ^ places if turn % 2 else places, next(source)
        if turn < first:
            continue
        at_places = bits_of(places)
        deposited = word_of(narrowed(at_places, bits_of(word)[: at_places.count("1")]))
        yield f"deposit,deposit_by_loop,deposit_bytewise {word:#x} {places:#x} -> 0x{deposited:X}"
        for it in (word, MAX):
            extracted = word_of(at_rows(at_places, bits_of(it)))
            yield f"extract,extract_by_bits {it:#x} {places:#x} -> 0x{extracted:X}"
        if turn < first + 250:
            yield from (f"select {places:#x} {rank} -> {place}" for rank, place in enumerate(indices(at_places)))


# ---- truth values with nulls

def nullable_word(values, held, offsets):
    """A list with nulls as an operand: with what its values hold at nulls; without a validity if none is asked for."""
    one, other = offsets
    kept = "".join(bit if it == "?" else it for it, bit in zip(values, held))
    valid = "".join("0" if it == "?" else "1" for it in values)
    return f"{one}+{text(kept)}" + (f"/{other}~{text(valid)}" if other is not None else "")


def nullable_text(values, is_all_valid=False):
    return text(values) if is_all_valid else f"{text(values)} of {text(values.replace('?', '0'))}"


def nullable_pairs(length):
    """Two lists with nulls, whose bits and validities begin at any bits of their bytes, and of which one or both may be
    without a validity: each pair of values stands in each nine."""
    held = one_drawn(length, ODD)
    nines = ["10?"[n % 3] + "10?"[n // 3 % 3] for n in range(length)]
    for n, (p, q) in enumerate((p, q) for p in OFFSETS for q in OFFSETS):
        a, b = ("".join(it[i] for it in nines) for i in (0, 1))
        of_a, of_b = ((p + 3 * q) % 9, (q + 2 * p + length) % 9)
        if n % 4 in (1, 3):
            a, of_a = a.replace("?", "1"), None
        if n % 4 in (2, 3):
            b, of_b = b.replace("?", "0"), None
        x, y = nullable_word(a, held, (p, of_a)), nullable_word(b, held[::-1], (q, of_b))
        for name in ("and_kleene", "or_kleene"):
            yield f"nullable.{name} {x} {y} => {nullable_text(kleene(name, a, b), of_a is None and of_b is None)}"
        yield f"nullable.not {x} => {nullable_text(negated(a), of_a is None)}"
        yield f"nullable.is_true {x} => {text(a.replace('?', '0'))}"
        yield f"nullable.is_not_false {x} => {text(a.replace('?', '1'))}"
        yield f"nullable.is_null {x} => {text(''.join(str(int(it == '?')) for it in a))}"
        yield f"nullable.len {x} => {length}"
        yield f"nullable.null_count {x} => {a.count('?')}"
        yield f"from_nullable {x} => {mask_text(mask(a.replace('?', '0')))}"


# ---- kernels

def by_each_kernel(rows, ranks):
    want = narrowed(rows, ranks)
    for kernel, path in KERNELS.items():
        cached = cached_text(mask(want), "i" * (path in ONE_BY_ONE))
        yield f"kernel.{kernel} @{text(rows)} %{text(ranks)} -> {cached} steps {steps_text(path, rows, want)}"


def beside_each_other(rows, offsets):
    """Both operands from the same bits on, with the same bits around."""
    rows = [*rows]
    for form in at(offsets):
        yield from spread(rows, [form], [form])


def runs():
    """One to twenty words in each turn: clear, then full, and then of any bits. The rows also have clear bits around
    them where the ranks have set ones."""
    source, rows = words(STATE), ""
    for turn in range(48):
        for _ in range(1 + next(source) % 20):
            rows += ["0" * 64, "1" * 64][turn % 3] if turn % 3 < 2 else bits_of(next(source))
    rows += "10110"
    kernels = [*by_each_kernel(rows, drawn(source, rows.count("1"), TWO_IN_THREE))]
    yield from beside_each_other(kernels, [0, 3, 67])
    for offset in [0, 3, 67]:
        yield from spread(kernels, [f"{offset}-"], [f"{offset}+"])


def long_kernels(length, row_step, rank_step):
    """One row in so many is chosen, and one rank in so many."""
    rows = repeating(length, row_step, 1)
    yield from spread(by_each_kernel(rows, repeating(rows.count("1"), rank_step, 1)), ["0+", "3-"], ["0+", "5-"])


def caches_indices(rows, ranks, cached):
    """A clone has its operand's lists, and of two mixed masks those paths cache indices that find them one by one."""
    if rows.is_all_true or ranks.is_all_true:
        return cached[1] if rows.is_all_true else cached[0]
    return rank_path(rows, ranks, cached) in ONE_BY_ONE


def densities(length, threshold):
    """Each value is true in so many of 1,024 cases."""
    for of_ranks in THRESHOLDS:
        source = words(STATE)
        rows = mask(drawn(source, length, (1_024, 0, threshold)))
        ranks = mask(drawn(source, rows.values.count("1"), (1_024, 0, of_ranks)))
        for cached in [(False, False), (True, False), (False, True), (True, True)]:
            lists = "i" * caches_indices(rows, ranks, cached)
            operands = [f"{'i:' * it}{mark}{text(of.values)}" for it, mark, of in zip(cached, "@%", (rows, ranks))]
            want, path = narrowed_mask(rows, ranks), rank_path(rows, ranks, cached)
            left = cached_text(want, lists)
            counted = f"{left} steps {steps_text(path, rows.values, want.values)}"
            answers = {"intersect_by_rank": left, "intersect_by_rank_counted": counted}
            answers |= {"rank_path": path} if path else {}
            of_both = [f"{call} {' '.join(operands)} -> {told}" for call, told in answers.items()]
            yield from beside_each_other(of_both, [0, 3, 67])


SECTIONS = {
    "long masks": ([*zip(LONG[::-1])], long_masks),
    "long buffers": ([*zip(LONG[::-1])], long_buffers),
    "long kernels": ([(length, *it) for length in LONG[:0:-1] for it in [(3, 2), (3, 64), (100, 2)]], long_kernels),
    "many masks": ([*zip([65_537, 1_001, 1_000, 65, 64, 63, 1, 0])], many_masks),
    "masks": ([(length, start) for length in range(200, -1, -1) for start in (0, 32)], masks),
    "masks of one value": ([*zip([0, 1, 63, 64, 65, 200])], masks_of_one_value),
    "buffers": ([*zip(range(130, -1, -1))], buffers),
    "boolean calls": ([*zip([0, 1, 63, 64, 65, 128, 129, 130])], pairs_of_offsets),
    "nulls": ([*zip(range(200, -1, -1))], nullable_pairs),
    "builders": ([*zip([*range(9), 62, 63, 64, 65, 66, 10_003])], builders),
    "words": ([(n, n + 5_000) for n in range(0, 20_000, 5_000)], words_at_random),
    "runs": ([()], runs),
    "densities": ([(length, it) for length in (4_096, 1_000, 65, 64, 63, 1) for it in THRESHOLDS], densities),
}
# A short share of each section, which has each call of it.
SHORT = {
    "long masks": (65,), "long buffers": (65,), "long kernels": (65, 3, 2), "many masks": (3,), "masks": (65, 0),
    "masks of one value": (1,), "buffers": (9,), "boolean calls": (9,), "nulls": (9,), "builders": (1,), "words": (0, 7),
    "runs": (), "densities": (65, 512),
}


def names():
    """The names of the calls that the sections make."""
    rows = (row for section, (_, rows_of) in SECTIONS.items() for row in rows_of(*SHORT[section]))
    return {name for row in rows for name in row.split(" ")[0].split(",")}
