"""The rows of `crates/mask_tests/refused`: each call of a mask of its tables with what it answers by a plain list."""
import pathlib
import re

from plain import answer, indices, list_text, mask, negated, ranges, text

FILE = pathlib.Path(__file__).resolve().parent.parent / "crates" / "mask_tests" / "refused"
EACH = "indices,one_rank,ranges,both,bits"
FIRST_ROW = 100


def filled(length, listed):
    """So many values, true at the indices and in the ranges that are listed."""
    values = ["0"] * length
    for it in listed.split(",") if listed != "-" else ():
        start, _, end = it.partition("..")
        last = int(end) if end else int(start) + 1
        values[int(start) : last] = "1" * (last - int(start))
    return "".join(values)


def values_of(word):
    """The list of a word: as rows write it, `but:5:1,3` that is false at 1 and 3 alone, and `edges:64:128` that is true
    at the first and the last of each 64."""
    form, *rest = re.sub("^[ir]+:", "", word).split(":")
    if form in ("all", "none"):
        return "01"[form == "all"] * int(rest[0])
    if form in ("every", "first", "edges"):
        step, length = map(int, rest)
        is_true = {"every": lambda i: i % step == 0, "first": lambda i: i < step}
        return "".join("01"[is_true.get(form, lambda i: i % step in (0, step - 1))(i)] for i in range(length))
    if form == "but":
        return negated(filled(int(rest[0]), rest[1]))
    return filled(int(rest[0]), rest[1]) if form == "at" else filled(int(form), rest[0])


def caches_of(word):
    """Which lists a mask by this word caches: `i` for indices, `r` for ranges."""
    lists, made = re.fullmatch(r"(?:([ir]+):)?(?:\d+:([\d.,]+))?.*", word).groups(default="")
    return lists + ("r" if ".." in made else "i") * bool(made)


def of_mask(line, call):
    """The row of a call of a mask of the tables."""
    _, _, length, word, other, start, end, listed = line.split()
    values = values_of(word)
    stands = {"A": word, "B": other, "S": start, "E": end, "I": listed, "L": length, "V": text(values)}
    stands |= {"T": list_text(indices(values)), "F": list_text(indices(negated(values))), "N": "1" * len(values)}
    stands |= {"R": list_text(ranges(values)), "ROWS": list_text(FIRST_ROW + i for i in range(len(values)))}
    name, *words = call.split()
    words = [stands.get(it.strip("&"), it.strip("&")) + "&" * it.endswith("&") for it in words]
    numbers = [int(it) for word in words[1:] for it in word.split(",") if it.isdecimal()]
    want = answer(name, mask(values), mask(values_of(other)), numbers, caches_of(word))
    return f"{name} {' '.join(words)} -> {want}"


def written(found):
    what, _, word = found[1].rpartition(" of ")
    values = values_of(word)
    return list_text({"ranges": ranges, "indices": indices}[what](values)) if what else text(values)


def rows():
    """The group, the name and the row of each scenario."""
    group, masks = "", []
    for line in re.findall("^[^#\n].*", FILE.read_text(), re.M):
        named = re.match(r"([\w/,]+): (.*)", line)
        if line.startswith("["):
            group = line.strip("[]")
        elif group == "masks":
            masks.append(line)
        elif " -> " in line:
            name, row = named.groups() if named else (line.split(" -> ")[0], line)
            yield group, name, re.sub(r"\{(\w[^{} ]*|\w+ of [^{} ]+)\}", written, row)
        else:
            kinds = named[1].replace("each", EACH).split(",")
            for it in (it for it in masks if it.split()[0] in kinds):
                yield group, f"{it.split()[1]}: {named[2]}", of_mask(it, named[2])
