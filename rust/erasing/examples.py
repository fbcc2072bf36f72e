"""Where the documentation of a public method leads to an example: a section of a page that calls it, or the method by hand
whose name it had in the source, which has an example of its own."""
import re
from functools import cache
from pathlib import Path

from erasing.tokens import Fault

PAGE = Path(__file__).resolve().parent.parent / "src" / "examples.md"
# The types of which each public method has an example, and others of which some have another public name.
SHOWN, NAMED = {"Mask"}, {"AllOr", "BitBuffer", "BitBufferMut", "MaskValues"}

# The head of an implementation, or a method: its documentation, whether it is public, and its name.
METHOD = re.compile(r"^impl(?:<.*?>)? (.+) \{|((?:^    ///.*\n)*)(?:^    #\[.*\n)*^    (pub )?(?:const )?fn (\w+)", re.M)
# Folders of `src` with no methods by hand in the places of others.
ELSEWHERE = {"bin", "kit", "native", "proved"}
# Methods that are operators in Rust.
OPERATORS = {"bitand": "&", "bitor": "|", "not": "!", "into_bitand": "&", "into_bitor": "|", "into_not": "!"}


@cache
def sections(text=None):
    """The sections of the page by their anchors."""
    text = PAGE.read_text() if text is None else text
    parts = re.split(r"^## (.+)\n", text, flags=re.M)[1:]
    return {title.lower().replace(" ", "-"): part for title, part in zip(parts[::2], parts[1::2])}


@cache
def by_hand():
    """The methods by hand, each with its type, and with whether its documentation has an example, or nothing if it is of a
    trait, which has the documentation.

    >>> by_hand()["Mask", "limit"], by_hand()["Mask", "clone"], ("Mask", "try_limit") in by_hand()
    (True, None, False)
    """
    found = {}
    for path in sorted(PAGE.parent.rglob("*.rs")):
        of = None
        text = path.read_text() if path.relative_to(PAGE.parent).parts[0] not in ELSEWHERE else ""
        for head, docs, is_public, name in METHOD.findall(text):
            of = re.sub(r"\W.*", "", head.rpartition(" for ")[2].lstrip("&")) if head else of
            if name:
                found.setdefault((of, name), "```" in docs if is_public else None)
    return found


def leads_to(of, name, public, found=None):
    """The line of documentation that leads to an example, or nothing.

    >>> found = sections("# Page\\n\\n## Two words\\na.len(); Mask::new(1)\\n")
    >>> leads_to("Mask", "len", "len", found), leads_to("Mask", "new", "new", found)
    ('[Example](crate::examples#two-words)', '[Example](crate::examples#two-words)')
    >>> leads_to("Mask", "limit", "try_limit", found)
    '[`limit`](Self::limit) is the same where missing memory ends the process, and has an example.'
    >>> leads_to("Mask", "density", "share", found), leads_to("BitBuffer", "not", "try_not", found)
    ('[`density`](Self::density) has an example.', 'The operator `!` is the same where missing memory ends the process.')
    >>> leads_to("Words", "len", "len", found), leads_to("Words", "not", "try_not", found)
    ('', '')
    >>> leads_to("Mask", "cut", "cut", found)
    Traceback (most recent call last):
    erasing.tokens.Fault: src/examples.md has no example of Mask::cut
    >>> leads_to("Mask", "cut", "try_cut", found)
    Traceback (most recent call last):
    erasing.tokens.Fault: src has no Mask::cut by hand, beside Mask::try_cut
    """
    if of not in SHOWN | NAMED or of in NAMED and public == name:
        return ""
    if (sign := OPERATORS.get(name)) and public == f"try_{name}":
        leads = ", and has an [example](crate::examples#combining-masks)" if of in SHOWN else ""
        return f"The operator `{sign}` is the same where missing memory ends the process{leads}."
    says = ["is the same where missing memory ends the process"] if public == f"try_{name}" else []
    if public != name:
        if (of, name) not in by_hand():
            raise Fault(f"src has no {of}::{name} by hand, beside {of}::{public}")
        has_one = by_hand()[of, name]
        if of in SHOWN and has_one is False:
            raise Fault(f"{of}::{name}, which is by hand, has no example")
        says += ["has an example"] if of in SHOWN and has_one else []
        return f"[`{name}`](Self::{name}) {', and '.join(says or ['is the same'])}."
    for anchor, text in (sections() if found is None else found).items():
        if re.search(rf"(?:\.|\b{of}::){name}\(", text):
            return f"[Example](crate::examples#{anchor})"
    raise Fault(f"src/examples.md has no example of {of}::{name}")
