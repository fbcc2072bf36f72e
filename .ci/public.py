"""The public calls, which of them are hidden from users, and the tables of the pages that name them."""
import re
from functools import cache

from source import CRATES, ROOT, exported_types, functions_of, library_crates, module_of

# Pages that scripts read.
API_MAP, CONTRACTS, DIFFERENCES = "docs/API_MAP.md", "docs/READING_CONTRACTS.md", "docs/DIFFERENCES.md"


def cells_of(row):
    return [it.strip() for it in re.split(r"(?<!\\)\|", row)[1:-1]]


def rows(page, titles):
    """The cells of each row, of a page's tables with these titles."""
    for table in re.findall(rf"^{re.escape(titles)}\n\|-.*\n((?:\|.*\n)*)", (ROOT / page).read_text(), re.M):
        yield from (it for it in map(cells_of, table.splitlines()) if len(it) == len(cells_of(titles)))


def public_functions():
    """The public functions of the library crates, each after its name with its crate."""
    return [(f"{crate}::{it.name}", it) for crate in library_crates() for it in functions_of(crate) if it.is_public]


@cache
def hidden(crate):
    """The modules and functions that a library's root exports for the other crates here alone."""
    exported = r"^#\[doc\(hidden\)\]\npub (?:mod|use) (?:\w+::)*(\w+|\{[^}]*\});"
    found = re.findall(exported, (CRATES / crate / "src/lib.rt").read_text(), re.M)
    return {name for it in found for name in re.findall(r"\w+", it)}


@cache
def handed_on(crate):
    """The names that modules for users hand on from others."""
    shown = {*re.findall(r"^pub mod (\w+);", (CRATES / crate / "src/lib.rt").read_text(), re.M)} - hidden(crate)
    texts = (it.read_text() for it in (CRATES / crate / "src").glob("*.rt") if it.stem in shown)
    uses = (use for text in texts for use in re.findall(r"^pub use [\w:]+::(\w+|\{[^}]*\});", text, re.M))
    return {name for use in uses for name in re.findall(r"\w+", use)}


def is_hidden(crate, function):
    """Whether users aren't shown a public function. A method of an exported type is called by way of the type."""
    owner, call = function.name.split("::")
    if f"#[doc(hidden)]\n    pub fn {call}(" in function.file.read_text():
        return True
    is_inside = owner not in exported_types(crate) and hidden(crate) & {*module_of(function.file)[:1], call}
    return bool(is_inside) and call not in handed_on(crate)
