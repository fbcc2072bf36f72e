"""What is changed in what is left of a source."""
import collections
import re

from erasing import marks
from erasing.tokens import Fault, Masked

# Each crate's sources, where they go, and the path of that place's root.
PLACES = {
    "mask_bits": ("src/proved/mask_bits", "crate::proved::mask_bits"),
    "vortex_mask": ("src/proved/vortex_mask", "crate::proved::vortex_mask"),
    "mask_c": ("src/proved/mask_c", "crate::proved::mask_c"),
    "maskrun": ("src/bin/maskrun", "crate"),
    "mask_tests": ("tests/calls", "crate"),
    "mask_bench": ("tests/jobs", "crate"),
}
INSIDE = ["mask_bits", "vortex_mask", "mask_c"]
KIT = {it: "crate::kit" if it in INSIDE else "::row_mask::kit" for it in PLACES}
GONE = {"std::alloc::Global", "std::marker::Model", "thiserror::Error", "std::rt::Env"}
# Where these paths stand outside the package's own modules, and inside.
ELSEWHERE = [
    {
        "mask_bits::extract::extract": "::row_mask::intersect_by_rank::extract",
        "std::env": "crate::host::env",
        "std::io": "crate::host::io",
        "std::io::BufRead": "crate::host::BufRead",
        "std::io::BufReader": "crate::host::BufReader",
    },
    {},
]
for inside, kit in enumerate(["::row_mask::kit", "crate::kit"]):
    ELSEWHERE[inside] |= {
        "bytes::Bytes": f"{kit}::Bytes",
        "bytes::BytesMut": f"{kit}::BytesMut",
        "std::alloc::AllocError": f"{kit}::AllocError",
        "std::alloc::AllocFailed": f"{kit}::AllocFailed",
        "std::borrow::CowSlice": f"{kit}::CowSlice",
        "std::rc::Rc": f"{kit}::Arc",
        "std::simd::prelude::*": f"{kit}::lanes::*",
    }
# What Rust has in `core`, by these names.
CORE = {
    "std::fmt",
    "std::fmt::Debug",
    "std::fmt::Display",
    "std::marker::PhantomData",
    "std::mem",
    "std::mem::size_of_val",
}
SAME = {"std::process::ExitCode"}
# What only the package's own calls do.
QUICKEST = "the processor's deposits"
# Tests of rows that calls by hand hand on to private functions may count what they are asked.
CLOSURES = "tests of rows"
ALLOCATOR = r"(?:\w+\.)*alloc\b(?!\s*[:(!])"
# Methods of Rust's own lists, texts and iterators that end the program where memory is refused, or have another meaning,
# and what `kit` has in their place.
RENAMED = {
    "collect": "try_collected",
    "push": "try_push",
    "push_str": "try_push_str",
    "resize": "try_resize",
    "shrink_to_fit": "shrink_or_stay",
    "to_vec": "try_to_vec",
}
# Types and traits that have another name here, or a function that has, which no other one may have the name of.
RUSTS_OWN = ["Arc", "Clone", "Rc", "String", "TryClone", "Vec"]
# What the name of a call with conditions has behind it where it tests nothing.
PROVED = "_proved"
# Methods that Rust's pointers have beside those of what they point to.
OF_POINTERS = "as_mut as_ref borrow borrow_mut clone cmp eq fmt ge gt hash into le lt max min ne partial_cmp to_string".split()
LISTS = "lists and texts"
CALLS = "calls inside the package"
PUBLIC = "calls of programs by public names"
RULES = [
    ("the allocator", r",\s*\$alloc(:ident)?", ""),
    ("the allocator", r"let \$alloc = \$o\.alloc;", ""),
    ("the allocator", r"\(\$alloc\)", "()"),
    ("the allocator", r"(pub(\(crate\))?\s+)?\balloc: Global,\s*", ""),
    ("the allocator", r"vec!\[in alloc; ([^;\]]+); ([^\]]+)\]", r"{kit}::filled(\1, \2)"),
    ("the allocator", r"\brt\.alloc\(\),\s*", ""),
    ("the allocator", r"\(\s*rt\.alloc\(\)\s*\)", "()"),
    ("the allocator", rf"\b{ALLOCATOR},\s*", ""),
    ("the allocator", rf"\(\s*{ALLOCATOR}\s*\)", "()"),
    ("laws", r"\b(?:mask_bits::|vortex_mask::|crate::)?laws::\w+(?:::<[^>]*>)?\((?:[^()]|\([^()]*\))*\);", ""),
    ("`prove!(..)`", r"\bprove!\((?:[^()]|\([^()]*\))*\);", ""),
    *((LISTS, rf"((?:\bfn|::)\s*|(?<!\.)\.\s*(?={it}\s*(?:\(|::))){it}\b", rf"\1{here}") for it, here in RENAMED.items()),
    (LISTS, r"\b(Vec|String)::with_capacity\(", r"\1::with_room("),
    (LISTS, r"\bRc::new\(", "{kit}::shared("),
    ("`Rc`", r"\bRc\b", "Arc"),
    ("the bound `Clone`", r"(?<=[:+] )Clone\b", "TryClone"),
    ("modules", r"(?<![\w:])std::mem::", "::core::mem::"),
    ("`fmt`", r"fn fmt<W: fmt::Write>\(&self, f: &mut fmt::Formatter<W>\)", "fn fmt(&self, f: &mut fmt::Formatter<'_>)"),
    ("the program's handle", r"\b(e?println)!\(rt;\s*", r"crate::host::\1!(rt; "),
    (CLOSURES, r"\bF: Fn(\(&T\) -> bool>\([^()]*\btest: &)F\b", r"F: FnMut\1mut F"),
    (CLOSURES, r", &test\)", ", &mut { test })"),
]
LEFT = re.compile(r"\b(ghost|requires|ensures|tactic|Model|alloc|Global|laws|prove|unreachable_unchecked)\b|[^\x00-\x7f]")


LAW = re.compile(r"\blaws::\w+(?:::<[^>]*>)?\(((?:[^()]|\([^()]*\))*)\)")


def without_effect(text):
    """Refuses calls of laws that may do something: these are taken out with all that stands in them.

    >>> without_effect("laws::runs_are_the_list(&ranges); laws::f::<u8>(a, &b.c);")
    >>> without_effect("laws::f(cut(&mut v));")
    Traceback (most recent call last):
    erasing.tokens.Fault: `laws::f(cut(&mut v))` may do something
    >>> without_effect("laws::f(&mut v);")
    Traceback (most recent call last):
    erasing.tokens.Fault: `laws::f(&mut v)` may do something
    """
    for it in LAW.finditer(text):
        if not re.fullmatch(r"[\s&\w.,:]*", it[1]) or re.search(r"\bmut\b", it[1]):
            raise Fault(f"`{it[0]}` may do something")


def changed(crate, text, found, twins, names=()):
    """The text by all rules, with calls of those that have the body, or in programs by their public names."""
    masked = Masked(text)
    without_effect(masked.text)
    for rule, pattern, into in RULES:
        into = into.replace("{kit}", KIT[crate]).replace("{root}", PLACES[crate][1])
        masked.text, count = re.subn(pattern, into, masked.text)
        found[rule][0] += count
    if crate in INSIDE:
        types, replaced = marks.instead("struct", "by instruction"), marks.instead("fn", "replaced by")
        masked.text = by_instruction(masked.text, types, replaced, found)
        masked.text = by_body(masked.text, twins, marks.lawful(), found)
    else:
        masked.text = by_public_name(masked.text, dict(names), found)
    if left := LEFT.search(masked.text):
        line = masked.text[: left.start()].count("\n")
        raise Fault(f"`{left[0]}` is left: {masked.text.splitlines()[line].strip()}")
    return masked.shown()


def by_instruction(text, types, replaced, found):
    """Has calls inside the package go to what is marked as quicker, or as standing in their place.

    >>> made = lambda text: by_instruction(text, {"A": "native::B"}, {"f": "native::g"}, {QUICKEST: [0, 0]})
    >>> made("h::<A, _>(a)"), made("A::h(a)")
    ('crate::native::quickest!(h::<native::B, _>(a), h::<A, _>(a))', 'crate::native::quickest!(native::B::h(a), A::h(a))')
    >>> made("fn f(n: u8) { f(n); a.f }")
    'fn f(n: u8) { native::g(n); a.f }'
    """
    for name, there in types.items():
        into = rf"crate::native::quickest!(\g<on>{there}\g<rest>, \g<on>{name}\g<rest>)"
        of_type = rf"\b(?P<on>[\w:]+::<){name}(?P<rest>(?:, _)*>\([^()]*\))"
        for call in (of_type, rf"\b(?P<on>){name}(?P<rest>::[a-z_]\w*\([^()]*\))"):
            text, count = re.subn(call, into, text)
            found[QUICKEST][0] += count
    for name, there in replaced.items():
        text, count = re.subn(rf"(?<!fn )\b{name}\(", f"{there}(", text)
        found[QUICKEST][0] += count
    return text


def by_body(text, twins, lawful, found):
    """Has calls inside the package go to what has the body, and tests nothing. A call by a type's path goes there where that
    type has one, and a method's call where any type has one of the name: other types have a method of both names.

    >>> twins = {("A", "set"), ("A", "new"), ("D", "bits")}
    >>> by_body("a.set(i); A::new(b); B::new(b); a.new(); T::bits(1); A::set; f::set(i)", twins, ["D"], {CALLS: [0, 0]})
    'a.set_proved(i); A::new_proved(b); B::new(b); a.new_proved(); T::bits_proved(1); A::set; f::set(i)'
    """
    methods = {name for _, name in twins}
    of_traits = {name for of, name in twins if of in lawful}

    def renamed(match):
        on, name = match["on"], match["name"]
        fits = name in methods if on == "." else (on.removesuffix("::"), name) in twins or name in of_traits
        found[CALLS][0] += fits
        return match[0].replace(name, name + PROVED, 1) if fits else match[0]

    return re.sub(r"(?P<on>(?<!\.)\.|\b[A-Z]\w*::)(?P<name>\w+)(::<[^()]*?>)?\(", renamed, text)


def by_public_name(text, names, found):
    """Has calls of programs go to methods by their public names: by a type's path where that type has it, and a method's call
    always, since all public methods of one name in the sources have one public name."""
    methods = {name: public for (_, name), public in names.items()}

    def renamed(match):
        on, name = match["on"], match["name"]
        public = methods.get(name) if on == "." else names.get((on.removesuffix("::"), name))
        found[PUBLIC][0] += public is not None
        return f"{on}{public or name}{match['behind']}"

    return re.sub(r"(?P<on>(?<!\.)\.|\b[A-Z]\w*::)(?P<name>\w+)(?P<behind>(?:::<[^()]*?>)?\()", renamed, text)


class Counts(collections.defaultdict):
    """Places and lines, by rule; and conditions, by form."""

    def __init__(self):
        super().__init__(lambda: [0, 0])
        self.forms = collections.defaultdict(list)
