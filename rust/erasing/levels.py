"""Functions that are compiled for the processor that a program runs on, beside the one that it is compiled for."""
import re

from erasing import marks
from erasing.tokens import TOKEN

# What x86-64-v3 has above plain x86-64, as far as loops gain by it.
FEATURES = "avx2,bmi1,bmi2,f16c,fma,lzcnt,movbe,popcnt"
# What x86-64-v4 has above that, and that with VPOPCNTDQ.
MORE_FEATURES = {"v4": "avx512f,avx512bw,avx512cd,avx512dq,avx512vl"}
MORE_FEATURES["vpopcntdq"] = MORE_FEATURES["v4"] + ",avx512vpopcntdq"
# What 64-bit ARM may have, as far as the instructions for bits at set places go.
ARM_FEATURES = "sve2-bitperm"


def levelled(function, of, body, marked):
    """The body that goes to the function for the processor, and the functions that it goes to.

    >>> from erasing.items import Function
    >>> from erasing.marks import Marks
    >>> from erasing.tokens import Source
    >>> source = Source("fn f(a: u8) {}")
    >>> made, more = levelled(Function(source, 0, len(source.tokens) - 3), None, "{ g(a) }", Marks(["level"]))
    >>> made
    '{ crate::native::by_level!(f_v3(a), f_any(a)) }'
    >>> print(more.strip())
    #[cfg(target_arch = "x86_64")]
    #[target_feature(enable = "avx2,bmi1,bmi2,f16c,fma,lzcnt,movbe,popcnt")]
    fn f_v3(a: u8) { f_any(a) }
    <BLANKLINE>
    #[inline(always)]
    fn f_any(a: u8) { g(a) }
    """
    most, v3, of_any = (f"{function.name}_{it}" for it in (marked.most, "v3", "any"))
    place = "Self" if of else None
    calls = [function.call(it, place, []) for it in (v3, of_any)]
    first = function.call(f"{function.name}_by_instruction", place, []) + ", " if marked.has("copied by instruction") else ""
    body = inner(body)
    copy = f"""#[cfg(target_arch = "x86_64")]
#[target_feature(enable = "{FEATURES}")]
#[target_feature(enable = "{MORE_FEATURES[marked.most]}")]
{function.signature(most, "")} {{ {calls[1]} }}

""" if marked.most else ""
    more = f"""

#[cfg(target_arch = "x86_64")]
#[target_feature(enable = "{FEATURES}")]
{function.signature(v3, "")} {{ {calls[1]} }}

{copy}#[inline(always)]
{function.signature(of_any, "pub(crate) " if marked.has("called at its level") else "")} {body}
"""
    which = marked.level
    if marked.most:
        gains = f"{marked.where or 'true'}, " if marked.most == "v4" else ""
        which, first = f"{which}_to_{marked.most}", gains + function.call(most, place, []) + ", "
    if marked.much:
        which, first = f"{which}_if", f"{marked.much}, {first if marked.most else ''}"
    return f"{{ crate::native::by_{which}!({first}{calls[0]}, {calls[1]}) }}", more


def inner(body):
    """The body with calls of the functions of its own level."""
    for name, path in marks.inner().items():
        body = re.sub(rf"\b{name}(?=\(|::<)", path, body)
    return body


def copied(function, body, is_levelled):
    """A copy of a function that takes bits by the instruction."""
    for name, there in marks.instead("fn", "by instruction").items():
        body = re.sub(rf"\b{name}\(", f"{there}(", body)
    how = f"""#[cfg_attr(target_arch = "x86_64", target_feature(enable = "{FEATURES}"))]
#[cfg_attr(target_arch = "aarch64", target_feature(enable = "{ARM_FEATURES}"))]""" if is_levelled else "#[inline(always)]"
    return f"""

#[cfg(any(target_arch = "x86_64", target_arch = "aarch64"))]
{how}
{function.signature(f"{function.name}_by_instruction", "")} {body}
"""


FN = re.compile(r"\bfn (\w+)")


def called(text):
    """The names that each function of a text calls, by its name.

    >>> sorted(called("fn f(a: u8) { g(a); a.h::<u8>() } /// Asks for `k(1)`.\\nfn g(a: u8) {}")["f"])
    ['g', 'h']
    """
    text = "".join(m[0] for m in TOKEN.finditer(text) if m.lastgroup != "comment")
    found = {}
    heads = list(FN.finditer(text))
    for head, behind in zip(heads, [*heads[1:], None]):
        body = text[head.end() : behind.start() if behind else len(text)]
        names = set(re.findall(r"\b([a-z_]\w*)(?:::<[^()]*?>)?\(", body))
        found.setdefault(head[1], set()).update(names)
    return found


def within(texts):
    """The names of the functions that the levelled ones stand on, which are put into them always."""
    calls = {}
    for text in texts:
        for name, names in called(text).items():
            calls.setdefault(name, set()).update(names)
    found, left = set(), list(marks.roots())
    while left:
        for name in calls.get(left.pop(), set()) - found:
            if name in calls and f"{name}_any" not in calls:
                found.add(name)
                left.append(name)
    return found


def put_in(text, names, found):
    """Has these functions inlined always."""
    def always(match):
        if match["name"] not in names:
            return match[0]
        found["inlining"][0] += 1
        return match[0].replace("#[inline]", "#[inline(always)]", 1)

    return re.sub(r"#\[inline\]\s*(?:///[^\n]*\n\s*)*(?:pub(?:\([^)]*\))? )?fn (?P<name>\w+)", always, text)

