"""Names that are others in Rust than in the sources. Each is another one at every definition and every call, so that types
tell which call is meant, as they do in a source. What would be taken for another one's name is refused."""
import copy
import re

from erasing import marks
from erasing.changes import INSIDE, OF_POINTERS, PROVED, RENAMED, RUSTS_OWN
from erasing.tokens import Fault

# Names that Rust's own types have too, so that the package's own calls keep them.
KEPT = {*OF_POINTERS, *RENAMED}


class Names:
    """What an erasure does about names, and which it refuses.

    >>> from erasing.changes import Counts, changed
    >>> from erasing.items import Erasure
    >>> from erasing.tokens import Source
    >>> def made(text, known=(), public=()):
    ...     erasure = Erasure("mask_bits", Source(text), public, set(), Counts(), known)
    ...     text = changed("mask_bits", erasure.all(), Counts(), set(known))
    ...     return " ".join(text.replace("#[inline]", "").split())

    A type's own methods are renamed with its calls of them, and of lists. Its `clone` and `to_string` have their names.

    >>> made("impl A { fn push(&mut self, a: u8) { self.list.push(a)?; self.push(a) } }")
    'impl A { fn try_push(&mut self, a: u8) { self.list.try_push(a)?; self.try_push(a) } }'
    >>> made("impl A { fn collect(&self) {} fn resize<T>(&self) {} }")
    'impl A { fn try_collected(&self) {} fn try_resize<T>(&self) {} }'
    >>> made("fn f(a: &A) { a.collect(); A::resize::<u8>(a); map(A::collect) }")
    'fn f(a: &A) { a.try_collected(); A::try_resize::<u8>(a); map(A::try_collected) }'
    >>> made("impl A { fn clone(&self) {} } fn f(a: &A, push: u8) { a.clone(); a.push + push }")
    'impl A { fn clone(&self) {} } fn f(a: &A, push: u8) { a.clone(); a.push + push }'

    Where a call has conditions, another type's method of the name has both names.

    >>> made("fn f(a: &A, b: &B) { a.set(1); b.set(1) }", [("A", "set")])
    'fn f(a: &A, b: &B) { a.set_proved(1); b.set_proved(1) }'
    >>> made("impl B { fn set(&self, a: u8) { go(a) } }", [("A", "set")])
    'impl B { fn set(&self, a: u8) { self.set_proved(a) } fn set_proved(&self, a: u8) { go(a) } }'
    >>> made("impl Iterator for B { fn set(&self) {} }", [("A", "set")])
    Traceback (most recent call last):
    erasing.tokens.Fault: source:1: a trait's method has the name `set` of a call with conditions
    >>> made("impl A { fn clone(&self) {} }", [("A", "clone")])
    Traceback (most recent call last):
    erasing.tokens.Fault: source:1: a call with conditions has the name `clone` of one that pointers have

    A public method keeps its name, unless a mark says another one.

    >>> made("impl A { pub fn push(&mut self) {} }", public=["A"])
    Traceback (most recent call last):
    erasing.tokens.Fault: source:1: `push` is renamed, and public: a mark has to say its public name
    >>> made("impl A {\\n// rust: named add\\npub fn push(&mut self) {} }", public=["A"])
    'impl A { pub fn add(&mut self) {} #[inline(always)] pub(crate) fn try_push(&mut self) { self.add() } }'
    >>> made("impl A {\\n// rust: named add\\nfn push(&mut self) {} }", public=["A"])
    Traceback (most recent call last):
    erasing.tokens.Fault: source:3: only a public method can have another name

    Where the name of the source isn't one of Rust's lists or pointers, it is left to a method by hand. The package's own calls
    go to what has the body, and programs call the public one.

    >>> made("impl A {\\n// rust: named try_cut\\npub fn cut<I: Iterator<Item = u8>>(it: I) -> bool { f(it) } }", public=["A"])
    'impl A { pub fn try_cut<I: IntoIterator<Item = u8>>(it: I) -> bool { A::cut_proved::<_>(it.into_iter()) } \
pub(crate) fn cut_proved<I: Iterator<Item = u8>>(it: I) -> bool { f(it) } }'
    >>> made("impl A {\\n// rust: named try_cut\\n// rust: by hand\\npub fn cut(&self) {} fn g() {} }", public=["A"])
    'impl A { fn g() {} }'
    >>> changed("maskrun", "a.cut(1); A::cut(1); B::cut(1); a.cut; f::cut(1)", Counts(), set(), {("A", "cut"): "try_cut"})
    'a.try_cut(1); A::try_cut(1); B::cut(1); a.cut; f::cut(1)'

    What a call might be taken for is refused.

    >>> made("impl A { fn try_push(&self) {} }")
    Traceback (most recent call last):
    erasing.tokens.Fault: source:1: `try_push` is a name that is made
    >>> made("fn push() {}")
    Traceback (most recent call last):
    erasing.tokens.Fault: source:1: a function that is no method has the name `push` of those of Rust's lists
    >>> made("mod push;")
    Traceback (most recent call last):
    erasing.tokens.Fault: source:1: a module has the name `push` of a method of Rust's lists
    >>> made("struct Vec { a: u8 }")
    Traceback (most recent call last):
    erasing.tokens.Fault: source:1: a type has the name of Rust's own `Vec`
    >>> made("use crate::list::Vec;")
    Traceback (most recent call last):
    erasing.tokens.Fault: source:1: `use crate::list::Vec` has the name of Rust's own
    >>> made("use crate::mask::{Mask as Rows};")
    Traceback (most recent call last):
    erasing.tokens.Fault: source:1: `use crate::mask::Mask as Rows` gives another name
    >>> made("methods! { push }")
    Traceback (most recent call last):
    erasing.tokens.Fault: source:1: `push` is renamed, and a macro may make another call of it
    """

    def see_public_name(self, j, function, context):
        """Notes the public name of a method that has another one here."""
        kind, of = context
        if kind != "impl" or not self.is_public(function, context):
            self.source.fault(j, "only a public method can have another name")
        self.count("public names")
        if function.name not in KEPT:
            self.names[of, function.name] = self.marks.named

    def kept_name(self, j, function, context, clauses):
        """The function under its public name, and a call of it under its own one, which only the package has."""
        kind, of = context
        if any(it[0] == "requires" for it in clauses):
            self.source.fault(j, f"a call with conditions has the name `{function.name}` of Rust's own")
        public = copy.copy(function)
        public.name = self.marks.named
        body = f"{{ {public.call(public.name, of, [])} }}"
        return public, f"\n\n#[inline(always)]\n{function.signature(before=crates_own(function))} {body}"

    def see_name(self, j, function, context):
        """Refuses a name that would be taken for another one's."""
        kind, of = context
        name, is_twin = function.name, (of, function.name) in self.known
        if name in RENAMED.values() or name.endswith(PROVED):
            self.source.fault(j, f"`{name}` is a name that is made")
        if name in RENAMED and kind == "file":
            self.source.fault(j, f"a function that is no method has the name `{name}` of those of Rust's lists")
        if name in RENAMED and self.is_public(function, context):
            self.source.fault(j, f"`{name}` is renamed, and public: a mark has to say its public name")
        if name in OF_POINTERS and is_twin:
            self.source.fault(j, f"a call with conditions has the name `{name}` of one that pointers have")
        if kind != "impl" and not is_twin and self.is_named_as_twin(function, context):
            self.source.fault(j, f"a trait's method has the name `{name}` of a call with conditions")

    def is_named_as_twin(self, function, context):
        """Whether calls of it are taken for some of a call with conditions, of another type."""
        kind, of = context
        if self.crate not in INSIDE or kind == "file" or (of.partition(" for ")[0], function.name) in self.known:
            return False
        others = [it for it, name in self.known if name == function.name]
        return bool(others) and (function.is_method() or any(it in marks.lawful() for it in others))

    def by_types(self, function, context, before, body, more):
        """The body of a method that is named as a call with conditions goes to a method with that one's other name."""
        if not self.is_named_as_twin(function, context):
            return body, more
        self.count("methods that are named as calls with conditions")
        name = function.name + PROVED
        attributes = "".join(f"{it}\n" for it in before.splitlines() if it.strip().startswith("#["))
        twin = f"\n\n{attributes}{function.signature(name, crates_own(function))} {body}"
        return f"{{ {function.call(name, context[1], [])} }}", twin + more

    def see_type(self, j, end):
        """Refuses a type with a name of Rust's own of which a function is renamed."""
        name = self.source.word(j, end)
        if name in RUSTS_OWN:
            self.source.fault(j, f"a type has the name of Rust's own `{name}`")
        self.types.append((name, self.source.place(j)))

    def see_module(self, j, name):
        """Refuses a module whose name would be taken for a method's."""
        if name in RENAMED:
            self.source.fault(j, f"a module has the name `{name}` of a method of Rust's lists")

    def see_import(self, j, path):
        """Refuses an import that gives a name to something else than the name says."""
        if " as " in path and not path.endswith(" as _"):
            self.source.fault(j, f"`use {path}` gives another name")
        if path.rpartition("::")[2] in RUSTS_OWN and not path.startswith("std::"):
            self.source.fault(j, f"`use {path}` has the name of Rust's own")

    def see_macro(self, i, end):
        """Refuses a macro that may define or call what it is given the name of."""
        for k in range(i, end):
            word = self.source.tokens[k][1]
            if word in RENAMED and not re.search(r"(\.|::|\bfn)\s*\Z", self.source.text(max(i, k - 3), k)):
                self.source.fault(k, f"`{word}` is renamed, and a macro may make another call of it")


def alike(names, inside, of_programs=()):
    """Refuses public names by which a program's call could go to another method than in the source. Methods are known by their
    kinds, types and names. (Where a type has no method of a name, the compiler says so.)

    >>> names = {("A", "set"): "try_set", ("B", "set"): "try_set"}
    >>> alike(names, [("impl", it, "set") for it in "ABC"], [("impl", "D", "try_set")])
    >>> alike(names, [], [("impl", "D", "set")])
    Traceback (most recent call last):
    erasing.tokens.Fault: `D::set` of a program has the name of `A::set`, which programs call `try_set`
    >>> alike(names, [], [("trait", "T", "try_set")])
    Traceback (most recent call last):
    erasing.tokens.Fault: `A::set` is named `try_set`, as `T::try_set` is in the sources
    >>> alike({("A", "set"): "put", ("B", "set"): "place"}, [])
    Traceback (most recent call last):
    erasing.tokens.Fault: `B::set` is named `place`, and programs call it `put`, as `A::set`
    """
    first, own = {}, {name: of for _, of, name in of_programs}
    for (of, name), public in names.items():
        for kind, other, its in [*inside, *of_programs]:
            if its == public and (kind != "impl" or other == of):
                raise Fault(f"`{of}::{name}` is named `{public}`, as `{other}::{public}` is in the sources")
        if name in own:
            raise Fault(f"`{own[name]}::{name}` of a program has the name of `{of}::{name}`, which programs call `{public}`")
        other, its = first.setdefault(name, (of, public))
        if its != public:
            raise Fault(f"`{of}::{name}` is named `{public}`, and programs call it `{its}`, as `{other}::{name}`")


def crates_own(function):
    """What stands before a function that nobody outside of the package has."""
    return re.sub(r"\bpub (?!\()", "pub(crate) ", function.before)


def told_apart(twins, types):
    """Refuses types of one name of which one has calls with conditions.

    >>> told_apart({("A", "set")}, [("A", "a.rt:1"), ("B", "a.rt:2"), ("B", "b.rt:1")])
    >>> told_apart({("A", "set")}, [("A", "a.rt:1"), ("A", "b.rt:1")])
    Traceback (most recent call last):
    erasing.tokens.Fault: b.rt:1: another type has the name `A`, whose calls have conditions
    """
    seen, known = set(), {of for of, _ in twins}
    for name, place in types:
        if name in seen & known:
            raise Fault(f"{place}: another type has the name `{name}`, whose calls have conditions")
        seen.add(name)
