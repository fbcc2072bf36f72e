"""What a function of a source is in a made file: itself, copies of it for the processor, and where it is public and has
conditions, one that tests them and one that has the body."""
from rereading.clauses import Test
from rereading.functions import INTO_ITER
from rereading.lexer import Unexplained, words_of
from rereading.rules import ARM_FEATURES, FEATURES, KEPT, MORE_FEATURES, NATIVE

ALWAYS, INLINE, TRACKED, HIDDEN = (
    words_of(f"#[{it}]") for it in ("inline(always)", "inline", "track_caller", "doc(hidden)")
)
ON_X86 = words_of('#[cfg(target_arch = "x86_64")]')
ON_BOTH = words_of('#[cfg(any(target_arch = "x86_64", target_arch = "aarch64"))]')
BY_FEATURES = words_of(f"#[target_feature(enable = {FEATURES})]")
BY_MORE_FEATURES = {most: words_of(f"#[target_feature(enable = {it})]") for most, it in MORE_FEATURES.items()}
BY_FEATURES_OF_EACH = words_of(
    f'#[cfg_attr(target_arch = "x86_64", target_feature(enable = {FEATURES}))]'
    f'#[cfg_attr(target_arch = "aarch64", target_feature(enable = {ARM_FEATURES}))]'
)
OURS = words_of("pub(crate)")


class Form:
    """A function of a file, by itself or in an `impl`, a `trait impl` or a `trait` with a name."""

    def __init__(self, file, item, function, clauses, body, kind, of):
        self.file, self.package, self.marks = file, file.package, item.marks
        self.function, self.name, self.clauses, self.body = function, function.name, clauses, body
        self.kind, self.of = kind, of
        self.quality = [*OURS, *item.quality] if self.marks.has("visible") else item.quality
        self.public_name = None
        self.own = item.own_attributes()
        if kind == "impl" and self.quality == ["pub"] and self.own[: len(HIDDEN)] == HIDDEN:
            # (what serves the other crates of the repository alone is the package's own)
            self.own, self.quality = self.own[len(HIDDEN) :], OURS
        self.inline = self.inlined()

    def all(self):
        if self.marks.told and (self.kind == "trait impl" or not self.is_public()):
            raise Unexplained(f"{self.file.words.name}: {self.name} tests nothing, and a mark says what it tells")
        if self.kind == "trait impl":
            return self.made(self.name + ("_proved" if (self.of, self.name) in self.package.twins else ""))
        if self.marks.named and self.name not in KEPT:
            self.package.names[self.of, self.name] = self.public_name = self.marks.named
        if self.marks.has("by hand"):
            return []
        copies = [*self.copies(), *self.under_own_name()]
        return [*(self.public() if self.is_public() else self.by_types(self.function.signature())), *copies]

    def made(self, name=None, quality=None):
        quality = self.quality if quality is None else quality
        return [*self.own, *self.inline, *quality, *self.function.signature(name), *self.body]

    def inlined(self):
        """How it is compiled into others: by what the source says, and else `#[inline]`, since Rattle compiles a program
        as a whole, and Rust each package alone."""
        if self.marks.has("inline"):
            if self.own[-4:] == INLINE:
                del self.own[-4:]
            return ALWAYS
        says = any(self.own[i : i + 2] == ["#", "["] and self.own[i + 2] in ("inline", "cold") for i in range(len(self.own)))
        return [] if says or not self.file.inside or self.body == [";"] else INLINE

    def is_public(self):
        if not self.file.inside:
            return False
        if self.kind == "trait":
            return self.of in self.package.public
        return self.quality == ["pub"] and (self.of or self.name) in self.package.public

    # ---- copies for the processor

    def copies(self):
        """Its copies. Where it goes to one of two levels, its body is that call from here on."""
        marks, body, made = self.marks, self.body, []
        of_any = [*self.function.signature(f"{self.name}_any"), *renamed(body, self.package.own_levels)]
        if marks.has("called at its level"):
            self.package.own_levels[self.name] = self.path_of_any()
        if marks.level:
            made += self.levels(of_any)
        self.package.instead.update({(how, self.name): it for how, it in marks.instead.items()})
        if marks.has("copied by instruction"):
            how = BY_FEATURES_OF_EACH if marks.level else ALWAYS
            copy = renamed(body, {name: it for (how, name), it in self.package.instead.items() if how == "by instruction"})
            made += [*ON_BOTH, *how, *self.function.signature(f"{self.name}_by_instruction"), *copy]
        return made

    def path_of_any(self):
        module = self.file.here.removeprefix("src/").removesuffix(".rs").replace("/", "::")
        return f"{self.name}_any" if self.of else f"crate::{module}::{self.name}_any"

    def levels(self, of_any):
        """The copy that is compiled for x86-64-v3, and the one that both levels have the body of."""
        marks, place = self.marks, "Self" if self.of else None
        if not marks.alone:
            self.package.roots.add(f"{self.name}_any")
        calls = {it: self.function.call(f"{self.name}_{it}", place) for it in ("v3", marks.most, "any", "by_instruction")}
        which, first = f"by_{marks.level}", []
        if marks.most:
            gains = [*words_of(marks.where or "true"), ","] if marks.most == "v4" else []
            which, first = f"{which}_to_{marks.most}", [*gains, *calls[marks.most], ","]
        if marks.much:
            which, first = f"{which}_if", [*words_of(marks.much), ",", *(first if marks.most else [])]
        elif marks.has("copied by instruction"):
            first = [*calls["by_instruction"], ","]
        goes_to = [*words_of(f"{NATIVE}::{which}!"), "(", *first, *calls["v3"], ",", *calls["any"], ")"]
        self.body = ["{", *goes_to, "}"]
        ours = OURS if marks.has("called at its level") else []
        v3 = [*ON_X86, *BY_FEATURES, *self.function.signature(f"{self.name}_v3"), "{", *calls["any"], "}"]
        more = []
        if marks.most:
            how = [*ON_X86, *BY_FEATURES, *BY_MORE_FEATURES[marks.most]]
            more = [*how, *self.function.signature(f"{self.name}_{marks.most}"), "{", *calls["any"], "}"]
        return [*v3, *more, *ALWAYS, *ours, *of_any]

    # ---- public calls

    def public(self):
        """A public function: where it has conditions, one that tests them and calls one that has the body."""
        tests, listing = self.tests()
        if first := behind_lists(self.body, listing):
            self.body = [*self.body[:first], *tests, *self.body[first:]]
            own = [*self.own, *TRACKED, *self.inline, *self.quality]
            return [*own, *self.widened(), *self.body]
        if not tests and not self.public_name:
            return self.by_types(self.widened())
        tracked = TRACKED if tests else []
        tests = [*sum((list_of(it) for it in listing), []), *tests]
        signature = self.function.signature(self.public_name, widened=True)
        head = [*INLINE, *tracked, *self.quality, *signature, "{", *tests]
        if self.kind is None:
            self.file.tested.append([*head, *self.function.call(self.name, "inner", listing), "}"])
            return self.made()
        self.package.twins.add((self.of, self.name))
        of_trait = self.kind == "trait"
        through = {*listing, *self.function.iterators()}
        call = self.function.call(f"{self.name}_proved", "Self" if of_trait else self.of, through)
        return [*head, *call, "}", *self.made(f"{self.name}_proved", [] if of_trait else OURS)]

    def tests(self):
        """The tests of what a caller owes, and the iterators whose items are listed for them."""
        tests, listing, told = [], [], dict(self.marks.told)
        for word, name, text in self.clauses:
            if word == "requires":
                types = {**self.function.operands(), "self": self.of or ""}
                test = Test(self.name, types, text, told.pop(name, None))
                listing += [it for it in test.listed if it not in listing]
                tests += [*test.words, ";"] if test.words else []
        if told:
            raise Unexplained(f"{self.file.words.name}: {self.name} has no condition for each text of its marks")
        return tests, listing

    def widened(self):
        """Its signature with all that can be gone through where the source takes an iterator, which its body begins by."""
        anew = [["let", it, "=", it, *INTO_ITER, ";"] for it in self.function.iterators()]
        self.body = [*self.body[:1], *sum(anew, []), *self.body[1:]]
        return self.function.signature(self.public_name, widened=True)

    # ---- names

    def by_types(self, signature):
        """A function that tests nothing. Where a call with conditions of another type has its name, it has both names of
        that too, so that a call inside the package is the same by either."""
        head, twins = [*self.own, *self.inline], self.package.twins
        others = {of for of, name in twins if name == self.name}
        is_alike = self.kind == "impl" and self.file.inside and others and (self.of, self.name) not in twins
        if not is_alike or not self.function.is_method() and not others & self.package.lawful:
            return [*head, *self.quality, *signature, *self.body]
        name = f"{self.name}_proved"
        ours = OURS if self.quality == ["pub"] else self.quality
        twin = [*head, *ours, *self.function.signature(name), *self.body]
        return [*head, *self.quality, *signature, "{", *self.function.call(name, self.of), "}", *twin]

    def under_own_name(self):
        """A public method that has another name than in the source has that for the package's own calls, if Rust's own types
        have methods of that name. (Else these go to what has the body.)"""
        if not self.marks.named or self.public_name:
            return []
        call = ["{", *self.function.call(self.marks.named, self.of), "}"]
        made = [*ALWAYS, *OURS, *self.function.signature(self.name), *call]
        self.function.name = self.name = self.marks.named
        return made


def list_of(it):
    """An iterator's items listed, since a condition is of them."""
    return ["let", it, "=", *words_of("crate::kit::Collect::try_collected"), "(", it, *INTO_ITER, ")", "?", ";"]


def renamed(words, names):
    """Words in which calls of these names go elsewhere.

    >>> " ".join(renamed(words_of("f(g, g(1), g::<u8>())"), {"g": "a::g_any"}))
    'f ( g , a :: g_any ( 1 ) , a :: g_any :: < u8 > ( ) )'
    """
    out = []
    for i, it in enumerate(words):
        is_call = it in names and (words[i + 1] == "(" or words[i + 1 : i + 3] == ["::", "<"])
        out += words_of(names[it]) if is_call else [it]
    return out


def behind_lists(body, listing):
    """Behind the statements that list these iterators, if the body begins so: the tests are of the lists.

    >>> behind_lists(words_of("{ let a: Vec<u8> = a.collect(alloc)?; f(a) }"), ["a"])
    17
    """
    i = 1
    for it in listing:
        end = body.index(";", i) + 1 if ";" in body[i:] else i
        statement, collects = body[i:end], words_of(f"= {it}.collect(alloc)?;")
        if statement[:4] != ["let", it, ":", "Vec"] or statement[-len(collects) :] != collects:
            return 0
        i = end
    return i if listing else 0
