"""The words that a made file has to have, by its source: the items of the source one after another, each in the one form
that it has in Rust. `forms.py` has those of functions."""
from erasing.marks import Fault, Marks

from rereading.errors import error_of
from rereading.forms import OURS, Form
from rereading.functions import Function, behind_generics, without_drop
from rereading.imports import Imports, paths, place_of
from rereading.lexer import OPENING, Unexplained, listed, split
from rereading.rules import CRATES, SAFETY, kit_of


# The marks of items that are no functions, by how these begin; no function has any of `ELSEWHERE`.
MARKED = {"mod": ("visible", "replaced by"), "impl": ("by hand",), "trait": ("lawful",), "struct": ("by instruction",)}
ELSEWHERE = ("lawful",)


class Item:
    """What stands before an item, and the place where it begins."""

    def __init__(self, attributes, quality, texts, at):
        self.attributes, self.quality, self.texts, self.at = attributes, quality, texts, at
        self.marks = Marks(texts)

    def before(self):
        return [*self.own_attributes(), *self.quality]

    def own_attributes(self):
        """The attributes without those of the checker, and without derives of what Rust has by itself."""
        out = []
        for words in self.attributes:
            at = 3 if words[1] == "!" else 2
            if words[at] == "derive":
                names = [it for it in split(words[at + 2 : -2]) if it not in (["Drop"], ["Error"])]
                words = [*words[: at + 2], *listed(names), ")", "]"] if names else []
            elif words[at] == "tactic" or words[at : at + 3] == ["unsafe", "(", "no_mangle"]:
                words = []
            out += words
        return out


class File:
    """A source, item by item.

    >>> from types import SimpleNamespace
    >>> from rereading.lexer import Words
    >>> package = SimpleNamespace(public={"A"}, twins={}, own_levels={}, roots=set(), lawful=set(), instead={}, names={})
    >>> said = lambda text: " ".join(File("mask_bits", "src/a.rs", Words(text), package).all())
    >>> said("// rust: visible\\nfn f(alloc: Global) -> u8 ensures { result ≡ 1 } { 1 }")
    '# [ inline ] pub ( crate ) fn f ( ) -> u8 { 1 }'
    >>> said("#[derive(Drop, Copy)] struct A { a: u8, ghost b: { a < 2 } } impl Model for A { } ghost use a;")
    '# [ derive ( Copy ) ] struct A { a : u8 , }'
    >>> said("// rust: visible\\nstruct A;")
    Traceback (most recent call last):
    rereading.lexer.Unexplained: a file:2: no item of this kind has such a mark
    >>> said("fn f() {\\n    // rust: visible\\n    g() }")
    Traceback (most recent call last):
    rereading.lexer.Unexplained: a file: a mark stands above no item
    """

    def __init__(self, crate, here, words, package):
        self.crate, self.here, self.words, self.package = crate, here, words, package
        self.inside, self.kit = CRATES[crate].inside, kit_of(crate)
        # functions that test conditions, of those that are no methods; and how many places have marks
        self.tested, self.marked = [], 0

    def all(self):
        out = self.items(0, len(self.words.all), None, None)
        if self.marked != len(self.words.marks):
            raise Unexplained(f"{self.words.name}: a mark stands above no item")
        return out

    def items(self, i, end, kind, of):
        """The items from one word to another, of a file, an `impl`, a `trait impl` or a `trait` with a name."""
        out = []
        while i < end:
            item, j = self.lead(i, end)
            if j >= end:
                break
            word = self.words.all[j]
            form = self.macro if self.words.all[j + 1] == "!" else getattr(self, f"form_{word}", None)
            if form is None:
                self.words.fail(j, f"no form for an item that begins with `{word}`")
            if any(it.startswith(ELSEWHERE) if word == "fn" else not it.startswith(MARKED.get(word, ())) for it in item.texts):
                self.words.fail(j, "no item of this kind has such a mark")
            made, i = form(item, j, kind, of)
            out += made
        return out

    def lead(self, i, end):
        """What stands before an item, and where its kind is said."""
        words, partner, begin = self.words.all, self.words.partner, i
        attributes, quality, marks = [], [], self.marks_at(i)
        while i < end and words[i] == "#":
            at = i + (2 if words[i + 1] == "!" else 1)
            attributes.append(words[i : partner[at] + 1])
            i = partner[at] + 1
            marks += self.marks_at(i)
        while i < end and (words[i] in ("pub", "unsafe", "extern") or words[i : i + 2] == ["const", "fn"]):
            last = partner[i + 1] + 1 if words[i + 1] == "(" else i + 1
            # (what C calls is a plain function)
            last, kept = (i + 2, []) if words[i] == "extern" else (last, words[i:last])
            quality, i = quality + kept, last
        try:
            return Item(attributes, quality, marks, begin), i
        except Fault as fault:
            self.words.fail(i, fault)

    def marks_at(self, i):
        found = self.words.marks.get(i, [])
        self.marked += bool(found)
        return list(found)

    # ---- items that have no code

    def form_ghost(self, item, j, kind, of):
        return [], self.words.find(j, [";"]) + 1

    def form_use(self, item, j, kind, of):
        last = self.words.find(j, [";"])
        found = [place_of(it, self.crate, self.kit) for it in paths(self.words.all[j + 1 : last])]
        entries = [(" ".join(item.before()), it) for it in found if it]
        lines = self.words.all[item.at].line, self.words.all[last].line
        if not entries:
            # (an empty line is left, which parts the imports above from those below)
            self.words.empty.add(lines[1])
        return [Imports(entries, *lines)] if entries else [], last + 1

    def form_mod(self, item, j, kind, of):
        name, last, line = self.words.all[j + 1], j + 2, self.words.all[j].line
        if self.words.all[last] != ";":
            self.words.fail(j, "a module within a file")
        by_hand = item.marks.instead.get("replaced by")
        if name == "laws":
            made = []
        elif by_hand:
            item.quality = OURS
            made = [Imports([(" ".join(item.before()), by_hand)], line, line)]
        elif self.crate == "mask_c":
            made = [*item.before(), "mod", name, ";", Imports([("pub", f"{name}::*")], line, line)]
        else:
            item.quality = OURS if item.marks.has("visible") else item.quality
            made = [*item.before(), "mod", name, ";"]
        return made, last + 1

    def form_const(self, item, j, kind, of):
        last = self.words.find(j, [";"]) + 1
        return [*item.before(), *self.words.all[j:last]], last

    form_static = form_type = form_const

    def macro(self, item, j, kind, of):
        words, last = self.words.all, j
        while words[last] not in OPENING:
            last += 1
        closing = self.words.partner[last]
        last = closing + 1 if words[closing] == "}" else self.words.find(closing, [";"]) + 1
        return [*item.before(), *words[j:last]], last

    def form_struct(self, item, j, kind, of):
        words, first = self.words.all, self.words.find(j, ["{", ";"])
        self.package.instead.update({("type by instruction", words[j + 1]): it for it in item.marks.instead.values()})
        if words[first] == ";":
            return [*item.before(), *words[j : first + 1]], first + 1
        last = self.words.partner[first]
        made = [*item.before(), *without_drop(words[j:first]), "{", *self.fields(first + 1, last), "}"]
        if any("derive" in it and "Error" in it for it in item.attributes):
            made += error_of(words[j + 1], words[first + 1 : last], self.words.name)
        return made, last + 1

    form_enum = form_struct

    def fields(self, i, end):
        """The fields of a struct, or the variants of an enum, without ghost ones and what an error's texts are made of."""
        out, words = [], self.words.all
        while i < end:
            if "visible" in self.words.marks.get(i, ()):
                self.marked += 1
                out += OURS
            if words[i] == "ghost":
                while out and out[-1] != ",":
                    out.pop()
                i = self.words.find(i, [",", "}"])
                i += words[i] == ","
            elif words[i] == "#" and words[i + 2] in ("error", "from"):
                i = self.words.partner[i + 1] + 1
            else:
                out.append(words[i])
                i += 1
        return out

    # ---- items that have items

    def form_impl(self, item, j, kind, of):
        words, first = self.words.all, self.words.find(j, ["{"])
        last, head = self.words.partner[first], without_drop(words[j:first])
        trait, of = impl_of(head)
        if trait == "Model" or item.marks.has("by hand"):
            return [], last + 1
        inner = self.items(first + 1, last, "trait impl" if trait else "impl", trait or of)
        lawful = [SAFETY, "unsafe"] if trait in self.package.lawful else []
        return [*item.before(), *lawful, *head, "{", *inner, "}"], last + 1

    def form_trait(self, item, j, kind, of):
        words, first = self.words.all, self.words.find(j, ["{"])
        last, head, name = self.words.partner[first], without_drop(words[j:first]), words[j + 1]
        inner = self.items(first + 1, last, "trait", name)
        lawful = ["unsafe"] if item.marks.has("lawful") else []
        if lawful:
            self.package.lawful.add(name)
        # (what is answered in a `Result` has a size)
        answers = any(inner[i : i + 3] == ["Result", "<", "Self"] for i in range(len(inner)))
        sized = [":", "Sized"] if ":" not in head and answers else []
        return [*item.before(), *lawful, *head, *sized, "{", *inner, "}"], last + 1

    # ---- functions

    def form_fn(self, item, j, kind, of):
        words = self.words.all
        last = self.words.find(j, ["{", ";", "requires", "ensures"])
        function = Function(words[j:last])
        clauses, last = self.clauses(last)
        body = [";"]
        if words[last] == "{":
            body = words[last : self.words.partner[last] + 1]
            last = self.words.partner[last]
        return Form(self, item, function, clauses, body, kind, of).all(), last + 1

    def clauses(self, i):
        """The clauses of a contract, each with its word, its name and its text, and where the body begins."""
        found, words = [], self.words.all
        while words[i] in ("requires", "ensures"):
            first = self.words.find(i, ["{"])
            named = [it for it in words[i + 1 : first] if it != "*"]
            last = self.words.partner[first]
            found.append((words[i], named[0] if named else None, self.words.spaced(first + 1, last)))
            i = last + 1
        return found, i


def impl_of(head):
    """The trait of an implementation, if it is of one, and else the type.

    >>> from rereading.lexer import words_of
    >>> impl_of(words_of("impl<T: F<u8>> fmt::Debug for Held<T>")), impl_of(words_of("impl<'a> Words<'a>"))
    (('Debug', None), (None, 'Words'))
    """
    i, depth, names = behind_generics(head, 1) if head[1] == "<" else 1, 0, []
    for it in head[i:]:
        depth += (it == "<") - (it == ">")
        if it == "for" and not depth:
            return names[-1], None
        if not depth and it[0].isalpha():
            names.append(it)
    return None, names[-1]
