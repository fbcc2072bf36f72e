"""What is left of the items of a source when contracts are taken out."""
import collections
import re

from erasing import marks
from erasing.changes import CORE, ELSEWHERE, GONE, INSIDE, PLACES, PROVED, SAME
from erasing.conditions import TESTS, Condition
from erasing.examples import leads_to
from erasing.levels import copied, levelled
from erasing.names import KEPT, Names
from erasing.tokens import Fault, attached, leaves, spaced

GENERIC = r"(?:\s*<(?:[^<>]|<[^<>]*>|->)*>)?"
# The marks that items of these kinds may have.
MARKED = {
    "fn": r"(?!lawful)", "mod": r"visible|replaced by", "impl": r"by hand", "trait": r"lawful", "struct": r"by instruction",
}
# Methods that return a `Result` under the names that the Rust crate has.
WITH_RESULT = {"Mask::concat"}
# What serves the other crates of the repository alone, which are one package here.
HIDDEN = "#[doc(hidden)]\n"
DROP = re.compile(r"\s*\+\s*Drop\b|:\s*Drop\b")


class Function:
    """A function's signature: its parts as text.

    >>> from erasing.tokens import Source
    >>> source = Source("pub fn put<const K: usize, I: Iterator<Item = u8>>(&mut self, alloc: Global, it: I) -> bool {}")
    >>> function = Function(source, 0, len(source.tokens) - 2)
    >>> function.name, function.parameters, function.call("put_proved", "A", ["it"])
    ('put', ['&mut self', 'it: I'], 'self.put_proved::<K, _>(it.into_iter())')
    """

    def __init__(self, source, i, end):
        j = i
        while source.tokens[j][1] != "fn":
            j += 1
        self.before = source.text(i, j)
        j = source.next(j + 1, end)
        self.name = source.tokens[j][1]
        j = source.next(j + 1, end)
        begin, depth = j, 0
        while source.tokens[j][1] == "<" or depth:
            depth += source.angle(j)
            j += 1
        self.generics = source.split(begin + 1, j - 1) if j > begin else []
        j = source.next(j, end)
        last = source.partner[j]
        self.parameters = [it for it in source.split(j + 1, last) if not re.match(r"_?alloc:", it)]
        self.tail = DROP.sub("", source.text(last + 1, end)).rstrip()

    def types(self, of=None):
        """The types of the parameters by their names."""
        named = [it.split(":", 1) for it in self.parameters if not it.endswith("self")]
        return {name.removeprefix("mut ").strip(): it.strip() for name, it in named} | {"self": of or ""}

    def iterators(self):
        """The parameters that are iterators, with the names of their types."""
        kinds = {it.split(":")[0] for it in self.generics if re.match(r"\w+: Iterator<", it)}
        return {name: it for name, it in self.types().items() if it in kinds}

    def is_method(self):
        return bool(self.parameters) and self.parameters[0].endswith("self")

    def signature(self, name=None, before=None, widened=False):
        generics = [DROP.sub("", it) for it in self.generics]
        if widened:
            generics = [re.sub(r"^(\w+): Iterator<", r"\1: IntoIterator<", it) for it in generics]
        head = f"{self.before if before is None else before}fn {name or self.name}"
        generics = f"<{', '.join(generics)}>" if generics else ""
        return f"{head}{generics}({', '.join(self.parameters)}){self.tail}"

    def call(self, name, of, listed):
        """A call with the function's own parameters, of which these are lists now."""
        generics = [re.sub(r"^const ", "", it).split(":")[0].strip() for it in self.generics]
        anew = set(self.iterators().values())
        generics = ["_" if it in anew else it for it in generics if not it.startswith("'")]
        turbofish = f"::<{', '.join(generics)}>" if generics else ""
        handed = [f"{it}.into_iter()" if it in listed else it for it in list(self.types())[:-1]]
        on = "self." if self.is_method() else f"{of}::" if of else ""
        return f"{on}{name}{turbofish}({', '.join(handed)})"


class Erasure(Names):
    """What is left of a file of a crate.

    >>> from erasing.changes import Counts
    >>> from erasing.tokens import Source
    >>> made = lambda text: Erasure("mask_bits", Source(text), set(), set(), Counts()).all()
    >>> made("// rust: visible\\nfn f() {}")
    '#[inline]\\npub(crate) fn f() {}'
    >>> made("// rust: visibly\\nfn f() {}")
    Traceback (most recent call last):
    erasing.tokens.Fault: source:2: no mark is `// rust: visibly`
    >>> made("// rust: visible\\nstruct A;")
    Traceback (most recent call last):
    erasing.tokens.Fault: source:2: no item of this kind has the mark `// rust: visible`
    >>> made("// rust: needs a place\\nfn f() {}")
    Traceback (most recent call last):
    erasing.tokens.Fault: source: f tests nothing, and has the mark `needs a place`
    >>> made("fn f() {\\n    // rust: visible\\n    g() }")
    Traceback (most recent call last):
    erasing.tokens.Fault: source: a mark stands above no item
    """

    def __init__(self, crate, source, public, twins, counts, known=()):
        self.crate, self.source = crate, source
        # names that the package hands out
        self.public = public
        # calls of which one tests conditions and another has the body: those found here, and those of all files
        self.twins, self.known = twins, known
        # names of types that are defined here
        self.types = []
        # the methods, and those of which another name is the public one, with that
        self.methods, self.names = [], {}
        # places and lines, by rule
        self.counts = counts
        # functions that test conditions, of those that are no methods
        self.tested = []
        # calls with their conditions and tests, by the form of the condition
        self.forms = counts.forms
        # the marks of the item at hand, and how many were read
        self.marks, self.marked = marks.Marks(), 0

    def count(self, rule, text=""):
        self.counts[rule][0] += 1
        self.counts[rule][1] += text.count("\n")

    def all(self):
        text = self.items(0, len(self.source.tokens), ("file", None))
        if self.marked != sum(kind == "comment" and it.startswith("// rust:") for kind, it in self.source.tokens):
            raise Fault(f"{self.source.name}: a mark stands above no item")
        return text

    def items(self, i, end, context):
        out, tokens = [], self.source.tokens
        while True:
            lead = i
            i, attributes = self.attributes(i, end)
            if i >= end:
                return "".join(out) + self.source.text(lead, end)
            j = i
            while tokens[j][1] in ("pub", "unsafe", "extern") or self.source.text(j, j + 3) == "const fn":
                j = self.behind_quality(j, end)
            word = tokens[j][1]
            form = getattr(self, f"item_{word}", None)
            if self.source.word(j, end) == "!":
                form = self.item_macro
            if form is None:
                self.source.fault(j, f"no form for an item that begins with `{word}`")
            before, words = marks.taken(self.lead(lead, i))
            if any(not re.match(MARKED.get(word, "(?!)"), it) for it in words):
                self.source.fault(j, f"no item of this kind has the mark `// rust: {words[0]}`")
            self.marks, self.marked = self.read(j, words), self.marked + len(words)
            made, i = form(i, j, end, context, before, attributes)
            out.append(made)

    def read(self, j, words):
        """The marks of an item, which has to have words that are known."""
        try:
            return marks.Marks(words)
        except Fault as fault:
            self.source.fault(j, fault)

    def behind_quality(self, j, end):
        """Behind `pub`, `pub(crate)`, `unsafe`, `const` or `extern "C"`."""
        k = self.source.next(j + 1, end)
        if self.source.tokens[j][1] == "pub" and self.source.tokens[k][1] == "(":
            return self.source.next(self.source.partner[k] + 1, end)
        return self.source.next(k + 1, end) if self.source.tokens[j][1] == "extern" else k

    def attributes(self, i, end):
        """Behind the attributes and comments that stand before an item."""
        found, tokens = [], self.source.tokens
        while True:
            i = self.source.next(i, end)
            if i >= end or tokens[i][1] != "#":
                return i, found
            begin = i
            i = self.source.partner[i + (2 if tokens[i + 1][1] == "!" else 1)] + 1
            found.append(self.source.text(begin, i))

    def lead(self, i, end):
        """What stands before an item, without tactics, and without derives of what Rust has by itself."""
        text, tokens = "", self.source.tokens
        while i < end:
            if tokens[i][1] != "#":
                text += tokens[i][1]
                i += 1
                continue
            j = i + (2 if tokens[i + 1][1] == "!" else 1)
            last, word = self.source.partner[j] + 1, tokens[j + 1][1]
            kept = self.source.text(i, last)
            if word == "tactic":
                self.count("tactics", kept + "\n")
                kept = ""
            elif "no_mangle" in kept:
                self.count("exports")
                kept = ""
            elif word == "derive":
                names = re.findall(r"\w+", kept)[1:]
                left = [it for it in names if it not in ("Drop", "Error")]
                self.counts["drops"][0] += "Drop" in names
                kept = f"#[derive({', '.join(left)})]" if left else ""
            text += kept
            i = last
            if not kept and i < end and tokens[i][0] == "space":
                text += tokens[i][1].partition("\n")[2].lstrip(" ")
                i += 1
        return text

    def taken(self, rule, i, end, before):
        """Takes an item out, with what belongs to it."""
        kept, own = attached(before)
        self.count(rule, own + self.source.text(i, end) + "\n")
        return kept, end

    def item_ghost(self, i, j, end, context, before, attributes):
        return self.taken("ghost items", i, self.source.find(j, end, [";"]) + 1, before)

    def item_use(self, i, j, end, context, before, attributes):
        last = self.source.find(j, end, [";"]) + 1
        return before + self.imports(j, self.source.text(i, j), self.source.text(j + 1, last - 1)), last

    def item_mod(self, i, j, end, context, before, attributes):
        last = self.source.find(j, end, [";", "{"])
        if self.source.tokens[last][1] == "{":
            self.source.fault(j, "a module within a file")
        name = self.source.word(j, end)
        self.see_module(j, name)
        if name == "laws":
            return self.taken("laws", i, last + 1, before)
        if place := self.marks.instead.get("replaced by"):
            self.count("modules by hand")
            return f"{before}pub(crate) use {place};", last + 1
        if self.crate == "mask_c":
            self.count("modules")
            return f"{before}mod {name};\npub use {name}::*;", last + 1
        if self.is_visible():
            self.count("private functions")
            before += "pub(crate) "
        return before + self.source.text(i, last + 1), last + 1

    def item_impl(self, i, j, end, context, before, attributes):
        body = self.source.find(j, end, ["{"])
        last = self.source.partner[body] + 1
        head = self.source.text(i, body)
        if re.search(r"\bModel\s+for\b", head):
            return self.taken("models", i, last, before)
        if self.marks.has("by hand"):
            return self.taken("what is by hand", i, last, before)
        of, by = re.search(rf"impl{GENERIC}\s+(?:\w+::)*(\w+){GENERIC}(?:\s+for\s+(?:&'\w+ )?(\[\w+\]|\w*))?", head).groups()
        # (with the type, so that two of one trait are told apart)
        context = ("impl", of) if by is None else ("trait impl", f"{of} for {by}")
        items = self.items(body + 1, last - 1, context)
        is_lawful = by is not None and of in marks.lawful()
        quality = "// SAFETY: its answers are proved to be as the contract says.\nunsafe " if is_lawful else ""
        return f"{before}{quality}{DROP.sub('', head)}{{{items}}}", last

    def item_trait(self, i, j, end, context, before, attributes):
        self.see_type(j, end)
        body = self.source.find(j, end, ["{"])
        last = self.source.partner[body] + 1
        name, is_lawful = self.source.word(j, end), self.marks.has("lawful")
        head = DROP.sub("", self.source.text(i, body))
        items = self.items(body + 1, last - 1, ("trait", name))
        if is_lawful:
            self.count("lawful traits")
            before += "///\n/// # Safety\n///\n/// Each answer is as its contract says: a compiler can't see that.\n"
            head = re.sub(r"\btrait\b", "unsafe trait", head)
        if "Result<Self" in items and ":" not in head:
            head = head.rstrip() + ": Sized "
        return f"{before}{head}{{{items}}}", last

    def item_struct(self, i, j, end, context, before, attributes):
        self.see_type(j, end)
        first = self.source.find(j, end, ["{", ";"])
        if self.source.tokens[first][1] == ";":
            return before + self.source.text(i, first + 1), first + 1
        last = self.source.partner[first]
        made = before + DROP.sub("", self.source.text(i, first + 1)) + self.fields(first + 1, last) + "}"
        if any("Error" in re.findall(r"\w+", it) for it in attributes):
            made += self.error(self.source.word(j, end), first + 1, last)
        return made, last + 1

    item_enum = item_struct

    def fields(self, i, end):
        """The fields of a struct, or the variants of an enum."""
        out, tokens = "", self.source.tokens
        while i < end:
            if tokens[i][1] == "// rust: visible":
                self.marked += 1
                self.count("private fields")
                out, i = out + "pub(crate) ", self.source.next(i, end)
            if tokens[i] == ("word", "ghost"):
                last = self.source.find(i, end, [","]) + 1
                at = out.rfind(",") + 1
                kept, own = attached(out[at:])
                out = out[:at] + kept
                self.count("ghost items", own + self.source.text(i, last) + "\n")
                i = last
            elif tokens[i][1] == "#" and tokens[i + 2][1] in ("error", "from"):
                i = self.source.partner[i + 1] + 1
            else:
                out += tokens[i][1]
                i += 1
        return out

    def error(self, name, i, end):
        """What `thiserror` derives: the texts of the variants."""
        arms, text, tokens = [], None, self.source.tokens
        i = self.source.next(i, end)
        while i < end:
            if tokens[i][1] == "#":
                last = self.source.partner[i + 1]
                text = self.source.text(i + 4, last - 1).strip()
                i = last
            elif tokens[i][0] == "word":
                variant, j = tokens[i][1], self.source.next(i + 1, end)
                fields = self.source.text(j, self.source.partner[j]) if j in self.source.partner else ""
                arms.append(f"{name}::{variant}{arm(fields, text)},")
                i = self.source.partner.get(j, i)
            i = self.source.next(i + 1, end)
        self.count("errors")
        return f"""

impl ::core::fmt::Display for {name} {{
    fn fmt(&self, f: &mut ::core::fmt::Formatter<'_>) -> ::core::fmt::Result {{
        match self {{ {' '.join(arms)} }}
    }}
}}

impl ::core::error::Error for {name} {{}}
"""

    def item_const(self, i, j, end, context, before, attributes):
        last = self.source.find(j, end, [";"]) + 1
        return before + self.source.text(i, last), last

    item_static = item_const

    def item_type(self, i, j, end, context, before, attributes):
        if context[0] == "file":
            self.see_type(j, end)
        return self.item_const(i, j, end, context, before, attributes)

    def item_macro(self, i, j, end, context, before, attributes):
        last = j
        while self.source.tokens[last][1] not in "([{":
            last += 1
        last = self.source.partner[last] + 1
        self.see_macro(j, last)
        if self.source.tokens[last - 1][1] != "}":
            last = self.source.find(last, end, [";"]) + 1
        return before + self.source.text(i, last), last

    def imports(self, j, head, tree):
        """The imports of an item `use`, by the paths that they have here."""
        groups = collections.defaultdict(list)
        for path in leaves(tree):
            self.see_import(j, path)
            here = self.path(path)
            if here is None:
                self.count("imports")
            else:
                place, mark, name = here.rpartition("::")
                groups[place + mark].append(name)
        return "\n".join(f"{head}use {place}{{{', '.join(names)}}};" for place, names in groups.items())

    def path(self, path):
        """Where a path stands here, or none where nothing is left to import."""
        root, *rest = path.split("::")
        if "laws" in rest or path in GONE:
            return None
        if path in ELSEWHERE[self.crate in INSIDE]:
            return ELSEWHERE[self.crate in INSIDE][path]
        if root == "crate":
            return "::".join([PLACES[self.crate][1], *rest])
        if root in INSIDE:
            return "::".join([PLACES[root][1] if self.crate in INSIDE else "::row_mask", *rest])
        if path in CORE:
            return path.replace("std", "::core", 1)
        if path in SAME:
            return f"::{path}"
        if root in ("std", "bytes", "thiserror"):
            raise Fault(f"{self.source.name}: no place for `{path}`")
        return path

    def item_fn(self, i, j, end, context, before, attributes):
        last = self.source.find(i, end, ["{", ";", "requires", "ensures"])
        function = Function(self.source, i, last)
        function.before = function.before.replace('extern "C" ', "")
        clauses, last = self.clauses(last, end)
        body = ";"
        if self.source.tokens[last][1] == "{":
            body = self.source.text(last, self.source.partner[last] + 1)
            last = self.source.partner[last]
        kind, of = context
        where = function.name if of is None else f"{of}::{function.name}"
        marked, more_names, public = self.marks, "", None
        if kind == "impl" and HIDDEN in before and function.before.strip() == "pub":
            self.count("methods for other crates")
            before, function.before = before.replace(HIDDEN, ""), "pub(crate) "
        if kind != "file":
            self.methods.append((kind, of, function.name))
        if marked.named:
            self.see_public_name(j, function, context)
            if function.name in KEPT:
                function, more_names = self.kept_name(j, function, context, clauses)
            else:
                public = marked.named
        elif kind == "impl" and self.is_public(function, context) and "-> Result<" in function.tail:
            if where not in WITH_RESULT:
                self.source.fault(j, f"{where} returns a `Result`, and has no mark as `// rust: named try_{function.name}`")
        public = public or function.name
        if marked.has("by hand"):
            if kind != "impl":
                self.source.fault(j, "only a method of an `impl` can be one by hand")
            return self.taken("what is by hand", i, last + 1, before)
        self.see_name(j, function, context)
        if self.is_visible():
            self.count("private functions")
            function.before = "pub(crate) " + function.before
        before, inline = self.inlining(before, body)
        if marked.told and (kind == "trait impl" or not self.is_public(function, context)):
            raise Fault(f"{self.source.name}: {where} tests nothing, and has the mark `{marked.text}`")
        if kind == "trait impl":
            is_twin = (of.partition(" for ")[0], function.name) in self.known
            name = function.name + (PROVED if is_twin else "")
            return f"{before}{inline}{function.signature(name)} {body}", last + 1
        levels, is_levelled = "", self.is_levelled()
        if marked.has("copied by instruction"):
            self.count("copies by an instruction")
            levels = copied(function, body, is_levelled)
        if is_levelled:
            self.count("levels of the processor")
            body, more = levelled(function, of, body, marked)
            levels = more + levels
        levels += more_names
        if not self.is_public(function, context):
            body, levels = self.by_types(function, context, before + inline, body, levels)
            return f"{before}{inline}{function.signature()} {body}{levels}", last + 1
        tests, listed = self.tests(function, clauses, of, where, marked.told)
        leads = leads_to(of, where.rpartition("::")[2], public) if kind == "impl" else ""
        before = documented(before, clauses, tests, leads)
        tests = [f"{TESTS}::{it};" for it in tests.values()]
        if lists := lists_first(body, listed):
            body = body[:lists] + "\n" + "\n".join(tests) + body[lists:]
            return f"{before}#[track_caller]\n{inline}{self.widened(function, body, public)}{levels}", last + 1
        before += inline
        if tests or public != function.name:
            return self.with_tests(function, public, tests, listed, context, before, body) + levels, last + 1
        body, levels = self.by_types(function, context, before, body, levels)
        return before + self.widened(function, body) + levels, last + 1

    def is_visible(self):
        return self.marks.has("visible")

    def is_levelled(self):
        return self.marks.level is not None

    def inlining(self, before, body):
        """What stands before a function, and an attribute where that says nothing of how it is compiled into others."""
        if self.marks.has("inline"):
            before = before.replace("#[inline]\n", "")
        elif self.crate not in INSIDE or body == ";" or re.search(r"#\[(inline|cold)\b", before):
            return before, ""
        self.count("inlining")
        return before, "#[inline(always)]\n" if self.marks.has("inline") else "#[inline]\n"

    def widened(self, function, body, public=None):
        """A public function, which takes all that can be gone through where the source takes an iterator."""
        iterators = list(function.iterators())
        if iterators:
            self.count("iterators")
            body = "{" + "".join(f"let {it} = {it}.into_iter();" for it in iterators) + body[1:]
        return function.signature(public, widened=True) + " " + body

    def is_public(self, function, context):
        kind, of = context
        if self.crate not in INSIDE:
            return False
        if kind == "trait":
            return of in self.public
        return function.before.strip() == "pub" and (function.name if kind == "file" else of) in self.public

    def clauses(self, i, end):
        """The clauses of a contract, and the token behind them."""
        found, tokens = [], self.source.tokens
        while True:
            i = self.source.next(i, end)
            if tokens[i][1] not in ("requires", "ensures"):
                return found, i
            word, begin = tokens[i][1], i
            i = self.source.next(i + 1, end)
            if tokens[i][1] == "*":
                i = self.source.next(i + 1, end)
            name = tokens[i][1] if tokens[i][0] == "word" else None
            i = self.source.next(i + 1, end) if name else i
            last = self.source.partner[i]
            self.count("contracts", self.source.text(begin, last) + "\n")
            found.append((word, name, spaced(self.source.text(i + 1, last))))
            i = last + 1

    def tests(self, function, clauses, of, where, told):
        """The tests of what a caller owes, by the words of the clauses, and the iterators whose items are listed for them."""
        tests, listed, told = {}, [], dict(told)
        clauses = [(name, words) for word, name, words in clauses if word == "requires"]
        for name, words in clauses:
            condition = Condition(function.name, function.types(of), words, told.pop(name, None))
            try:
                test = condition.test()
            except (Fault, AttributeError, IndexError, ValueError) as fault:
                raise Fault(f"{self.source.name}: {where}: no test for `{words}` ({fault})") from fault
            listed += condition.listed
            self.forms[condition.form].append((where, words, test))
            if test:
                self.count("conditions")
                tests[words] = test
        for name, mark in told.items():
            raise Fault(f"{self.source.name}: {where} has no condition for the mark `{' '.join([*filter(None, [name]), *mark])}`")
        return tests, list(dict.fromkeys(listed))

    def with_tests(self, function, public, tests, listed, context, before, body):
        """A function that tests what its caller owes, under its public name, and one that has the body."""
        kind, of = context
        attributes = "".join(f"{it}\n" for it in before.splitlines() if it.strip().startswith("#["))
        docs = "\n".join(it for it in before.splitlines() if not it.strip().startswith("#["))
        lists = [f"let {it} = crate::kit::Collect::try_collected({it}.into_iter())?;" for it in listed]
        tracked = "#[track_caller]\n" if tests else ""
        head = f"\n{docs}\n#[inline]\n{tracked}{function.signature(public, widened=True)}"
        if kind == "file":
            call = function.call(f"inner::{function.name}", None, listed)
            self.tested.append(f"{head} {{\n{' '.join([*lists, *tests, call])}\n}}\n")
            return f"\n\n{attributes}{function.signature()} {body}"
        self.twins.add((of, function.name))
        name = function.name + PROVED
        handed = list(dict.fromkeys([*listed, *function.iterators()]))
        call = function.call(name, "Self" if kind == "trait" else of, handed)
        quality = "" if kind == "trait" else "pub(crate) "
        hidden = "/// The same, where the caller meets the conditions: else the answer is any, or a panic.\n" if kind == "trait" else ""
        twin = f"{hidden}{attributes}{function.signature(name, quality)} {body}"
        return f"{head} {{ {' '.join([*lists, *tests, call])} }}\n\n{twin}"


def lists_first(body, iterators):
    """Where tests of these iterators' items can stand: behind the statements that list them, if the body begins so.

    >>> lists_first("{ let a: Vec<usize> = a.collect(alloc)?; f(a) }", ["a"])
    40
    """
    end = 1
    for it in iterators:
        match = re.compile(rf"\s*let {it}: Vec<\w+> = {it}\.collect\(alloc\)\?;").match(body, end)
        end = match.end() if match else 0
    return end if iterators and end > 1 else 0


def arm(fields, text):
    """The pattern of a variant, and what it prints.

    >>> arm("{ at: usize", '"at {at}"'), arm("(AllocError", '"no memory"'), arm("(MaskError", "transparent")
    (' { at } => write!(f, "at {at}")', '(..) => f.write_str("no memory")', '(it) => ::core::fmt::Display::fmt(it, f)')
    >>> arm("(usize", '"at {0}"')
    Traceback (most recent call last):
    erasing.tokens.Fault: the text "at {0}" of a variant without named fields has braces
    >>> arm("", '"{{}}"')
    Traceback (most recent call last):
    erasing.tokens.Fault: the text "{{}}" of a variant without named fields has braces
    """
    if text == "transparent":
        return "(it) => ::core::fmt::Display::fmt(it, f)"
    if not fields.startswith("{") and re.search(r"[{}]", text):
        raise Fault(f"the text {text} of a variant without named fields has braces")
    if not fields.startswith("{"):
        return f"{'(..)' if fields else ''} => f.write_str({text})"
    names = re.findall(r"(\w+):", fields)
    used = [it for it in names if f"{{{it}}}" in text]
    return f" {{ {', '.join(used if used == names else [*used, '..'])} }} => write!(f, {text})"


def documented(before, clauses, tests, leads=""):
    """The comment of a function, with where an example is and its contract behind it: first what it tests."""
    lines, parts = ["", leads] if leads else [], {"Panics unless": [], "The caller owes": [], "Proved": []}
    for word, name, it in clauses:
        part = "Proved" if word == "ensures" else "Panics unless" if it in tests else "The caller owes"
        parts[part].append((name, it))
    for title, found in parts.items():
        if found:
            lines += ["", f"# {title} ([terms](crate::definitions))", ""]
            lines += [f"- {f'*{name}*: ' if name else ''}`{it}`" for name, it in found]
    docs = [it for it in before.splitlines() if it.lstrip().startswith("///")]
    rest = [it for it in before.splitlines() if it.strip() and it not in docs]
    return "\n".join(["\n", *docs, *(f"/// {it}".rstrip() for it in lines), *rest]) + "\n"
