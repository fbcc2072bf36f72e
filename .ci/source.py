"""What the scripts share: reads Rust with contracts, spec files and mutations, finds and builds programs, and counts.

`.ci/docs` runs the examples in it.
"""
import inspect
import json
import os
import re
import subprocess
import sys
import textwrap
from collections import namedtuple
from functools import cache
from itertools import takewhile
from pathlib import Path

ROOT = Path(__file__).resolve().parent.parent
CRATES = ROOT / "crates"
sys.path.append(str(ROOT / "tests"))
# Crates that have nothing but tests, and the benchmark.
TEST_CRATES = "mask_tests", "mask_bench"
CARGO_BUILD = "cargo build --offline -q --release --test calls --bin maskrun --message-format=json-render-diagnostics"
# An impl or a trait: where it stands, its type, an impl's trait, whether a public trait, ghosts but of private traits.
Block = namedtuple("Block", "start end owner trait is_public_trait ghosts")


class Function(namedtuple("Function", "file name path lines clauses contract whole is_public is_of_trait")):
    """A function: `name` as `Type::f` or `module::f`, `clauses` by name, its text up to the body and whole.

    `path` is its name for the check, without the crate and, of a method, without the module: `combine::extend`,
    `Mask::clone`, `MaskPartialEq::eq`. `lines` are its first, with its attributes, and its last, counted from 1.
    """

    @property
    def owner(self):
        """Its type, or its module's name."""
        return self.name.split("::")[0]

    @property
    def call(self):
        return self.name.split("::")[1]

    @property
    def place(self):
        """What no other function has."""
        return self.file, self.lines

    @property
    def is_method(self):
        return self.path[0].isupper()

    def named(self, *kinds):
        """The names of its clauses of these kinds."""
        return [name for name, (kind, _) in self.clauses.items() if kind in kinds]

    def calls(self):
        """The names of functions in its body, each after what it is a call of: a path's last part, `self`, or `.` of
        another value; nothing where it stands alone.

        >>> code = "fn f(a: A) { a.len(); self.low(g(1), h); Mask::new::<u8>(a.now); map(Self::one, a[0].two::<K>()) }"
        >>> for it in functions_in(Path("crates/c/src/lib.rt"), code): print(*sorted(it.calls()))
        ('', 'g') ('', 'h') ('', 'map') ('.', 'len') ('.', 'two') ('Mask', 'new') ('Self', 'one') ('self', 'low')
        """
        body = blanked(self.whole.split(self.contract)[-1])
        found = [(it or ".", name) for it, name in re.findall(r"(?:\b(self))?\s*\.\s*([a-z_]\w*)\s*(?=\(|::<)", body)]
        found += re.findall(r"(\w+)(?:::<[^()]*?>)?>?::(?=([a-z_]\w*))", body)
        return {*found, *(("", it) for it in re.findall(r"(?<![\w.:'])([a-z_]\w*)(?=\s*(?:[(,)]|::<))", body))}

    def stands_at(self, file, line):
        return self.file == file and self.lines[0] <= line <= self.lines[1]


@cache
def words_of(text):
    """The words of code, but for those of its comments and strings."""
    return {*re.findall(r"\w+", blanked(text))}


def blanked(text):
    """The text with comments, strings, characters and modules of tests as spaces, so that braces can be counted.

    >>> blanked("f('{', '}{', \\"}\\"); // {").split()
    ['f(', ',', "'}{',", ');']
    >>> blanked("fn f() {}  #[cfg(test)] mod tests { fn t() { } }").split()
    ['fn', 'f()', '{}']
    """
    def spaces(text):
        return re.sub(r"[^\n]", " ", text)

    parts = r"//[^\n]*|\"(?:\\.|[^\"\\])*\"|'(?:\\[^'\n]+|[^'\\\n])'"
    code = re.sub(parts, lambda it: spaces(it[0]), text)
    for it in re.finditer(r"#\[cfg\(test\)\]\s*mod \w+ \{", code):
        end = closing(code, it.end() - 1)
        code = code[: it.start()] + spaces(code[it.start() : end]) + code[end:]
    return code


def closing(text, at):
    """The place past the brace that closes the one at `at`."""
    depth = 0
    for it in re.compile(r"[{}]").finditer(text, at):
        depth += 1 if it[0] == "{" else -1
        if depth == 0:
            return it.end()
    return len(text)


@cache
def private_traits(folder):
    """The traits of the sources below a folder that no other crate sees."""
    found = (blanked(it.read_text()) for it in folder.rglob("*.rt"))
    return {it for code in found for it in re.findall(r"^(?:pub\([^)]*\) )?trait (\w+)", code, re.M)}


def blocks_of(code, private=()):
    """
    >>> code = "impl<'a, T: Into<Vec<u8>>> Model for Walk<'a> { ghost view = { 1 } } pub trait Cut: Sized { }"
    >>> [it[2:] for it in blocks_of(code.replace("} pub", "}\\npub"))]
    [('Walk', 'Model', False, ['view']), ('Cut', '', True, [])]
    >>> [it[2:] for it in blocks_of("impl Words for Walk { ghost view = { 1 } }", {"Words"})]
    [('Walk', 'Words', False, [])]
    """
    for it in re.finditer(r"^(?:pub(?:\([^)]*\))? )?(impl|trait)\b([^{;]*)\{", code, re.M):
        end = closing(code, it.end() - 1)
        head = it[2].replace("->", "")
        while (shorter := re.sub(r"<[^<>]*>", "", head)) != head:
            head = shorter
        head = " ".join(head.split()).split(" where ")[0]
        trait, _, owner = f" {head}".rpartition(" for ") if it[1] == "impl" else ("", "", head.split(":")[0])
        owner, trait = ((re.findall(r"\w+", part) or [""])[-1] for part in (owner, trait))
        ghosts = [] if trait in private else re.findall(r"\bghost (\w+) =", code[it.end() : end])
        yield Block(it.start(), end, owner, trait, it[0].startswith("pub trait"), ghosts)


def clauses_after(code, text, at):
    """The clauses of the function whose name ends at `at`, where its body begins, and where it ends."""
    clauses, depth = {}, 0
    part = re.compile(r"[(\[]|[)\]]|\b(requires|ensures)\b\*?\s*(\w*)\s*\{|[{;]")
    while it := part.search(code, at):
        at = closing(code, it.end() - 1) if it[0].endswith("{") else it.end()
        if it[0] in "([)]":
            depth += 1 if it[0] in "([" else -1
        elif it[1] and depth == 0:
            clauses[it[2] or it[1]] = (it[1], text[it.end() : at - 1])
        elif depth == 0:
            return clauses, it.start(), at
    return clauses, len(code), len(code)


def module_of(file):
    """The path of a file's module within its crate: nothing for the root.

    >>> module_of(Path("crates/c/src/mask/limit.rt")), module_of(Path("crates/c/src/lib.rt"))
    (('mask', 'limit'), ())
    """
    parts = file.with_suffix("").parts
    parts = parts[len(parts) - parts[::-1].index("src") :]
    return () if parts in [("lib",), ("main",)] else parts


def functions_in(file, text=None):
    """The functions of a file, or of another text in its place.

    >>> code = '''impl Mask {
    ...     /// How many values.
    ...     #[inline]
    ...     pub fn len(&self) -> usize
    ...         requires { small }
    ...         ensures len { result ≡ length self.now }
    ...     { self.len }
    ... }
    ... fn low<T>(at: [u8; 2]) { { } }'''
    >>> mask, low = functions_in(Path("crates/c/src/mask/len.rt"), code)
    >>> mask.name, mask.path, mask.lines, mask.is_public, mask.clauses["len"]
    ('Mask::len', 'Mask::len', (3, 7), True, ('ensures', ' result ≡ length self.now '))
    >>> mask.clauses["requires"], mask.whole.split("\\n")[0]
    (('requires', ' small '), '/// How many values.')
    >>> low.name, low.path, low.lines, low.is_public, low.contract, low.clauses
    ('len::low', 'mask::len::low', (9, 9), False, 'fn low<T>(at: [u8; 2])', {})
    """
    text = file.read_text() if text is None else text
    code = blanked(text)
    sources = next(it for it in file.parents if it.name == "src")
    blocks = list(blocks_of(code, private_traits(sources)))
    for it in re.finditer(r"\b(pub(?:\([^)]*\))? )?(?:const |unsafe |extern +)*fn (\w+)", code):
        clauses, sign, end = clauses_after(code, text, it.end())
        block = next((block for block in reversed(blocks) if block.start < it.start() < block.end), None)
        # (a law is called by the module that hands all of them on)
        owner = block.owner if block else "laws" if "laws" in module_of(file) else file.stem
        # (an impl's name begins with a capital, also that of a number's type)
        impl = block and block.owner[:1].upper() + block.owner[1:] + block.trait
        path = "::".join([impl or "::".join(module_of(file)), it[2]]).removeprefix("::")
        clauses |= {ghost: ("ghost", "") for ghost in (block.ghosts if block else ())}
        ensures = any(kind == "ensures" for kind, _ in clauses.values())
        is_promised = block and (block.is_public_trait or block.trait and ensures)
        is_public = bool(is_promised) or (it[1] or "").strip() == "pub"
        start = text.rfind("\n", 0, it.start()) + 1
        above = text[:start].splitlines()[::-1]
        comment = [*takewhile(re.compile(r"\s*(//|#\[)").match, above)]
        attributes = [*takewhile(re.compile(r"\s*#\[").match, above)]
        lines = len(above) - len(attributes) + 1, text.count("\n", 0, end) + 1
        whole = "\n".join([*comment[::-1], text[start:end]])
        contract, whole = (textwrap.dedent(part).strip() for part in (text[start:sign], whole))
        is_of_trait = bool(block and block.trait)
        yield Function(file, f"{owner}::{it[2]}", path, lines, clauses, contract, whole, is_public, is_of_trait)


@cache
def crates():
    """The crates of the repository, each with those that it stands on."""
    lines = re.findall(r"^(\w+).*?: *(.*)", (ROOT / "crates.txt").read_text(), re.M)
    return {name: text.split() for name, text in lines}


def library_crates():
    return [it for it in crates() if it != "uses"]


@cache
def functions_of(crate):
    """The functions of a crate, but for those of tests."""
    files = sorted((CRATES / crate / "src").rglob("*.rt")) if crate not in TEST_CRATES else []
    files = [it for it in files if "tests" not in it.relative_to(CRATES).with_suffix("").parts]
    return [it for file in files for it in functions_in(file)]


class Callers:
    """Which functions call which, as far as their texts say: a type that a file can't know has no method there.

    >>> bodies = ["low() {}", "mid() { low() }", "high() { mid() }", "top() { high() }", "idle() { let low = 1; }"]
    >>> code = "\\n".join(f"fn {it}" for it in bodies)
    >>> found = list(functions_in(Path("crates/c/src/lib.rt"), code))
    >>> [it.name for it in Callers(found).reaching(found[:1])]
    ['lib::low', 'lib::mid', 'lib::high', 'lib::top']
    >>> code = "pub trait Put {\\n  fn put();\\n}\\nimpl Put for Word {\\n  fn put() { low() }\\n}\\nfn low() {}"
    >>> found = list(functions_in(Path("crates/c/src/lib.rt"), code))
    >>> [it.name for it in Callers(found).reaching(found[2:])]
    ['Put::put', 'Word::put', 'lib::low']
    """

    def __init__(self, functions):
        self.functions, self.named, self.texts = functions, {}, {}
        for it in functions:
            self.named.setdefault(it.call, []).append(it)
            if it.file not in self.texts:
                self.texts[it.file] = it.file.read_text() if it.file.exists() else ""
        # the words by which a type is known: those of its definition, and of its methods up to their clauses
        self.words = {it.owner: set() for it in functions if it.is_method}
        for it in (it for it in functions if it.is_method):
            signature = re.split(r"\b(?:requires|ensures)\b", it.contract)[0]
            self.words[it.owner].update(re.findall(r"\w+", signature))
        for code in map(blanked, self.texts.values()):
            for it in re.finditer(r"\b(?:struct|enum|trait) (\w+)[^;{]*[;{]", code):
                end = closing(code, it.end() - 1) if it[0].endswith("{") else code.index(";", it.start())
                self.words.setdefault(it[1], set()).update(re.findall(r"\w+", code[it.start() : end]))
        self.known, self.callers = {it: self.known_by(it) for it in self.texts}, {}
        for it in functions:
            for called in self.called_by(it):
                self.callers.setdefault(called.place, []).append(it)

    def known_by(self, file):
        """The types that a file's code names, and those by which these are known."""
        left, found = [*self.words.keys() & re.findall(r"\w+", blanked(self.texts[file]))], set()
        while left:
            found.add(left[-1])
            left += self.words[left.pop()] & self.words.keys() - found
        return found

    def called_by(self, function):
        for before, name in function.calls():
            found = self.named.get(name, ())
            before = function.owner if before in ("self", "Self") else before
            own = [it for it in found if it.owner == before]
            if own:
                yield from own
            elif before in ("", "crate", "super"):
                imported = {name for _, _, names in imports(self.texts[function.file]) for name in names}
                yield from (it for it in found if not it.is_method and (it.file == function.file or name in imported))
            else:
                # (of a value, or of a type by a trait)
                yield from (it for it in found if it.is_method and it.owner in self.known[function.file])
        if not function.is_of_trait:
            # (the function of a trait calls those that implement it)
            yield from (it for it in self.named[function.call] if it.is_of_trait and it.path.endswith(function.path))

    def reaching(self, called):
        """The called functions, and those that call one of them, straight or by way of others."""
        found = {it.place: it for it in called}
        left = [*called]
        while left:
            new = [it for it in self.callers.get(left.pop().place, ()) if it.place not in found]
            found |= {it.place: it for it in new}
            left += new
        return [it for it in self.functions if it.place in found]


class Edit:
    """A mutation: what it breaks, and its pairs of texts, old and new, each after its file; or its fault.

    Of a file of `edits`, `own` is the source that it stands beside, which each pair changes that no line `file` is for.
    """

    def __init__(self, file, name, lines, own=None):
        self.file, self.name, self.breaks, self.pairs = file, name, [], []
        self.crate, self.folder = file.relative_to(CRATES).parts[:2]
        faults = ["its name is no word"] * (not re.fullmatch(r"\w+", name))
        path, old = own, None
        for line in lines:
            key, _, value = line.partition(": ")
            if key == "breaks" and not self.breaks:
                self.breaks = re.findall(r"\S+(?: by \S+)?", value)
            elif key == "file" and CRATES / self.crate / value.strip() != own:
                path = CRATES / self.crate / value.strip()
            elif key == "old" and path and not old:
                old = value
            elif key == "new" and old:
                self.pairs.append((path, old, value))
                path, old = own or path, None
            elif key != "why" or not value:
                faults.append(f"its line `{line}` is none of an edit")
        faults += ["its last `old` has no `new`"] * (old is not None) or ["it changes nothing"] * (not self.pairs)
        faults += [f"there is no {path.relative_to(ROOT)}" for path, _, _ in self.pairs if not path.is_file()]
        faults += [f"its first pair is not of {own.relative_to(ROOT)}" for it in self.pairs[:1] if own and it[0] != own]
        try:
            if not faults:
                self.laid_over({})
        except ValueError as why:
            faults.append(str(why))
        self.fault = faults[0] if faults else None

    def laid_over(self, texts):
        """These texts of files, and those of the other files that it changes, with what it changes."""
        texts = dict(texts)
        for path, old, new in self.pairs:
            text = texts.get(path) or path.read_text()
            if text.count(old) != 1:
                raise ValueError(f"its old text stands {text.count(old)} times in {path.name}: {old}")
            texts[path] = text.replace(old, new)
        return texts

    def changed(self):
        """The functions that it changes, or brings, as they then are."""
        before = {(it.path, it.whole) for it in functions_of(self.crate)}
        found = [it for path, text in self.laid_over({}).items() for it in functions_in(path, text)]
        return [it for it in found if (it.path, it.whole) not in before]


class Edits:
    """A file of mutations: in `must-fail` one, as `rt ci` reads it, in `edits` all of one source, each after its name,
    below the calls of this source that have none, by the reason; and the file's own faults."""

    def __init__(self, file, kind=Edit):
        crate, folder, *path = file.relative_to(CRATES).parts
        self.file, self.edits, self.without, self.faults = file, [], [], []
        lines = [it for it in file.read_text().splitlines() if it.strip()]
        ending = ".edit" if folder == "must-fail" else ".edits"
        self.faults += [f"its name does not end in `{ending}`"] * (file.suffix != ending)
        if folder == "must-fail":
            self.edits = [kind(file, file.stem, lines)]
            return
        self.source = own = CRATES.joinpath(crate, "src", *path).with_suffix(".rt")
        starts = [at for at, line in enumerate(lines) if line.startswith("edit: ")]
        for start, end in zip(starts, [*starts[1:], None]):
            self.edits.append(kind(file, lines[start].removeprefix("edit: ").strip(), lines[start + 1 : end], own))
        self.faults += [f"there is no {own.relative_to(ROOT)}"] * (not own.is_file())
        names = None
        for line in lines[: starts[0] if starts else None]:
            key, _, value = line.partition(": ")
            if key == "without" and not names:
                names = value.split(", ")
            elif key == "why" and names:
                self.without.append((names, value))
                names = None
            else:
                self.faults.append(f"its line `{line}` stands before any edit")
        self.faults += ["its last `without` has no `why`"] * bool(names)

    def in_order(self):
        """Its text, with the mutations in the order in which the first texts that they change stand in the source."""
        head, *parts = re.split(r"^(?=edit: )", self.file.read_text(), flags=re.M)
        if self.faults or not parts or any(it.fault for it in self.edits):
            return self.file.read_text()
        source = self.source.read_text()
        places = {it.name: source.index(it.pairs[0][1]) for it in self.edits}
        parts.sort(key=lambda it: places[it.split()[1]])
        return "\n\n".join(it.strip("\n") for it in (head, *parts) if it) + "\n"


@cache
def edits_files(crate, kind=Edit):
    """The files of a crate's mutations. Of those that have one name the second has a fault."""
    files = [it for folder in ("edits", "must-fail") for it in sorted(CRATES.glob(f"{crate}/{folder}/**/*"))]
    found = [Edits(it, kind) for it in files if it.is_file()]
    names = set()
    for edit in (edit for it in found for edit in it.edits):
        if edit.name in names:
            edit.fault = "its name stands twice in the crate"
        names.add(edit.name)
    return found


def edits_of(crate, kind=Edit):
    """The mutations of a crate, by name."""
    return sorted((edit for it in edits_files(crate, kind) for edit in it.edits), key=lambda it: it.name)


def edited_as(name):
    """What the names of a function's mutations may begin with: its own, with its type or module or without. Of an
    export to C they may leave out how all names begin, and the sizes of a row and of an index.

    >>> sorted(edited_as("BitBuffer::len"))
    ['bit_buffer_len', 'len']
    >>> sorted(edited_as("take::row_mask_take_8"))
    ['row_mask_take_8', 'take', 'take_row_mask_take', 'take_row_mask_take_8']
    """
    names = {name.split("::")[1], name.replace("::", "_")}
    names |= {re.sub(r"(_\d+)?(_by_\d+)?$", "", it.removeprefix("row_mask_")) for it in names}
    return {re.sub(r"(?<=[a-z])(?=[A-Z])", "_", it).lower() for it in names}


@cache
def command_words(crate):
    """The words of a program's sources that may be its commands; none of a library."""
    sources = (CRATES / crate / "src").rglob("*.rt") if (CRATES / crate / "src/main.rt").exists() else ()
    return {word for it in sources for word in re.findall(r'"([a-z]+)"', it.read_text())}


def letters_of(edit, function):
    """How many letters of a mutation's name are the name of the function, or a command of the program."""
    names = edited_as(function.name) | command_words(edit.crate)
    return max((len(it) for it in names if edit.name.startswith(f"{it}_")), default=0)


@cache
def credited(crate):
    """The mutations of each function, by its place: those that change it and, of a public call, those that begin with
    its name and change a function that it reaches. Of several names the longest counts."""
    functions, found = functions_of(crate), {}
    callers = Callers(functions)
    for edit in (it for it in edits_of(crate) if not it.fault):
        names = {(it.file, it.path) for it in edit.changed()}
        changed = [it for it in functions if (it.file, it.path) in names]
        named = {it.place: letters_of(edit, it) for it in callers.reaching(changed) if it.is_public}
        longest = max([1, *named.values()])
        places = {it.place for it in changed} | {it for it, letters in named.items() if letters == longest}
        for place in places:
            found.setdefault(place, []).append(edit)
    return found


@cache
def exported_types(crate):
    """The types that a library's root exports, and its module of rank intersection."""
    roots = (it for it in (CRATES / crate / "src").glob("*.rt") if it.stem in ("lib", "intersect_by_rank"))
    uses = (use for it in roots for use in re.findall(r"^pub use [^;]*", it.read_text(), re.M))
    return [it for use in uses for it in re.findall(r"\b[A-Z]\w*", use)]


@cache
def public_calls(crate):
    """The public functions but laws, and those of exported types by traits, of which the impl says what holds."""
    found = [it for it in functions_of(crate) if it.owner != "laws"]
    return [it for it in found if it.is_public or it.owner in exported_types(crate) and it.named("ghost")]


def comment_of(function):
    """Its comment, without the marks for the Rust that is made of it."""
    return " ".join(" ".join(re.findall(r"^//+ ?(?! ?rust: )(.*)", function.whole, re.M)).split())


def purpose_of(function, ends=".:"):
    """How its comment begins."""
    return re.split(rf"[{ends}](?:\s|$)", comment_of(function))[0].replace("|", r"\|") or "-"


def subject_of(file):
    """The first sentence of a module's comment, or the module's name."""
    comment = " ".join(re.findall(r"//! (.*)", re.match(r"(?://!.*\n)*", file.read_text())[0]))
    return re.split(r"[.](?:\s|$)", comment)[0] or file.stem


def quoted(names):
    return ", ".join(f"`{it}`" for it in names) or "-"


@cache
def imports(text):
    """The imports of code or of a spec file: `use` or `ghost use`, the path up to the names, and the names.

    >>> imports("ghost use Rattle.std.specs.Prelude.{◌≡◌, map};\\nuse std::alloc::Global;")
    [('ghost use', 'Rattle.std.specs.Prelude.', ['◌≡◌', 'map']), ('use', 'std::alloc::', ['Global'])]
    """
    line = r"^(?:pub )?((?:ghost )?use) ([\w.:]+(?:\.|::))(?:\{([^}]*)\}|(\w+))"
    found = re.findall(line, text, re.M)
    return [(kind, path, re.findall(r"[^\s,]+", group or name)) for kind, path, group, name in found]


@cache
def specs():
    """The texts of the spec files by module, crate by crate: those that most others import first, but each after
    those that it imports."""
    files = [it for crate in library_crates() for it in sorted((CRATES / crate / "specs").rglob("*.antt"))]
    modules = {it: ".".join(["Rattle", *it.relative_to(CRATES).with_suffix("").parts]) for it in files}
    # (a file beside a folder has the list of its modules alone)
    texts = {modules[it]: it.read_text() for it in files if it.stem != "Lib" and not it.with_suffix("").is_dir()}
    imported = {module: [path[:-1] for _, path, _ in imports(text)] for module, text in texts.items()}

    def rank(module):
        return library_crates().index(module.split(".")[1]), -sum(module in it for it in imported.values())

    def with_imports(module):
        return [*(it for low in imported.get(module, ()) for it in with_imports(low)), module]

    ordered = [it for module in sorted(texts, key=rank) for it in with_imports(module)]
    return {it: texts[it] for it in ordered if it in texts}


def program(crate, option, *arguments):
    """Where the program of a crate is: `--built` as `rt ci` left it, `--rust` of the Rust sources, or else `rt` proves
    it first, and runs it with these arguments."""
    if option == "--rust":
        # (with the lines of the sources, so that a place in a program can be told)
        how = {"cwd": ROOT / "rust", "env": {**os.environ, "CARGO_PROFILE_RELEASE_DEBUG": "line-tables-only"}}
        told = map(json.loads, subprocess.check_output(CARGO_BUILD.split(), **how).splitlines())
        built = {it["target"]["name"]: it["executable"] for it in told if it.get("executable")}
        return built["calls" if crate == "mask_tests" else crate]
    if option != "--built":
        how = {"cwd": CRATES / crate, "stdin": subprocess.DEVNULL, "stdout": subprocess.DEVNULL}
        subprocess.run(["rt", "run", "--", *arguments], **how, check=True)
    return CRATES / crate / "out" / crate


def tell(name, things):
    """Prints each fault of what was checked, where each thing is the list of its faults, and the counts. The status."""
    faults = dict.fromkeys(fault for it in things for fault in it)
    for it in faults:
        print(f"{name}: {it}")
    print(f"{sum(not it for it in things)} passed, {len(faults)} failed")
    return 1 if faults else 0


def start(main, *options):
    """Ends a script with the status of its `main`, which gets an option, if there are any, and then the other words
    that were given. Where these don't fit, it says what they may be."""
    words = sys.argv[1:]
    asked = [it for it in words if it.startswith("-")] or [""] * bool(options)
    words = [*asked, *(it for it in words if it not in asked)]
    try:
        inspect.signature(main).bind(*words)
    except TypeError:
        words = None
    if words is None or len(asked) > 1 or not {it.partition("=")[0] for it in asked} <= {"", *options}:
        sys.exit(main.__globals__["__doc__"])
    sys.exit(main(*words))
