"""A function of a source: the parts of its signature."""
from rereading.lexer import listed, partners, split, words_of

INTO_ITER = [".", "into_iter", "(", ")"]
TEST, LENT = words_of("F: Fn(&T) -> bool"), words_of("test: &F")


class Function:
    """The parts of a function's signature, from the word `fn` to before another.

    >>> from rereading.lexer import words_of
    >>> words = words_of("fn put<const K: usize, I: Iterator<Item = u8>>(&mut self, alloc: Global, it: I) -> bool {")
    >>> function = Function(words[:-1])
    >>> function.name, " ".join(function.call("put_proved", "A", ["it"]))
    ('put', 'self . put_proved :: < K , _ > ( it . into_iter ( ) )')
    >>> " ".join(function.signature(widened=True))
    'fn put < const K : usize , I : IntoIterator < Item = u8 > > ( & mut self , it : I ) -> bool'
    """

    def __init__(self, words):
        self.name = words[1]
        i = 2
        if words[i] == "<":
            i = behind_generics(words, i)
        self.generics = [without_drop(it) for it in split(words[3 : i - 1])]
        end = partners(words)[i] + 1
        self.parameters = [it for it in split(words[i + 1 : end - 1]) if it[0] not in ("alloc", "_alloc")]
        # (a test of rows that is lent may count what it is asked: each row is asked once, in their order)
        if TEST in self.generics and LENT in self.parameters:
            self.generics[self.generics.index(TEST)][2] = "FnMut"
            self.parameters[self.parameters.index(LENT)] = words_of("test: &mut F")
        self.tail = without_drop(words[end:])

    def operands(self):
        """The names of the parameters, but for `self`, with their types."""
        named = [it for it in self.parameters if it[-1] != "self"]
        named = [it[1:] if it[0] == "mut" else it for it in named]
        return {it[0]: "".join(it[2:]) for it in named}

    def is_method(self):
        return bool(self.parameters) and self.parameters[0][-1] == "self"

    def iterators(self):
        """The parameters that are iterators, with the names of their types."""
        kinds = {it[0] for it in self.generics if it[1:4] == [":", "Iterator", "<"]}
        return {name: it for name, it in self.operands().items() if it in kinds}

    def signature(self, name=None, widened=False):
        generics = self.generics
        if widened:
            generics = [
                [*it[:2], "IntoIterator", *it[3:]] if it[1:4] == [":", "Iterator", "<"] else it for it in generics
            ]
        inner = ["<", *listed(generics), ">"] if generics else []
        return ["fn", name or self.name, *inner, "(", *listed(self.parameters), ")", *self.tail]

    def call(self, name, of, listed_ones=()):
        """A call with the function's own parameters, of which these are lists."""
        anew = set(self.iterators().values())
        generics = [it[1] if it[0] == "const" else it[0] for it in self.generics if not it[0].startswith("'")]
        generics = [["_"] if it in anew else [it] for it in generics]
        inner = ["::", "<", *listed(generics), ">"] if generics else []
        handed = [[it, *INTO_ITER] if it in listed_ones else [it] for it in self.operands()]
        on = ["self", "."] if self.is_method() else [of, "::"] if of else []
        return [*on, name, *inner, "(", *listed(handed), ")"]


def behind_generics(words, i):
    """Behind the `>` of the `<` at a place."""
    depth = 0
    while True:
        depth += (words[i] == "<") - (words[i] == ">")
        i += 1
        if not depth:
            return i


def without_drop(words):
    """Bounds without `Drop`: each value in Rust can be let go.

    >>> from rereading.lexer import words_of
    >>> " ".join(without_drop(words_of("T: Copy + Drop, U: Drop")))
    'T : Copy , U'
    """
    out = []
    for it in words:
        if it == "Drop" and out and out[-1] in ("+", ":"):
            out.pop()
        else:
            out.append(it)
    return out
