"""The rules, applied to the words of a file: those of the table, and those that no pattern says."""
from rereading.lexer import CLOSING, NAME, OPENING, Unexplained, partners, words_of
from rereading.rules import METHODS, NATIVE, RULES

# What no made file has.
LEFT = {"ghost", "requires", "ensures", "tactic", "Model", "Global", "alloc", "laws", "prove", "unreachable_unchecked"}


class Rule:
    """A rule of the table.

    >>> rule = Rule("vec![in alloc; $a; $b]", "KIT::filled($a, $b)", "kit")
    >>> words = words_of("vec![in alloc; 0u8; f(1, 2)]?")
    >>> found, i = rule.at(words, 0, partners(words))
    >>> found["$b"], words[i]
    (['f', '(', '1', ',', '2', ')'], '?')
    """

    def __init__(self, pattern, into, kit):
        self.pattern, self.into = with_holes(pattern), with_holes(into.replace("KIT", kit))

    def at(self, words, i, partner):
        """What the holes are here, and the place behind the words of the rule; or nothing."""
        found = {}
        for n, it in enumerate(self.pattern):
            if i >= len(words):
                return None
            if not it[0] == "$":
                if words[i] != it:
                    return None
                i += 1
            else:
                begin = i
                while i < len(words) and words[i] != self.pattern[n + 1]:
                    if words[i] in CLOSING:
                        return None
                    i = partner.get(i, i) + 1
                found[it] = words[begin:i]
        return found, i


def with_holes(text):
    """The words of a pattern, in which `$` and a name are one.

    >>> with_holes("f($a, b)")
    ['f', '(', '$a', ',', 'b', ')']
    """
    out = []
    for it in words_of(text):
        if out and out[-1] == "$":
            out[-1] += it
        else:
            out.append(it)
    return out


class Rewriting:
    """All rules, for a crate's files.

    >>> instead = {("type by instruction", "Portable"): "native::Bits", ("replaced by", "f"): "native::g"}
    >>> rewriting = Rewriting(True, "crate::kit", {("A", "set"), ("D", "bits")}, {"D"}, instead)
    >>> said = lambda text: " ".join(rewriting.all(words_of(text)))
    >>> said("x.set(alloc, i); A::set(i); B::set(i); E::bits(1)")
    'x . set_proved ( i ) ; A :: set_proved ( i ) ; B :: set ( i ) ; E :: bits_proved ( 1 )'
    >>> said("{ laws::f(&a); mask_bits::laws::g::<u8>(b, c.d); prove!(1 < 2); a.collect(alloc)? }")
    '{ a . try_collected ( ) ? }'
    >>> said("{ laws::f(cut(&mut v)); }")
    Traceback (most recent call last):
    rereading.lexer.Unexplained: `laws :: f ( cut ( & mut v ) )` may do something
    >>> said("a::narrow::<Portable, _>(x, alloc); Portable::of(f(1))")
    'crate :: native :: quickest ! ( a :: narrow :: < native :: Bits , _ > ( x ) , a :: narrow :: < Portable , _ > ( x ) ) \
; crate :: native :: quickest ! ( native :: Bits :: of ( native :: g ( 1 ) ) , Portable :: of ( native :: g ( 1 ) ) )'
    """

    def __init__(self, inside, kit, twins, lawful, instead, names=()):
        self.inside, self.twins, self.lawful, self.instead = inside, twins, lawful, instead
        # public names of methods, by their types and their names in the sources
        self.names = dict(names)
        self.rules, self.methods = {}, {name for _, name in twins}
        own = [(f"{name}(", f"{it}(", "") for (how, name), it in instead.items() if how == "replaced by" and inside]
        for pattern, into, _ in RULES + own:
            rule = Rule(pattern, into, kit)
            self.rules.setdefault(rule.pattern[0], []).append(rule)

    def all(self, words):
        words = self.by_table(without_laws(without_alloc(words)))
        words = renamed_methods(words)
        if self.inside:
            words = self.by_body(quickest(words, {name: it for (how, name), it in self.instead.items() if how == "type by instruction"}))
        else:
            words = self.by_public_name(words)
        if left := next((it for it in words if it in LEFT), None):
            raise Unexplained(f"`{left}` is left")
        return words

    def by_table(self, words):
        """The words by the rules of the table, of which the first that fits a place is taken."""
        out, i, partner = [], 0, partners(words)
        while i < len(words):
            behind_fn = out[-1:] == ["fn"]
            for rule in self.rules.get(words[i], ()) if not behind_fn else ():
                if fit := rule.at(words, i, partner):
                    found, i = fit
                    out += [word for it in rule.into for word in (self.by_table(found[it]) if it in found else [it])]
                    break
            else:
                out.append(words[i])
                i += 1
        return out

    def by_body(self, words):
        """Calls inside the package go to what has the body, and test nothing."""
        out = []
        for i, it in enumerate(words):
            fits = it in self.methods and operands_at(words, i) and self.has_twin(words, i)
            out.append(f"{it}_proved" if fits else it)
        return out

    def by_public_name(self, words):
        """A program's calls go to methods by their public names: a method's call by the name alone, which is of all types.

        >>> rewriting = Rewriting(False, "::row_mask::kit", set(), set(), {}, {("A", "cut"): "try_cut"})
        >>> " ".join(rewriting.all(words_of("a.cut(1); A::cut(1); B::cut(1); a.cut; f::cut(1)")))
        'a . try_cut ( 1 ) ; A :: try_cut ( 1 ) ; B :: cut ( 1 ) ; a . cut ; f :: cut ( 1 )'
        """
        methods, out = {name: it for (_, name), it in self.names.items()}, []
        for i, it in enumerate(words):
            found = it
            if it in methods and operands_at(words, i):
                if words[i - 1] == ".":
                    found = methods[it]
                elif words[i - 1] == "::":
                    found = self.names.get((words[i - 2], it), it)
            out.append(found)
        return out

    def has_twin(self, words, i):
        """Whether the call at a place goes to what has the body: a type's where that type has one, and a method's always,
        since other types' methods of its name have both names."""
        if words[i - 1] == ".":
            return True
        of = words[i - 2]
        lawful = any((it, words[i]) in self.twins for it in self.lawful)
        return words[i - 1] == "::" and of[0].isupper() and ((of, words[i]) in self.twins or lawful)


def operands_at(words, i):
    """Where the operands of a call begin, if its name stands here.

    >>> operands_at(words_of("f::<u8>(a)"), 0), operands_at(words_of("f(a)"), 0), operands_at(words_of("f.a"), 0)
    (5, 1, None)
    """
    i += 1
    if words[i : i + 2] == ["::", "<"]:
        i, depth = i + 2, 1
        while depth:
            depth += (words[i] == "<") - (words[i] == ">")
            i += 1
    return i if i < len(words) and words[i] == "(" else None


def without_alloc(words):
    """Without the allocator where it is an operand, a parameter or a field: Rust has one.

    >>> " ".join(without_alloc(words_of("f(alloc, a, self.alloc, rt.alloc()); A { alloc, pub b: u8 }")))
    'f ( a ) ; A { pub b : u8 }'
    """
    out, i = [], 0
    while i < len(words):
        end = behind_alloc(words, i) if out and (out[-1] in OPENING or out[-1] == ",") else i
        if end > i and end < len(words) and (words[end] == "," or words[end] in CLOSING):
            i = end + 1 if words[end] == "," else end
            if words[end] in CLOSING and out[-1] == ",":
                out.pop()
        elif words[i : i + 3] == ["let", "$", "alloc"]:
            i = words.index(";", i) + 1
        else:
            out.append(words[i])
            i += 1
    return out


def behind_alloc(words, i):
    """Behind what is the allocator, if that stands here."""
    begin = i
    if words[i] == "pub":
        i = words.index(")", i) + 1 if words[i + 1] == "(" else i + 1
    if words[i : i + 3] in (["alloc", ":", "Global"], ["_alloc", ":", "Global"]):
        return i + 3
    i = begin
    if words[i : i + 2] == ["$", "alloc"]:
        return i + (4 if words[i + 2 : i + 4] == [":", "ident"] else 2)
    while NAME.fullmatch(words[i]) and words[i + 1 : i + 2] == ["."]:
        i += 2
    if words[i] != "alloc":
        return begin
    return i + (3 if words[i - 2 : i + 3] == ["rt", ".", "alloc", "(", ")"] else 1)


def without_laws(words):
    """Without calls of laws, which run nothing, and whose operands do nothing."""
    out, partner, i = [], partners(words), 0
    while i < len(words):
        first = operands_at(words, i + 2) if words[i : i + 2] == ["laws", "::"] else None
        if first is None:
            out.append(words[i])
            i += 1
            continue
        if out[-1] == "::":
            del out[-2:]
        last = partner[first]
        if any(not (NAME.fullmatch(it) or it in "&.,::") or it == "mut" for it in words[first + 1 : last]):
            raise Unexplained(f"`{' '.join(words[i : last + 1])}` may do something")
        if words[last + 1] != ";" or out[-1] not in "{};":
            raise Unexplained(f"`{' '.join(words[i : last + 1])}` is no statement")
        i = last + 2
    return out


def renamed_methods(words):
    """Methods by their names in `kit`.

    >>> " ".join(renamed_methods(words_of("fn push(a) { a.push(1); a.push + push; A::push; 0..push(b) }")))
    'fn try_push ( a ) { a . try_push ( 1 ) ; a . push + push ; A :: try_push ; 0 .. push ( b ) }'
    """
    out = []
    for i, it in enumerate(words):
        is_call = words[i - 1] == "." and words[i + 1] in ("(", "::") if it in METHODS else False
        out.append(METHODS[it] if is_call or it in METHODS and words[i - 1] in ("fn", "::") else it)
    return out


def quickest(words, types):
    """Calls with a type, each beside the same with another, which is taken where the processor is quick at it."""
    out, partner, i = [], partners(words), 0
    while i < len(words):
        if words[i] not in types or words[i - 1] == "struct" or not (call := call_with(words, i, partner)):
            out.append(words[i])
            i += 1
            continue
        begin, last = call
        before, behind = words[begin:i], words[i + 1 : last]
        del out[len(out) - len(before) :]
        other = [*before, *words_of(types[words[i]]), *behind]
        out += [*words_of(f"{NATIVE}::quickest!"), "(", *other, ",", *before, words[i], *behind, ")"]
        i = last
    return out


def call_with(words, i, partner):
    """Where a call begins and ends that is one with the type at a place: of its own function, or of one for the type."""
    if words[i + 1 : i + 2] == ["::"] and words[i + 3 : i + 4] == ["("] and words[i + 2][0].islower():
        return i, partner[i + 3] + 1
    if words[i - 2 : i] != ["::", "<"]:
        return None
    begin = i - 3
    while words[begin - 1] == "::":
        begin -= 2
    first = operands_at(words, i - 3)
    return (begin, partner[first] + 1) if first else None
