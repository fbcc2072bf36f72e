"""The texts of errors: `Display` and `Error`, as `thiserror` derives them from the variants' attributes."""
from rereading.lexer import Unexplained, listed, partners, split, words_of


def error_of(name, words, file):
    """What is derived of an error with this name and these variants.

    >>> said = lambda text: " ".join(error_of("E", words_of(text), "a.rt")).split("match self ")[1]
    >>> said('#[error("no memory")] Memory(#[from] A)')
    '{ E :: Memory ( .. ) => f . write_str ( "no memory" ) , } } } impl :: core :: error :: Error for E { }'
    >>> said('#[error("at {at}")] At { at: usize, of: usize }')[:60]
    '{ E :: At { at , .. } => write ! ( f , "at {at}" ) , } } } i'
    >>> said('#[error("{0}")] Memory(A)')
    Traceback (most recent call last):
    rereading.lexer.Unexplained: a.rt: the text "{0}" of a variant without named fields has braces
    >>> said('#[error("{{}}")] Memory')
    Traceback (most recent call last):
    rereading.lexer.Unexplained: a.rt: the text "{{}}" of a variant without named fields has braces
    """
    arms, partner, i, text = [], partners(words), 0, None
    while i < len(words):
        if words[i] == "#":
            text = words[i + 4] if words[i + 2] == "error" else text
            i = partner[i + 1] + 1
        elif words[i] == ",":
            i += 1
        else:
            end = partner.get(i + 1, i)
            arms += [name, "::", words[i], *arm(words[i + 1 : end + 1], text, file), ","]
            i = end + 1
    head = f"impl ::core::fmt::Display for {name} {{ fn fmt(&self, f: &mut ::core::fmt::Formatter<'_>) -> ::core::fmt::Result"
    return [*words_of(f"{head} {{ match self {{"), *arms, *words_of(f"}} }} }} impl ::core::error::Error for {name} {{}}")]


def arm(fields, text, file):
    """What stands behind a variant's name: its fields, and what it writes."""
    if text == "transparent":
        return words_of("(it) => ::core::fmt::Display::fmt(it, f)")
    if fields[:1] == ["{"]:
        names = [part[part.index(":") - 1] for part in split(fields[1:-1])]
        used = [it for it in names if f"{{{it}}}" in text]
        shown = used if used == names else [*used, ".."]
        return ["{", *listed([[it] for it in shown]), "}", "=>", *words_of("write!(f, "), text, ")"]
    if "{" in text or "}" in text:
        raise Unexplained(f"{file}: the text {text} of a variant without named fields has braces")
    return [*(["(", "..", ")"] if fields else []), "=>", *words_of("f.write_str("), text, ")"]
