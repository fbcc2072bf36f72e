"""What `rustfmt` puts or takes as it lays a text out: commas before a closing bracket, and the braces of an arm."""
import subprocess

from rereading.lexer import Unexplained, partners

LAYOUT = ["rustfmt", "--edition", "2024", "--config", "use_small_heuristics=Max"]


def plain(words):
    """Words in one form.

    >>> from rereading.lexer import words_of
    >>> " ".join(plain(words_of("match f(a, b,) { A => { g(a) } B => { g(b); } C => 1, D => {}, }")))
    'match f ( a , b ) { A => g ( a ) , B => { g ( b ) ; } C => 1 , D => { } }'
    """
    words = arms(words)
    return [it for it, behind in zip(words, [*words[1:], ""]) if it != "," or behind not in (")", "]", "}", ">")]


def arms(words):
    """Words in which an arm has braces just where there are statements in it, and a comma just where it has none."""
    out, partner, more = [], partners(words), {}
    for i, it in enumerate(words):
        if it == "=>" and words[i + 1 : i + 2] == ["{"]:
            last = partner[i + 1]
            is_one = is_value(words, i + 1, last, partner)
            more[last] = [","] if is_one else ["}"]
            if is_one:
                more[i + 1] = []
            if words[last + 1 : last + 2] == [","]:
                more[last + 1] = []
        out += more.get(i, [it])
    return out


def is_value(words, first, last, partner):
    """Whether just a value stands in these braces, and no statement."""
    i = first + 1
    if i == last or words[i] == "{":
        return False
    while i < last and words[i] != ";":
        i = partner.get(i, i) + 1
    return i == last


def is_laid_out(text):
    """Whether `rustfmt` leaves a text as it is."""
    run = subprocess.run(LAYOUT, input=text, capture_output=True, text=True, check=False)
    return run.returncode == 0 and run.stdout == text


def laid_out(folder, places):
    """Nothing, if `rustfmt` leaves the files at these places as they are."""
    files = [str(folder / it) for it in places]
    run = subprocess.run([*LAYOUT, "--check", "-l", *files], capture_output=True, text=True, check=False)
    if run.returncode:
        raise Unexplained(f"`rustfmt` lays out anew: {(run.stdout + run.stderr)[:2_000]}")
