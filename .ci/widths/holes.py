"""Templates: texts with holes, from which the files of all widths of tuples are made.

A hole has the text for the first part, which is repeated for each part:

    ⟨$A: Column⟩                 A: Column, B: Column, C: Column
    ⟨$A: Truncate | $A: Len⟩     the text after the bar is for the last part: A: Truncate, B: Truncate, C: Len
    ⟨[1:]: &self.$0⟩             some of the parts, like a slice in Python: &self.1, &self.2
    ⟨nest: $first⟩               a shape of SHAPES instead of a list: (first, (second, third))
    ⟨fold both: $A.x⟩            one function applied: both A.x (both B.x C.x)

The words of a part are $A, the type of its column; $P and $p, the type and the name of its item; $first, its name; $0, its
number; $side, its place in nested pairs (.0, .1.0, .1.1); $row, its part of the row r; $-2, the suffix that distinguishes its call
from earlier calls of the same name (nothing, -2, -3), and $-1, the same counted from the second part. Words outside of holes are
about the tuple: see WORDS in parts.py.

`rt fmt` lays out the files: a template of impls has short bodies on one line, and no empty lines in an impl. In contents and in
proofs a tuple is the nested pairs of its first part and the others, (A, (B, C))."""
import functools
import re

NUMBERS = "zero one two three four five six seven eight nine ten".split()
NTH = "first second third fourth fifth sixth seventh eighth ninth tenth".split()
COLUMNS, ITEMS = "ABCDEFGHIJ", "PQRSTUVWXY"



def closed(x):
    """Returns a term as an argument: in parentheses, if it has a space outside of parentheses."""
    return f"({x})" if " " in re.sub(r"\(.*\)", "", x) else x


def nest(xs):
    return xs[0] if len(xs) == 1 else f"({xs[0]}, {nest(xs[1:])})"


def left(xs):
    return xs[0] if len(xs) == 1 else f"({left(xs[:-1])}, {xs[-1]})"


def times(xs):
    return " × ".join(xs) if len(xs) < 3 else f"{xs[0]} × ({times(xs[1:])})"


def appended(xs):
    return xs[0] if len(xs) == 1 else f"{xs[0]} ++ {closed(appended(xs[1:]))}"


def then(xs):
    return xs[0] if len(xs) == 1 else f"{xs[0]}.then({then(xs[1:])})"


def fold(function, xs):
    return xs[0] if len(xs) == 1 else f"{function} {closed(xs[0])} {closed(fold(function, xs[1:]))}"


def arguments(apart, xs):
    """Returns the first terms as separate arguments, then a list of the others."""
    return " ".join([closed(x) for x in xs[:apart]] + [f"({' ∷ '.join(xs[apart:] + ['[]'])})"])


SHAPES = {
    "commas": ", ".join,  # a, b, c: the shape of a hole that names none
    "lines": "\n".join,
    "nest": nest,  # (a, (b, c))
    "left": left,  # ((a, b), c)
    "times": times,  # a × (b × c)
    "appended": appended,  # a ++ (b ++ c)
    "and": " && ".join,
    "then": then,  # a.then(b.then(c))
    "1+list": functools.partial(arguments, 1),  # a (b ∷ c ∷ [])
    "2+list": functools.partial(arguments, 2),  # a b (c ∷ [])
}
# ⟨shape[low:high]: each | last⟩, of which all but `each` may be absent
HOLE = re.compile(
    r"⟨(?:(?P<shape>fold [^:\[⟩]+|" + "|".join(map(re.escape, SHAPES)) + r")?(?:\[(?P<low>-?\d*):(?P<high>-?\d*)\])?: )?"
    r"(?P<each>[^⟨⟩]*?)(?: \| (?P<last>[^⟨⟩|]*))?⟩")


def put(text, said):
    """Returns the text with a replacement for each known $word; other words stay."""
    return re.sub(r"\$(-[12]|\w+)", lambda word: said.get(word[1], word[0]), text)


def row_of(part, width):
    """Returns the part's own component of the row r, a tuple."""
    row = "r"
    for _ in range(part):
        row = f"(second_of {row})"
    return row if part == width - 1 else f"(first_of {row})"


def words_of_part(part, width):
    return {"row": row_of(part, width), "A": COLUMNS[part], "P": ITEMS[part], "p": ITEMS[part].lower(), "first": NTH[part], "0": str(part),
            "side": ".1" * part + (".0" if part < width - 1 else ""),
            "-2": f"-{part + 1}" if part > 0 else "", "-1": f"-{part}" if part > 1 else ""}


def fill(text, width, parts=None, /, **said):
    """Returns the text with its holes filled for these parts of a tuple; for all parts if none are named."""
    parts = range(width) if parts is None else parts

    def filled(hole):
        chosen = parts[slice(*(int(end) if end else None for end in hole.group("low", "high")))]
        texts = [put(hole["each"], words_of_part(part, width)) for part in chosen]
        if hole["last"] is not None:
            texts[-1] = put(hole["last"], words_of_part(chosen[-1], width))
        shape = hole["shape"] or "commas"
        return fold(shape[5:], texts) if shape.startswith("fold ") else SHAPES[shape](texts)

    return HOLE.sub(filled, put(text, said))
