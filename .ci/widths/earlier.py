"""The earlier form of tuples of three to ten columns, in columnar_core: all widths in one file. A tuple is made like its nested
pairs, and each pair part by part."""
from holes import fill
from parts import WIDTHS, answers, template, words


def listed(text, width, first):
    """Returns the list of the texts for each part from `first` on."""
    return "(" + fill(f"⟨lines[{first}:]: {text}⟩", width).replace("\n", " ∷ ") + (" ∷ " if first < width else "") + "[])"


def one_by_one(width, first=1):
    """Returns the proof that the parts from `first` on have earlier forms, one after another."""
    if first == width:
        return "no_more"
    olds, news = listed("$A.Old.format", width, first + 1), listed("$A.format", width, first + 1)
    part = fill("⟨$A.Old.format⟩ ⟨$A.format⟩", width, [first])
    law = fill("⟨$A.earlier⟩", width, [first])
    return f"(one_more {part} {olds} {news} {law} {one_by_one(width, first + 1)})"


def earlier():
    text = template("earlier_head")
    for width in WIDTHS:
        said = {"olds": listed("$A.Old.format", width, 2), "news": listed("$A.format", width, 2), "earlier": one_by_one(width)}
        text += fill(template("earlier"), width, **words(width), **said)
    return text


def said_in_answers(width):
    return {"old_formats": fill("⟨2+list: g.$A.Old.Column.format⟩", width),
            "old_others": listed("g.$A.Old.Column.format", width, 2), "new_others": listed("g.$A.Column.format", width, 2)}


def made():
    yield "crates/columnar_core/src/earlier/tuples.rt", "earlier", earlier()
    yield from answers("earlier_answers", said_in_answers)
