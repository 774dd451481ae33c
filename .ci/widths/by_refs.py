"""Items made of references to the fields of one's own type, in columnar_own: all widths in one file, with those of one item, one field
and two fields by hand."""
from holes import fill
from parts import WIDTHS, answers, template, words


def by_refs():
    text = template("by_refs_head")
    for width in WIDTHS:
        text += fill(template("by_refs"), width, **words(width))
    return text


def made():
    yield "crates/columnar_own/src/by_refs.rt", "by_refs", by_refs()
    yield from answers("by_refs_answers")
