"""Tuples as rows that are compared and hashed, in columnar_rows: all widths in one file."""
from holes import fill
from parts import WIDTHS, template, words


def made():
    text = template("ordered_head")
    for width in WIDTHS:
        text += "\n" + fill(template("ordered"), width, **words(width))
    yield "crates/columnar_rows/src/ordered/tuples.rt", "ordered", text
