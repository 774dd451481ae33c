"""Tuples of three to ten values as types of columns, in columnar_types."""
from holes import NUMBERS, fill
from parts import WIDTHS, template, words


def made():
    for width in WIDTHS:
        yield f"crates/columnar_types/src/tuple/{NUMBERS[width]}.rt", "types", fill(template("types"), width, **words(width))
