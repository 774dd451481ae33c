"""The names of the slices of tuples of three to ten columns, in columnar_names."""
from holes import NUMBERS, fill
from parts import WIDTHS, template, words


def made():
    for width in WIDTHS:
        yield f"crates/columnar_names/src/tuple/{NUMBERS[width]}.rt", "names", fill(template("names"), width, **words(width))
