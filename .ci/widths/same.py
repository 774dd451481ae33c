"""`SameAs` of tuples of three to ten columns, in columnar_lookback: all widths in one file."""
from holes import NUMBERS, fill, put
from parts import WIDTHS, answer_file, template, words


def same():
    """All widths in one file, each with the function that the next wider one calls for its parts after the first, except the widest."""
    text = template("same_head")
    for width in WIDTHS:
        chain = "" if width == WIDTHS[-1] else template("same_chain")
        text += fill(f"\n{chain}\n{template('same')}" if chain else f"\n{template('same')}", width, **words(width))
    return text


# The impl has a tuple of columns, whose format is that of the nest with other rules, and a tuple of items; the chain has the
# columns and items of a nest one by one.
SAME_AS_IN = {
    "columnar_lookback/proofs/same/tuples/Tuple{number}SameAs/same": {
        "sound": "((tuple_same $formats).back _ c.requires.sound)", "column": "c.args.self.now.$0",
        "item": "c.args.item.now.$0", "use_same": "\nuse Rattle.columnar_base.specs.LongTupleLaws.{tuple_same}"},
    "columnar_lookback/proofs/same/tuples/same_{width}": {
        "sound": "c.requires.sound", "column": "c.args.$first.now", "item": "c.args.$p.now", "use_same": ""},
}


def answers():
    """Yields each file of answers. The widest impl is the last that calls the chain."""
    for folder, more in SAME_AS_IN.items():
        for width in WIDTHS[:-1] if folder.endswith("same_{width}") else WIDTHS:
            place = folder.format(width=NUMBERS[width], number=width)
            path, text = answer_file(place, put(template("same_answers").strip(), more), width)
            yield path, "same_answers", text


def made():
    yield "crates/columnar_lookback/src/same/tuples.rt", "same", same()
    yield from answers()
