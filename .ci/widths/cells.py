"""Writes in place of a row, or of one field, of tuples of three to ten columns, in columnar_cells."""
from holes import COLUMNS, NTH, NUMBERS, fill, fold, put, row_of, words_of_part
from parts import WIDTHS, answer_file, answers, headed, template, words


def formats_from(width, part):
    """Returns the formats of the parts from this one on."""
    return fill("⟨2+list: g.$A.Column.format⟩", width, range(part, width)).replace("([])", "[]")


def others_wrote(width, part=1):
    """Returns what is written in the nest of the other parts."""
    own = f"c.set_row-{part + 1}.ensures"
    if part == width - 1:
        return f"(λ s. {own})"
    return f"(λ s. nested_wrote {formats_from(width, part)} c.args.index _ _ s {own} {others_wrote(width, part + 1)})"


def field_wrote(width, at, part=0):
    """Returns what a write to field `at` leaves in this part, and in the nest of the later parts."""
    side = words_of_part(part, width)["side"]
    own = "c.set_row.ensures" if part == at else f"(part_kept c.args.index p{side} c.requires.in_range)"
    if part == width - 1:
        return f"(λ s. {own})"
    after = field_wrote(width, at, part + 1)
    if part == 0:
        return f"{own} {after}"
    return f"(λ s. nested_wrote {formats_from(width, part)} c.args.index _ _ s {own} {after})"


def field(width, at):
    """Returns the impl for one field of the row."""
    bounds = ", ".join(f"{COLUMNS[part]}: {'SetRow<Z>' if part == at else 'Len'}" for part in range(width))
    puts = fold("tuple", ["s" if part == at else row_of(part, width) for part in range(width)])
    return put(template("cells_field"), {"at": str(at), "mine": COLUMNS[at], "own": row_of(at, width), "put": puts, "bounds": bounds})


def field_answers(width):
    for at in range(width):
        for folder, _, text in headed("cells_field_answers"):
            place = folder.format(width=NUMBERS[width], number=width, at=at)
            side = words_of_part(at, width)["side"]
            path, made_text = answer_file(place, put(text, {"place": side, "field_wrote": field_wrote(width, at)}), width)
            yield path, "cells_field_answers", made_text


def conjunction(xs):
    return xs[0] if len(xs) == 1 else f"{xs[0]} & {xs[1]}" if len(xs) == 2 else f"{xs[0]} & ({conjunction(xs[1:])})"


def made():
    for width in WIDTHS:
        text = template("cells") + "".join(field(width, at) for at in range(width))
        text = fill(text, width, **words(width), all_fit=conjunction(NTH[:width]))
        yield f"crates/columnar_cells/src/tuple/{NUMBERS[width]}.rt", "cells", text
        yield from field_answers(width)
    yield from answers("cells_answers", lambda width: {"others_wrote": others_wrote(width)})
