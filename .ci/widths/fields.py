"""The fields of views of rows of one's own, in columnar_own: all widths in one file, with those of one and two fields by hand."""
from holes import fill
from parts import WIDTHS, answers, template, words


def rows_of_fields(width):
    """Returns the clauses that say what the rows of each field are."""
    columns = fill("⟦<(⟨$A⟩) as Column>⟧", width)
    clause = "ensures rows_of_$first { $A.format.rows ($A.content result.$0) ≡ %s $0 (" + f"{columns}.format.rows ({columns}.content parts))" + " }"
    return fill(f"⟨lines: {clause % 'rows_of_field'} | {clause % 'rows_of_last'}⟩", width)


def fields():
    text = template("fields_head")
    for width in WIDTHS:
        text += fill(template("fields"), width, **words(width), rows_of_fields=rows_of_fields(width))
    return text


def made():
    yield "crates/columnar_own/src/fields.rt", "fields", fields()
    yield from answers("fields_answers")
