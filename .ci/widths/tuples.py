"""The files of tuples of three to ten columns in columnar_base and columnar_core."""
from holes import NUMBERS, fill
from parts import WIDTHS, answers, template, words


def of_pairs(law, width, first=0):
    """Returns a law of nested pairs: that of the first part, and that of the pairs of the others."""
    if first == width - 1:
        return fill(f"⟨$A.{law}⟩", width, [first])
    others = of_pairs(law, width, first + 1)
    text = f"(pair_{law} ⟨[:1]: $A.format⟩ (nested ⟨1+list[1:]: $A.format⟩) ⟨[:1]: $A.{law}⟩ {others})"
    return fill(text, width, range(first, width))


def base(width):
    """The chain of pushes and copies continues in the file of the next lower width; that of two is in tuple.rt."""
    uses = "use crate::tuple::{ByRef, ByValue, Enter, duplicate_after, enter_two, reserve_after, taken_back};"
    if width > 3:
        uses = fill("use crate::tuple::$fewer::enter_$fewer;\n", width, **words(width)) + uses.replace("enter_two, ", "")
    return fill(template("base"), width, **words(width), uses=uses, lawful=of_pairs("lawful", width))


def counted(width, first=0):
    """Returns the counts of a content of nested pairs: those of the first part, and those of the pairs of the others."""
    if first == width - 1:
        return fill("⟨$A.counted c.$0⟩", width, [first])
    contents = "(slices_of (⟨[:1]: $A.content c.$0⟩)) (slices_of (⟨fold both[1:]: $A.content c.$0⟩))"
    text = f"two_counted {contents} (⟨[:1]: $A.counted c.$0⟩) ({counted(width, first + 1)})"
    return fill(text, width, range(first, width))


# The goals about the lifetimes of a nest of references double with each part. So a wide nest is written as two: the parts of the
# second half, the larger one of an odd width, first form a nest named `later`. These are the widths from which this is done, for
# plain references and for those in an `Owned`. A check has five parts in front.
HALVES_LENT, HALVES_OWNED, HALVES_CHECK = 7, 5, 7


def halves(part, width, wide):
    """Returns a nest of all parts: the line before it, if its width needs two nests, and the nest."""
    if width < wide:
        return "", fill(f"⟨nest: {part}⟩", width)
    half = width // 2
    return fill(f"let later = ⟨nest[{half}:]: {part}⟩;\n", width), fill(f"⟨nest[:{half + 1}]: {part} | later⟩", width)


def nested_room(width, law, column, fact, cut="", first=0):
    """Returns the proof of a fact about the room of nested parts, by a law for two parts; `column` is the type of a part, `cut` the number of
    rows that stay, if the law has one."""
    if first == width - 1:
        return fill(fact, width, [first])
    text = f"({law} ⟨[:1]: g.{column}.Column.format⟩ (nested ⟨1+list[1:]: g.{column}.Column.format⟩) {cut}{fact} {nested_room(width, law, column, fact, cut, first + 1)})"
    return fill(text, width, range(first, width))


def reserved(width):
    """Returns the proof that each part has its reserved room if the last call is Ok: each call is Ok only if the one before it was."""
    calls = ["c.reserve_room-done", *(f"c.reserve_after-done{f'-{at}' if at > 1 else ''}" for at in range(1, width - 1)), "c.reserve_after"]

    def part(at):
        text = f"{calls[at]}.ensures.room"
        for later in range(at + 1, width):
            text = f"(on_earlier _ {calls[later]}.result {calls[later - 1]}.result {calls[later]}.ensures.earlier {text})"
        return text

    text = part(width - 1)
    for at in reversed(range(width - 1)):
        text = f"(both_covered _ _ _ _ _ _ {calls[-1]}.result {part(at)} {text})"
    return text[1:-1]


def core(width):
    check, check_parts = "check_tuple", "check_tuple(&⟨nest: &self.$0 | (&self.$0,)⟩, from, tally)"
    if width >= HALVES_CHECK:
        check = "check_long"
        check_parts = "let later = ⟨nest[5:]: &self.$0 | (&self.$0,)⟩;\ncheck_long(⟨[:5]: &self.$0⟩, later, from, tally)"
    later_lent, lent = halves("&self.$0", width, HALVES_LENT)
    later_owned, owned = halves("Owned(&self.$0)", width, HALVES_OWNED)
    return fill(template("core"), width, **words(width), storable=of_pairs("storable", width), counted=counted(width), check=check,
                check_parts=fill(check_parts, width), later_lent=later_lent, lent=lent, later_owned=later_owned, owned=owned,
                same_parts="same_parts, same_tuple" if width > 3 else "same_tuple")


def made():
    """Yields each file: its path, the name of its template, and its text before `rt fmt`."""
    for width in WIDTHS:
        yield f"crates/columnar_base/src/tuple/{NUMBERS[width]}.rt", "base", base(width)
        yield f"crates/columnar_core/src/tuple/{NUMBERS[width]}.rt", "core", core(width)
    yield from answers("answers", lambda width: {"added": nested_room(width, "pair_adds_room", "$P", "c.add_room⟨[:1]: $-2⟩.ensures"), "freed": nested_room(width, "pair_frees", "$A", "c.clear⟨[:1]: $-2⟩.ensures.freed", "0 "), "cut_freed": nested_room(width, "pair_frees", "$A", "c.truncate⟨[:1]: $-2⟩.ensures.freed", "c.args.n "), "reserved": reserved(width)})
