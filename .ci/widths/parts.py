"""What all kinds of files share: templates, the words of a tuple, and how the proof files are written."""
import os
import re

from holes import NUMBERS, fill

HERE = os.path.dirname(os.path.abspath(__file__))
WIDTHS = range(3, 11)


def template(name):
    with open(f"{HERE}/{name}.template", encoding="utf-8") as file:
        return file.read()


# The words of the tuple, outside of holes; those of the second block are for answers, that is, proof files. Also, $width is its
# number of parts as a word and $fewer one less, and in answers $call is the function and $goals the module of its goals.
WORDS = {
    "columns": "(⟨$A⟩)",
    "items": "(⟨$P⟩)",
    "names": "(⟨$first⟩)",
    "room": "(⟨$A::Room⟩)",
    "nested": "nested ⟨1+list: $A.format⟩",
    "old": "(⟨fold both: $A.content $first.old⟩)",
    "new": "(⟨fold both: $A.content $first.new⟩)",
    "now": "(⟨fold both: $A.content $first.now⟩)",
    "entered": "⟨1+list: $P.entry $p⟩",

    "formats": "⟨2+list: g.$A.Column.format⟩",
    "others": "(nested ⟨1+list[1:]: g.$A.Column.format⟩)",
    "entries": "⟨2+list: g.$P.Enter.entry c.args.$p⟩",
    "copied": "⟨2+list: g.$P.Column.format⟩ c.args.range.start c.args.range.«end»",
}


def words(width):
    return {word: fill(text, width) for word, text in WORDS.items()} | {"width": NUMBERS[width], "fewer": NUMBERS[width - 1]}


# --- Answers ---
#
# In a template of answers `NAME = TERM` answers the goal of that name; the `use` of the goals is added. A heading is the folder
# of a function, and the lowest width with answers, if narrower ones need none. Answers below two headings belong to both
# functions.


def headed(name):
    """Yields each heading of a template of answers: the folder, the lowest width, and the text below it."""
    for block in template(name).strip().split("\n\n"):
        heads, text = re.fullmatch(r"((?:=== .*\n)+)([^=][\s\S]*)", block).groups()
        for folder, lowest in re.findall(r"=== (\S+)(?: from (\d+))?", heads):
            yield folder, int(lowest or WIDTHS[0]), text


def answer_file(place, text, width, **said):
    """Returns the path and text of a file of answers, for a function in the folder `place` below crates/."""
    goals = f"Rattle.{place.replace('/', '.')}.Goals"
    text = fill(text, width, **words(width), goals=goals, call=os.path.basename(place), **said)
    text = re.sub(r"(?m)^([\w-]+) =(.*)$", r"\npub \1 : goal.\1\n\1 g c =\2", text)
    return f"crates/{place}/Answers.antt", text.replace("\n\n", f"\nuse {goals} as goal\n\n", 1) + "\n"


def answers(name, said=lambda width: {}):
    """Yields each file of answers of a template: its path, the name of the template, and its text."""
    for folder, lowest, text in headed(name):
        for width in range(lowest, WIDTHS[-1] + 1):
            path, made = answer_file(folder.format(width=NUMBERS[width], number=width, refs="Ref" * width), text, width, **said(width))
            yield path, name, made
