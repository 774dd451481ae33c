"""The record of a crate's edits: for each, the checksum of what its verdict rests on, and the verdict.

A verdict rests on the edit; on the files that it changes, the file of its function and that function's proof files; on all
that these import, directly or not (imports.py); and on the toolchain. `.ci/edits.py` writes a line for each edit into
crates/NAME/edits/record.txt. A run tries each edit whose checksum differs from the recorded one."""
import functools
import hashlib
import os
import re

from edit import edits_of
from imports import read, reached_from, signature
from repository import ROOT, crates, said_by

DIGITS = 20


def checksum(*texts):
    made = hashlib.sha256()
    for text in texts:
        made.update(hashlib.sha256(text.encode()).digest())
    return made.hexdigest()[:DIGITS]


def function_files(crate, of):
    """Returns the source file of a function, by its path below the crate, and its proof files, with those of the cycles of
    calls in its module."""
    names = of.split("::")
    files = [f"crates/{crate}/src/{root}.rt" for root in ("lib", "main")]
    files += [f"crates/{crate}/src/{'/'.join(names[:n])}.rt" for n in range(1, len(names))]
    found = [it for it in files if os.path.isfile(f"{ROOT}/{it}")][-1:]
    folder = f"{ROOT}/crates/{crate}/proofs"
    for at, _, names_there in os.walk(f"{folder}/{'/'.join(names[:-1])}"):
        place = os.path.relpath(at, folder).split("/")
        if place == names or place[-1].startswith("+"):
            found += [os.path.relpath(f"{at}/{it}", ROOT) for it in names_there if it.endswith(".antt")]
    return found


@functools.cache
def words_of(path):
    return frozenset(re.findall(r"\w+", read(path)))


def signatures(files, words):
    return checksum(*(text for it in reached_from(files) for text in (it, signature(it, words))))


@functools.cache
def kit_line():
    return said_by("rt", "version")


def rests_on(crate, edit):
    """Returns the checksum of what the verdict of an edit rests on."""
    own = {f"crates/{crate}/{file}" for file, _, _ in edit.pairs} | set(function_files(crate, edit.of))
    own = tuple(sorted(it for it in own if os.path.isfile(f"{ROOT}/{it}")))
    words = frozenset(re.findall(r"\w+", edit.text)).union(*(words_of(it) for it in own))
    return checksum(kit_line(), edit.text, *(text for it in own for text in (it, read(it))), signatures(own, words))


def path(crate):
    return f"{ROOT}/crates/{crate}/edits/record.txt"


def recorded(crate):
    """Returns, by edit, the recorded checksum and verdict."""
    found = {}
    if os.path.isfile(path(crate)):
        with open(path(crate), encoding="utf-8") as lines:
            for line in lines:
                sum_, _, rest = line.rstrip("\n").partition(" ")
                name, _, verdict = rest.partition(": ")
                found[name] = sum_, verdict
    return found


def write(crate, entries):
    """Writes the record from checksums and verdicts by edit."""
    text = "".join(f"{sum_} {name}: {verdict}\n" for name, (sum_, verdict) in sorted(entries.items()))
    with open(path(crate), "w", encoding="utf-8") as it:
        it.write(text)


@functools.cache
def tenths():
    """Returns, by crate and edit, the tenth of all edits that has it, 0 to 9. Each tenth is a run of consecutive edits, so it
    has few crates: the start of a check costs as much as five edits."""
    found = [(crate, it.name) for crate in crates() for it in edits_of(crate)]
    return {it: 10 * at // len(found) for at, it in enumerate(found)}


def tenth_of_commit():
    """Returns the tenth that the commit's hash chooses."""
    return int(said_by("git", "rev-parse", "HEAD"), 16) % 10
