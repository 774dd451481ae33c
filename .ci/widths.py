#!/usr/bin/env python3
"""Makes the files of tuples of three to ten columns, each kind from one template in widths/. widths/holes.py describes
templates, and the other modules in widths/ list the files of each kind. Tuples of one and two are written by hand.

usage: .ci/widths.py --check    makes all files in a temporary folder, lays them out by `rt fmt`, and compares them with
                                the sources. Prints the first line that differs in each file; status 1 if any differs
       .ci/widths.py --write    writes the files that differ

The first line of a generated file says so, and names the template."""
import os
import re
import shutil
import subprocess
import sys
import tempfile

ROOT = os.path.dirname(os.path.dirname(os.path.abspath(__file__)))
sys.path.insert(0, os.path.join(ROOT, ".ci", "widths"))

import by_refs
import cells
import earlier
import fields
import names_of_tuples
import ordered
import same
import tuples
import types_of_tuples

KINDS = (tuples, ordered, same, earlier, cells, fields, by_refs, types_of_tuples, names_of_tuples)


def make(folder):
    """Writes all files to the folder, a repository in which `rt fmt` works, and returns their paths."""
    paths = []
    for path, template, text in (it for kind in KINDS for it in kind.made()):
        if re.search(r"[$⟨⟩]", text):
            sys.exit(f"{path}: a word or a hole of the template {template} was not filled")
        comment = "--" if path.endswith(".antt") else "//"
        text = f"{comment} Made by .ci/widths.py: change .ci/widths/{template}.template, and not this file.\n{text}"
        os.makedirs(os.path.dirname(f"{folder}/{path}"), exist_ok=True)
        with open(f"{folder}/{path}", "w", encoding="utf-8") as file:
            file.write(text)
        paths.append(path)
    crates = sorted({path.split("/")[1] for path in paths})
    with open(f"{folder}/crates.txt", "w", encoding="utf-8") as file:
        file.writelines(f"{crate}:\n" for crate in crates)
    for crate in crates:
        done = subprocess.run(["rt", "fmt"], cwd=f"{folder}/crates/{crate}", capture_output=True, text=True)
        if done.returncode:
            sys.exit(done.stdout + done.stderr)
    return paths


def lines(path):
    if not os.path.exists(path):
        return []
    with open(path, encoding="utf-8") as file:
        return file.read().split("\n")


def first_unequal(xs, ys):
    return next((at for at, (x, y) in enumerate(zip(xs, ys)) if x != y), min(len(xs), len(ys)))


def difference(path, new, old):
    """Returns the first line that differs, as generated and as in the sources; of long lines the text near the difference."""
    if not old:
        return f"{path}: does not stand"
    at = first_unequal(new, old)
    a, b = (text[at] if at < len(text) else "(the end)" for text in (new, old))
    begin = max(0, first_unequal(a, b) - 40)
    return f"{path}:{at + 1}: made '{a[begin:begin + 100]}', stands '{b[begin:begin + 100]}'"


def main():
    if sys.argv[1:] not in (["--check"], ["--write"]):
        sys.exit(__doc__)
    with tempfile.TemporaryDirectory() as folder:
        paths = make(folder)
        differ = {path: text for path in paths if (text := lines(f"{folder}/{path}")) != lines(f"{ROOT}/{path}")}
        for path, text in differ.items():
            print(difference(path, text, lines(f"{ROOT}/{path}")))
            if sys.argv[1] == "--write":
                os.makedirs(os.path.dirname(f"{ROOT}/{path}"), exist_ok=True)
                shutil.copyfile(f"{folder}/{path}", f"{ROOT}/{path}")
    print(f"{len(paths)} files made, {len(paths) - len(differ)} equal to what stands")
    return 1 if differ and sys.argv[1] == "--check" else 0


if __name__ == "__main__":
    sys.exit(main())
