#!/usr/bin/env python3
"""Tests the code of the pages: each block in README.md and docs/ is in one file of crates/, which the gate proves or a check
builds (an example in C).

Code is between fences. The lines of a block must be in one file, in the same order; the file may have other lines between them.
Comments, white space and line breaks do not count. '..' after '=>' leaves out the rest of a line. An indented block is a command
or a picture, not code.

usage: .ci/pages_code.py [--files]     --files prints the file of each block
"""
import glob
import os
import re
import sys

ROOT = os.path.dirname(os.path.dirname(os.path.abspath(__file__)))
# (has what a command writes, and rows by hand, which are in no file)
LEFT_OUT_PAGES = {"docs/OWN-ROWS.md"}
ENDS_AS_CODE = re.compile(r"[;{}]\s*(//.*)?$")
LEFT_OUT = re.compile(r"(?<==>)\s*\.\.,?\s*$")


def read(path):
    with open(f"{ROOT}/{path}", encoding="utf-8") as it:
        return it.read()


def squeezed(text):
    """Returns the text without comments, white space, and commas before a closing bracket."""
    text = re.sub(r"(?m)(^|\s)//.*$", "", text)
    return re.sub(r",(?=[)}\]])", "", re.sub(r"\s+", "", text))


def blocks(page):
    """Yields the blocks of a page: the number of the first line, whether the block is fenced, and its lines."""
    lines = read(page).split("\n")
    start = 0
    while start < len(lines):
        end = start + 1
        if lines[start].startswith("```"):
            while not lines[end].startswith("```"):
                end += 1
            yield start + 1, True, lines[start + 1:end]
            end += 1
        elif lines[start].startswith("    ") and not lines[max(start - 1, 0)].strip():
            while end < len(lines) and (lines[end].startswith("    ") or not lines[end].strip()):
                end += 1
            yield start + 1, False, lines[start:end]
        start = end


def parts(lines):
    """Returns what the file must have, in this order: each line, or as much of it as the page shows."""
    return [part for part in (squeezed(LEFT_OUT.sub("", line)).rstrip(",") for line in lines) if part]


def first_missing(wanted, text):
    """Returns the first part that the text does not have after the earlier ones, or None; and the number of those before it."""
    at = 0
    for count, part in enumerate(wanted):
        found = text.find(part, at)
        if found < 0:
            return part, count
        at = found + len(part)
    return None, len(wanted)


def main():
    paths = [*glob.glob(f"{ROOT}/crates/*/src/**/*.rt", recursive=True), *glob.glob(f"{ROOT}/crates/*/examples/*")]
    files = {os.path.relpath(path, ROOT): squeezed(read(os.path.relpath(path, ROOT))) for path in sorted(paths)}
    failed = 0
    pages = {"README.md", *(os.path.relpath(path, ROOT) for path in glob.glob(f"{ROOT}/docs/*.md"))} - LEFT_OUT_PAGES
    for page in sorted(pages):
        for number, fenced, lines in blocks(page):
            if not fenced:
                code = [line for line in lines if ENDS_AS_CODE.search(line)]
                if code:
                    failed += 1
                    print(f"{page}:{number}: code stands between fences: {code[0].strip()}")
                continue
            wanted = parts(lines)
            tries = [(*first_missing(wanted, text), path) for path, text in files.items()]
            missing, _, path = max(tries, key=lambda it: (it[0] is None, it[1]))
            if missing is not None:
                failed += 1
                print(f"{page}:{number}: no file of crates/ has this block; {path} has no line {missing}")
            elif "--files" in sys.argv[1:]:
                print(f"{page}:{number}: {path}")
    return 1 if failed else 0


if __name__ == "__main__":
    sys.exit(main())
