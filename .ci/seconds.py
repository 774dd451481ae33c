#!/usr/bin/env python3
"""Prints how long each running check has taken so far, and its slowest functions.

A check writes a file for each module that it has admitted, one after the other; the time between two files is that of the second.
If a check uses several processes, the times of different functions are mixed.

usage: .ci/seconds.py [HOW_MANY]"""
import collections
import glob
import os
import sys
import tempfile

MOST = int(sys.argv[1]) if len(sys.argv) > 1 else 20


def checked(pid):
    """Returns the crate that a process checks, or None."""
    try:
        with open(f"/proc/{pid}/cmdline", encoding="utf-8", errors="replace") as it:
            words = it.read().split("\0")
    except OSError:
        return None
    if "--crate-name" not in words:
        return None
    return words[words.index("--crate-name") + 1] + (" (tests)" if "--test" in words else "")


def written(folder):
    """Yields when each module was written, and its name."""
    for it in os.scandir(folder):
        if it.name.startswith("Rattle-") and it.name.endswith(".oantt"):
            yield it.stat().st_mtime, it.name.removesuffix(".oantt")


def function(module):
    """Returns the function of a module: `Rattle-NAME-proofs.a.f.Lts` is a module of a::f."""
    path = module.split("-", 2)[-1].split(".")
    return "::".join(path[1:-1]) if path[0] == "proofs" and len(path) > 2 else path[0]


for folder in sorted(glob.glob(f"{tempfile.gettempdir()}/rattle-logic-built-locked-*")):
    crate = checked(folder.split("-")[-2])
    files = sorted(written(folder)) if crate else []
    if not files:
        continue
    spent = collections.Counter()
    for (before, _), (after, module) in zip(files, files[1:]):
        spent[function(module)] += after - before
    print(f"{crate}: {files[-1][0] - files[0][0]:.0f} s, {len(files)} modules")
    for name, seconds in spent.most_common(MOST):
        print(f"{seconds:8.1f}  {name}")
