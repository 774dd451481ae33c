"""The paths of the repository and the kit, and which crate uses which."""
import functools
import os
import subprocess

ROOT = os.path.dirname(os.path.dirname(os.path.dirname(os.path.abspath(__file__))))


def said_by(*words):
    """Returns what a command prints, without the end of its last line."""
    return subprocess.run(words, stdout=subprocess.PIPE, text=True, check=True, cwd=ROOT).stdout.strip()


@functools.cache
def kit():
    """Returns the folder of the kit."""
    return os.path.dirname(said_by("rt", "doc"))


@functools.cache
def crates():
    """Returns the crates, lowest first, each with the names after its colon."""
    found = {}
    with open(f"{ROOT}/crates.txt", encoding="utf-8") as lines:
        for line in lines:
            name, colon, below = line.partition("#")[0].partition(":")
            if colon:
                found[name.split()[0]] = below.split()
    return found


def below(name):
    """Returns the crates of the repository that a crate uses, directly or not, each once."""
    own = crates()
    found = {}
    for it in own[name]:
        if it in own:
            found.update(dict.fromkeys([it, *below(it)]))
    return list(found)
