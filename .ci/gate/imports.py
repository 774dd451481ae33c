"""Finds what a file rests on: the definitions and lemmas that it imports, directly or not, and the other source files, without
the bodies of their functions and without the functions that it does not name. Comments do not count."""
import functools
import os
import re

from repository import ROOT, crates


@functools.cache
def read(path):
    """Returns the text of a file of the repository, without comment lines."""
    mark = "//" if path.endswith(".rt") else "--"
    with open(f"{ROOT}/{path}", encoding="utf-8") as it:
        return "".join(line for line in it if not line.lstrip().startswith(mark))


HEAD = re.compile(r"(?m)^( *)(?:pub(?:\([a-z]+\))? )?(?:final )?(?:const )?(?:unsafe )?fn (\w+)")


def without_bodies(text):
    """Returns source text, laid out by `rt fmt`, without the bodies of functions."""
    kept, at = [], 0
    for head in HEAD.finditer(text):
        if head.start() < at:
            continue
        begins = re.compile(r"(?m)\{$").search(text, head.end())
        other = re.compile(r"(?m)(?:;|\{\})$").search(text, head.end())
        if begins and not (other and other.start() < begins.start()):
            end = re.compile(rf"(?m)^{head[1]}\}}").search(text, begins.end())
            kept.append(text[at : begins.end()])
            at = end.start() if end else len(text)
    return "".join([*kept, text[at:]])


def is_of_type(text, at):
    """Returns whether the function with this head is in an impl of a type, not in an impl of a trait."""
    begins = [it.start() for it in re.finditer(r"(?m)(?:\A|(?<=\n\n))\S", text[:at])]
    header = text[begins[-1] : at].partition("{\n")[0] if begins else ""
    return bool(re.match(r"(?:#\[.*\]\n)*impl\b", header)) and not re.search(r"\bfor\b", header)


@functools.cache
def parts(path):
    """Returns the text of a source file without its functions, except those of traits, which lose only their bodies; and the
    other functions without bodies, each with its name. Attributes for inlining and tactics are left out: no proof sees them."""
    text = re.sub(r"(?m)^ *#\[(?:inline|cold|tactic)\b.*\]\n", "", without_bodies(read(path)))
    kept, functions, at = [], [], 0
    for head in HEAD.finditer(text):
        end = re.compile(r"(?m)(?:;|\{ *\})\n").search(text, head.end())
        if end and (not head[1] or is_of_type(text, head.start())):
            kept.append(text[at : head.start()])
            functions.append((head[2], text[head.start() : end.end()]))
            at = end.end()
    return re.sub(r"\n\n+", "\n", "".join([*kept, text[at:]])), functions


def used(text):
    """Returns the text without the imported names that it does not use. An operator counts as used."""
    lists = re.compile(r"(?m)^( *(?:ghost )?use [^;{]*\{)([^;{}]*)(\};\n)")
    words = frozenset(re.findall(r"[\w']+", lists.sub("", text)))

    def shortened(at):
        return at[1] + ", ".join(it for it in split_names(at[2]) if it in words or not re.fullmatch(r"\w+", it)) + at[3]

    return lists.sub(shortened, text)


@functools.cache
def with_functions(path, which):
    """Returns the text of a source file with only the marked functions."""
    text, functions = parts(path)
    return used("".join([text, *(it for is_named, (_, it) in zip(which, functions) if is_named)]))


def signature(path, words):
    """Returns what a text with these words sees of a file. A proof does not see what it does not name, except what implements
    an operator, a loop or a conversion, and that is in traits."""
    if not path.endswith(".rt"):
        return read(path)
    return with_functions(path, tuple(name in words for name, _ in parts(path)[1]))


def split_names(text):
    """Returns the parts of a list of names between commas; lists in braces stay whole."""
    parts, depth = [""], 0
    for it in text:
        depth += (it == "{") - (it == "}")
        if it == "," and depth == 0:
            parts.append("")
        else:
            parts[-1] += it
    return [part.strip() for part in parts if part.strip()]


def spread(text):
    """Returns the paths that a `use` imports, each with its new name."""
    head, brace, rest = text.partition("{")
    if brace:
        return [(head + path if path != "self" else head.removesuffix("::"), name) for it in split_names(rest.strip()[:-1]) for path, name in spread(it)]
    path, _, name = text.partition(" as ")
    return [(path.strip(), name.strip() or path.strip().split("::")[-1])]


@functools.cache
def uses(path):
    """Returns the `use`s of a source file, except ghost ones: whether each is re-exported, its path, and its name."""
    found = []
    for at in re.finditer(r"(?m)^ *(pub(?:\([a-z]+\))? )?use ([^;]*);", read(path)):
        for it, name in spread(" ".join(at[2].split())):
            found.append((bool(at[1]), it, name))
    return found


def module(path):
    """Returns the crate of a source file, and the names of its module from the crate's root on."""
    _, crate, _, *names = path.removesuffix(".rt").split("/")
    return crate, [] if names in (["lib"], ["main"]) else names


def root(crate):
    main = f"crates/{crate}/src/main.rt"
    return main if os.path.isfile(f"{ROOT}/{main}") else f"crates/{crate}/src/lib.rt"


def item(crate, names, seen=()):
    """Returns the source files to which a path from a crate's root leads: those that define or re-export its item."""
    file, folder = root(crate), f"crates/{crate}/src"
    for at, name in enumerate(names):
        child = f"{folder}/{name}.rt"
        if os.path.isfile(f"{ROOT}/{child}"):
            file, folder = child, f"{folder}/{name}"
            continue
        for is_passed, path, other in uses(file):
            if is_passed and other == name and (file, path) not in seen:
                found = named(file, path, names[at + 1 :], (*seen, (file, path)))
                if found:
                    return found
        break
    return [file]


def named(file, path, more=(), seen=()):
    """Returns the source files to which a path in a file, and further names after it, lead."""
    crate, here = module(file)
    first, *names = [*path.split("::"), *more]
    if first == "crate":
        return item(crate, names, seen)
    if first == "self":
        return item(crate, [*here, *names], seen)
    if first == "super":
        while first == "super":
            here, (first, *names) = here[:-1], names or [""]
        return item(crate, [*here, first, *names] if first else here, seen)
    if first in crates():
        return item(first, names, seen)
    if os.path.isfile(f"{ROOT}/{'/'.join(['crates', crate, 'src', *here, first])}.rt"):
        return item(crate, [*here, first, *names], seen)
    return []


@functools.cache
def imports(path):
    """Returns the files that a file imports, and those in the folder of each module, which have more of its impls."""
    found = []
    for crate, names in re.findall(r"(?m)^ *(?:pub )?(?:ghost )?use Rattle\.(\w+)\.((?:specs|proofs)[\w.]*?)\.?(?:\{|;|$)", read(path)):
        at = f"crates/{crate}/{names.replace('.', '/')}.antt"
        if os.path.isfile(f"{ROOT}/{at}"):
            found.append(at)
    if path.endswith(".rt"):
        for _, it, _ in uses(path):
            for file in named(path, it):
                found += [file, *in_folder(file)]
    return sorted(set(found) - {path})


@functools.cache
def in_folder(file):
    """Returns the source files in the folder of a module that is not a root."""
    folder = file.removesuffix(".rt")
    paths = (f"{at}/{it}" for at, _, files in os.walk(f"{ROOT}/{folder}") for it in files if it.endswith(".rt"))
    return sorted(os.path.relpath(path, ROOT) for path in paths) if module(file)[1] else []


@functools.cache
def reached_from(files):
    """Returns all files that these import, directly or not."""
    found, left = set(), list(files)
    while left:
        for it in imports(left.pop()):
            if it not in found:
                found.add(it)
                left.append(it)
    return sorted(found)
