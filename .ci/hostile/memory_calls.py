#!/usr/bin/env python3
"""The public calls that can answer Memory, and which test refuses memory in each.

The calls are read off the signatures: a public function, or a method of a public trait, whose answer holds an error that has
the case Memory. A method of a trait is a call of each type that has the trait. They stand, by the type that has them, in
.ci/hostile/memory_calls.txt, each with a test of a module `refused`. Each of these is run with each of its requests for memory
refused in turn: those of crates in crates.txt by .ci/checks/refused_memory, those of hostile_tests by .ci/checks/hostile_tests.

usage: .ci/hostile/memory_calls.py   fails where the list is not that of the signatures, or where a call has no test
       .ci/hostile/memory_calls.py --list   prints the list of the signatures"""
import glob
import re
import sys

LIST = ".ci/hostile/memory_calls.txt"

# What an answer holds that has the case Memory
ERRORS = re.compile(r"\b(GrowError|OwnError|EncodeError|EitherFault|AllocError)\b")

# Calls whose contracts say that they never answer Memory
NEVER = {("Strings", "get_str"): "it answers Utf8 alone", ("string", "as_text"): "so does it", ("Slice", "clone"): "it is a copy"}

# What is no column and no value: views, which have the calls of what they are views of, and frames of slices
NEITHER = {"View", "references", "Framed", "Owned"}

# Calls that are made by others alone, and one of these for each
WITHIN = {
    "reserve_room": "reserve_for", "load": "make_typed", "from_row": "into_owned", "push_into": "push", "push_ref_into": "push_ref", "push_bit": "push",
    "push_after": "push", "from_old": "try_from_either", "load_columns": "make_typed", "sizes_of_columns": "element_sizes",
    "reserve_columns": "reserve_for", "duplicate_columns": "duplicate", "columns_of_old": "try_from_either",
    "extend_columns": "extend_from_self", "push_with": "push", "push_ref_with": "push_ref", "clone_store": "clone",
    "push_into_with": "push_ref", "push_into_case": "push_ref", "push_into_variants": "push_ref",
    "push_names": "slice_names", "push_parts_names": "slice_names", ("OwnRow", "push_parts"): "push",
}

# Modules that `columnar` passes on whole
WHOLE = ["crates/columnar_bytes/src/indexed.rt", "crates/columnar_bytes/src/stash.rt"]

ITEM = re.compile(r"(?m)^(?P<pub>pub )?(?P<kind>trait|impl|fn|struct|enum|type|mod|use)\b|^ {4}(?P<inner>pub(?:\([a-z ]+\))? )?(?:final )?(?:const )?fn (?P<name>\w+)")


def public_names():
    """The names that `columnar` passes on."""
    names = set()
    for path in [*glob.glob("crates/columnar/src/**/*.rt", recursive=True), *WHOLE]:
        text = open(path).read()
        for used in re.findall(r"pub use ([^;]+);", text):
            names |= set(re.findall(r"\w+", used))
        if path in WHOLE:
            names |= set(re.findall(r"(?m)^pub (?:enum|struct|fn|trait) (\w+)", text))
    return names


def heading(text, start):
    """The text of a heading or a signature: up to its block, its clauses or its end, on one line."""
    end = re.compile(r" \{\}?$|;$|\n *(?:requires|ensures|ghost|where)\b|\nwhere\b", re.M).search(text, start)
    return re.sub(r"\s+", " ", text[start : end.start()])


def answer(signature):
    return signature.rsplit("->", 1)[1].strip() if "->" in signature else ""


def without_parameters(text):
    """Takes away the parameters in angle brackets."""
    while True:
        shorter = re.sub(r"(?<![-=])<[^<>]*(?:->[^<>]*)*>", "", text)
        if shorter == text:
            return text
        text = shorter


def subject(kind):
    """The name under which a type stands in the list."""
    kind = kind.strip()
    if kind.startswith("("):
        return f"tuples of {len([it for it in without_parameters(kind[1:-1]).split(',') if it.strip()])}"
    if kind.startswith("&"):
        return "references"
    if kind.startswith("["):
        return "arrays"
    return without_parameters(kind).split("::")[-1].strip()


def parts_of(header):
    """The trait of an impl, if it is of one, and the type that it is for."""
    rest = re.sub(r"^(?:unsafe )?impl ?", "", header)
    if rest.startswith("<"):
        depth = 0
        for at, letter in enumerate(rest):
            depth += letter == "<"
            depth -= letter == ">" and rest[at - 1] not in "-="
            if depth == 0:
                rest = rest[at + 1 :].strip()
                break
    left, both, right = rest.partition(" for ")
    return (without_parameters(left).split("::")[-1].strip(), right) if both else (None, rest)


def read():
    """Public traits with their calls that can answer Memory; the impls; inherent and free calls; types that are cloned."""
    traits, impls, own, free, cloned = {}, [], [], [], set()
    for path in sorted(glob.glob("crates/columnar_*/src/**/*.rt", recursive=True)):
        if path.startswith("crates/columnar_derive"):
            continue
        text = open(path).read()
        module = "::".join(path[:-3].split("/")[1:]).replace("src::", "").split("::")
        block = None
        named = dict(re.findall(r"(?m)^(?:pub(?:\([a-z]+\))? )?type (\w+)(?:<[^=]*>)? = (\w+)", text))
        for item in ITEM.finditer(text):
            if item["kind"] in ("trait", "impl"):
                header = heading(text, item.start())
                if item["kind"] == "trait":
                    block = ("trait", re.search(r"trait (\w+)", header)[1], bool(item["pub"]))
                    if item["pub"]:
                        traits.setdefault(block[1], set())
                else:
                    trait, kind = parts_of(header)
                    block = ("impl", trait, named.get(subject(kind), kind))
                    if block[1]:
                        impls.append((block[1], block[2]))
                continue
            if item["kind"]:
                block = None
                if item["kind"] == "fn" and item["pub"]:
                    signature = heading(text, item.start())
                    if ERRORS.search(answer(signature)):
                        free.append((module, re.search(r"fn (\w+)", signature)[1]))
                if item["kind"] in ("struct", "enum") and item["pub"]:
                    derived = re.search(r"#\[derive\(([^)]*)\)\]\n(?:///[^\n]*\n|#[^\n]*\n)*$", text[: item.start()])
                    if derived and "Clone" in derived[1]:
                        cloned.add(re.search(r"(?:struct|enum) (\w+)", text[item.start() :])[1])
                continue
            if not block:
                continue
            signature = heading(text, item.start())
            if not ERRORS.search(answer(signature)) or item["name"].endswith("_tallied"):
                continue
            if block[0] == "trait" and block[2]:
                traits[block[1]].add(item["name"])
            elif block[0] == "impl" and block[1] is None and item["inner"] == "pub ":
                own.append((block[2], item["name"]))
            elif block[0] == "impl" and block[1] == "Clone":
                cloned.add(subject(block[2]))
    return traits, impls, own, free, cloned


def calls():
    """The calls that can answer Memory, by what has them. A call that counts what it reads is left out, since its plain form does
    what it does."""
    public = public_names()
    traits, impls, own, free, cloned = read()
    found = {}
    for trait, kind in impls:
        if trait in public and trait in traits and not re.fullmatch(r"[A-Z]\w?", subject(kind)):
            for call in traits[trait]:
                found.setdefault(subject(kind), set()).add(call)
    for kind, call in own:
        if subject(kind) in public:
            found.setdefault(subject(kind), set()).add(call)
    for module, call in free:
        if call in public:
            found.setdefault(place_of(module), set()).add(call)
    for kind in cloned & {*found, "Tree", "Checked"}:
        found.setdefault(kind, set()).add("clone")
    for kind, call in NEVER:
        found[kind].remove(call)
    return {kind: names for kind, names in found.items() if names and kind not in NEITHER}


def place_of(module):
    """The module of a free call in `columnar`: of those for sums of one's own the one that has them all."""
    if module[0] == "columnar_variants":
        return "sums::variants"
    return "indexed" if "indexed" in module else "stash" if "stash" in module else module[-1]


def bodies():
    """The text of each function of the tests and of what they share, by its name: of all that have the name."""
    found = {}
    for path in glob.glob("crates/test_support/src/**/*.rt", recursive=True) + glob.glob("crates/*_tests/src/**/*.rt", recursive=True) + glob.glob(".ci/hostile/*_tests/src/**/*.rt.in", recursive=True):
        parts = re.split(r"(?m)^ *(?:pub(?:\([a-z]+\))? )?fn (\w+)", open(path).read())
        for name, text in zip(parts[1::2], parts[2::2]):
            found[name] = found.get(name, "") + text
    return found


def tests():
    """The tests of modules `refused`: their paths, and their names."""
    found = {}
    for path in glob.glob("crates/*/src/**/*.rt", recursive=True) + glob.glob(".ci/hostile/*/src/**/*.rt.in", recursive=True):
        module = path.removeprefix(".ci/").removesuffix(".in").removesuffix(".rt").split("/")[1:]
        module = [it for it in module if it not in ("src", "lib", "main")]
        if "refused" in module:
            for name in re.findall(r"#\[test\]\nfn (\w+)", open(path).read()):
                found["::".join([*module, name])] = name
    return found


def reached(name, texts):
    """The names that are read in a function, and in those that it names, and so on."""
    seen, left = set(), [name]
    while left:
        for word in set(re.findall(r"\w+", texts.get(left.pop(), ""))) - seen:
            seen.add(word)
            left += [word] if word in texts else []
    return seen


def listed():
    """The list: by what has the calls, each call with its test."""
    found, kind = {}, None
    for line in open(LIST):
        if line.startswith("#") or not line.strip():
            continue
        if not line.startswith(" "):
            kind = line.strip()
            found[kind] = {}
            continue
        test, _, names = line.strip().partition(": ")
        for call in names.split():
            found[kind][call] = test
    return found


def check():
    wanted, have, known, texts = calls(), listed(), tests(), bodies()
    bad = []
    for kind in sorted({*wanted, *have}):
        for call in sorted(wanted.get(kind, set()) - set(have.get(kind, {}))):
            bad.append(f"{kind}::{call} can answer Memory, and has no test")
        for call in sorted(set(have.get(kind, {})) - wanted.get(kind, set())):
            bad.append(f"{kind}::{call} is no call that can answer Memory")
    seen = {}
    for kind, of in have.items():
        for call, test in of.items():
            if test.startswith(".ci/"):
                continue
            if test not in known:
                bad.append(f"{kind}::{call}: there is no test {test}")
                continue
            if test not in seen:
                seen[test] = reached(known[test], texts)
            if WITHIN.get((kind, call), WITHIN.get(call, call)) not in seen[test]:
                bad.append(f"{kind}::{call}: {test} does not lead to it")
    for line in bad:
        print(line)
    count = sum(len(it) for it in have.values())
    print(f"{count} calls of {len(have)} kinds can answer Memory; {len(seen)} tests refuse memory in them")
    return 1 if bad else 0


if __name__ == "__main__":
    if sys.argv[1:] == ["--list"]:
        for kind, names in sorted(calls().items()):
            print(kind)
            print("    :", " ".join(sorted(names)))
    else:
        sys.exit(check())
