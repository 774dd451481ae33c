#!/usr/bin/env python3
"""Lists the definitions behind contracts: those that the clauses name, and those that these use.

Lemmas are not listed, since the prover proves them. docs/TRUST.md gets, between its marks, the definitions of four theorems
for the record of README.md, with the ghost members that say what the record's types mean.

usage: .ci/trust.py --check      compares docs/TRUST.md with what it would write
       .ci/trust.py --write      writes that part of docs/TRUST.md
       .ci/trust.py --list       prints the definitions behind all contracts of the libraries
       .ci/trust.py --passed-on  lists the modules of definitions that a contract names and `columnar` does not re-export
"""
import functools
import glob
import os
import re
import sys

ROOT = os.path.dirname(os.path.dirname(os.path.abspath(__file__)))
PAGE = "docs/TRUST.md"
BEGIN, END = "<!-- made by .ci/trust.py -->\n", "<!-- end of what .ci/trust.py makes -->\n"
DECLARED = re.compile(r"(abbrev pub|abbrev|unfoldable pub|unfoldable|pub record|record|pub data|data|pub) ([^\s:({]+)")
WORD = re.compile(r"[\w'-]+")
GHOST_USE = re.compile(r"(?m)^ *(?:pub )?(?:ghost )?use Rattle\.(\w+)\.specs\.([\w.']+)\.\{([^}]*)\}")

# The types of README's record, as columns, views and values: a file below crates/, and the first words of its impl blocks.
COLUMNS = [
    ("columnar_base/src/vector.rt", "Column for Vec<T>"),
    ("columnar_base/src/tuple/three.rt", "Column for (A, B, C)"),
    ("columnar_sums/src/option.rt", "Column for Options<TC, CC, VC, WC>"),
    ("columnar_strings/src/string.rt", "Column for Strings<BC, VC>"),
]
VIEWS = [("columnar_base/src/view.rt", "Column for View<'v, T>"), ("columnar_base/src/borrowed.rt", "Column for &'a [T]")]
ELEMENTS = [("columnar_base/src/element/unsigned.rt", f"Element for {name}") for name in ("u8", "u32", "u64")]
WORDS = [("columnar_base/src/words.rt", f"Words for {name}") for name in ("Vec<u64>", "[u64; 2]")]
VIEWED_WORDS = [("columnar_base/src/words.rt", "Words for View<'v, u64>")]
BYTES = [("columnar_bytes/src/stash.rt", "ByteStore for Vec<u8>"), ("columnar_bytes/src/stash/aligned.rt", "ByteStore for AlignedBytes")]
VALUES = [
    ("columnar_base/src/element/unsigned.rt", "Item for u32"),
    ("columnar_base/src/element/unsigned.rt", "Item for u64"),
    ("columnar_base/src/values.rt", "Item for String"),
    ("columnar_base/src/truth.rt", "Item for Option<T>"),
    ("columnar_base/src/tuple/three.rt", "Item for (P, Q, R)"),
]
# Each theorem: its name, the file and the function whose clauses state it, these clauses (all where there are none), and
# the ghost members that its reader has to know.
THEOREMS = [
    ("Accepted if and only if well-formed", "columnar_bytes/src/indexed/validation.rt", "validate", ["exact"],
     [(COLUMNS, ["format"]), (ELEMENTS, ["size", "align", "row_of"])]),
    ("The fault is the first broken rule", "columnar_bytes/src/indexed/validation.rt", "validate", ["fault"], []),
    ("Written stores are accepted", "columnar_bytes/src/stash/read.rt", "write_bytes", [],
     [(COLUMNS, ["content"]), (ELEMENTS, ["le_bytes"]), (WORDS, ["bytes"]), (BYTES, ["bytes"])]),
    ("Commands do what lists of rows do", "columnar_bytes/src/stash/commands.rt", "run", [],
     [(VALUES, ["meaning", "valid"]), (VIEWS, ["format", "content"]), (VIEWED_WORDS, ["bytes"])]),
]


def read(path):
    with open(f"{ROOT}/{path}", encoding="utf-8") as it:
        return it.read()


def sources(crate):
    """Returns the paths of a crate's sources."""
    return [os.path.relpath(path, ROOT) for path in sorted(glob.glob(f"{ROOT}/crates/{crate}/src/**/*.rt", recursive=True))]


@functools.cache
def libraries():
    """Returns the crates whose contracts users see, lowest first."""
    lines = (line.partition("#")[0].partition(":")[0].split() for line in read("crates.txt").split("\n"))
    return [words[0] for words in lines if words and words[0].startswith("columnar")]


def below_columnar():
    """Returns `columnar` and the libraries that its line names."""
    line = next(it for it in read("crates.txt").split("\n") if it.startswith("columnar:"))
    return {"columnar", *line.partition(":")[2].split()}


def imported(text):
    """Returns what a file imports from specs/: by the name in the file, the crate, the module and the name there."""
    found = {}
    for crate, module, names in GHOST_USE.findall(text):
        for name in names.split(","):
            was, _, now = name.strip().partition(" as ")
            found[now.strip() or was.strip()] = (crate, module, was.strip())
    return found


class Item:
    """A definition or lemma of a file of specs/: whether it is a definition, where it begins, and its lines."""

    def __init__(self, is_definition, start):
        self.is_definition, self.start, self.lines = is_definition, start, []


class Module:
    """A file of specs/: what it declares, by name, the cases of its data types, and what it imports.

    The fields of a record do not lead to the record: a user of them names its type, or calls something that does.
    """

    def __init__(self, path):
        self.path = path
        text = read(path)
        self.imports = imported(text)
        self.items, self.cases = {}, {}
        self.declare(text.split("\n"))

    def declare(self, lines):
        name, kind = None, ""
        for number, line in enumerate(lines, 1):
            if not line or line.startswith(("--", "use ", "pub use ")):
                continue
            at = DECLARED.match(line)
            inner = re.match(r"  (?:pub )?(\w+) :", line)
            if at:
                name, kind = at[2], "mutual" if at[2] == "mutual" else at[1].split()[-1]
                is_definition = at[1].split()[0] in ("abbrev", "unfoldable") or kind in ("record", "data")
            if inner and kind == "mutual":
                name, is_definition = inner[1], True
            if name and name not in self.items and name != "mutual":
                self.items[name] = Item(is_definition, number)
            if name in self.items:
                self.items[name].lines.append(line)
            if inner and kind == "data" and not at:
                self.cases.setdefault(inner[1], name)

    def item(self, name):
        """Returns the item of this name, or the item of which it is a case."""
        return name if name in self.items else self.cases.get(name)


@functools.cache
def modules():
    """Returns the files of specs/ of the libraries, by crate and module, in the order of each crate's Lib.antt."""
    found = {}
    for crate in libraries():
        lib = f"crates/{crate}/specs/Lib.antt"
        if os.path.isfile(f"{ROOT}/{lib}"):
            for name in re.findall(r"(?m)^(?:pub )?mod (\w+)", read(lib)):
                found[crate, name] = Module(f"crates/{crate}/specs/{name}.antt")
    return found


@functools.cache
def passed_on():
    """Returns, by crate and module, the crate and module that a crate's Lib.antt re-exports, under their name or another."""
    found = {}
    for crate in libraries():
        lib = f"crates/{crate}/specs/Lib.antt"
        if os.path.isfile(f"{ROOT}/{lib}"):
            for other, name, alias in re.findall(r"(?m)^pub use Rattle\.(\w+)\.specs\.(\w+)(?: as (\w+))?$", read(lib)):
                found[crate, alias or name] = other, name
    return found


def resolved(crate, module, name):
    """Returns the place of an item, if it is a definition of the libraries."""
    while (crate, module) not in modules() and (crate, module) in passed_on():
        crate, module = passed_on()[crate, module]
    its = modules().get((crate, module))
    item = its and its.item(name)
    return (crate, module, item) if item and its.items[item].is_definition else None


def named_in(words, imports):
    """Returns the definitions that the words name, by the imports of their file."""
    return {it for it in (resolved(*imports[word]) for word in words if word in imports) if it}


def closure(named):
    """Returns the definitions, and all that they use."""
    found, left = set(), list(named)
    while left:
        it = left.pop()
        if it in found:
            continue
        found.add(it)
        module = modules()[it[0], it[1]]
        for word in set(WORD.findall("\n".join(module.items[it[2]].lines))):
            other = module.imports.get(word)
            place = resolved(*other) if other else resolved(it[0], it[1], word)
            if place:
                left.append(place)
    return found


def types_of(definitions):
    """Returns the types of the libraries' sources that the definitions name, each with its file."""
    found = set()
    for crate, module, name in definitions:
        module = modules()[crate, module]
        for word in set(WORD.findall("\n".join(module.items[name].lines))):
            crate, of, _ = module.imports.get(word, ("std", "", ""))
            if crate != "std" and of.startswith("declared."):
                *places, kind = [it for it in of.split(".")[1:] if not re.match("The[A-Z]", it)]
                found.add((source_of(crate, "/".join(places), kind), kind))
    return found


def source_of(crate, place, kind):
    """Returns the source that declares a type, in this crate or, if this crate re-exports the type, in a lower one."""
    for it in (crate, *libraries()):
        path = f"crates/{it}/src/{place}.rt"
        if os.path.isfile(f"{ROOT}/{path}") and re.search(rf"(?m)^pub (enum|struct|trait) {kind}\b", read(path)):
            return path
    sys.exit(f"no source of {crate} declares {kind}")


def lines_of(definitions):
    return sum(len(modules()[crate, module].items[name].lines) for crate, module, name in definitions)


# ---- what contracts name

FUNCTION = re.compile(r" *(pub(?:\([a-z]+\))? )?(?:final )?(?:const )?(?:unsafe )?(?:extern \"C\" )?fn (\w+)")
CLAUSE = re.compile(r" *(requires|ensures)\*? (?:(\w+) )?\{")


def public_clauses(text):
    """Returns the clauses of what other crates can call, and the ghost members of impls and traits."""
    found, in_trait, is_public = [], False, False
    for line in text.split("\n"):
        if re.match(r"(pub )?(trait|impl)\b", line):
            in_trait = line.startswith("pub trait") or " for " in line or not line.endswith("{")
        head = FUNCTION.match(line)
        if head:
            is_public = head[1] == "pub " or (in_trait and line.startswith(" ") and not head[1])
        clause = re.match(r" *(requires|ensures|ghost)\b", line)
        if clause and (is_public or clause[1] == "ghost"):
            found.append(line)
    return "\n".join(found)


def named_by_contracts(clauses):
    """Returns the definitions that the libraries' sources import and their clauses use."""
    found = set()
    for crate in libraries():
        for path in sources(crate):
            text = read(path)
            found |= named_in(set(WORD.findall(clauses(text))), imported(text))
    return found


def clauses_of(path, function, names):
    """Returns the clauses of a function: all, with `requires`, or only those with these names."""
    found, inside = [], False
    for line in read(path).split("\n"):
        head = FUNCTION.match(line)
        if head:
            inside = head[2] == function
        clause = CLAUSE.match(line)
        if inside and clause and (not names or clause[2] in names or clause[1] == "requires"):
            found.append(line)
    if not found:
        sys.exit(f"{path} has no clauses of {function}")
    return found


class Ghost:
    """A ghost member of an impl: its text and its place."""

    def __init__(self, path, impl, name, line, text):
        self.path, self.impl, self.name, self.line, self.text = path, impl, name, line, text

    def names(self):
        return named_in(set(WORD.findall(self.text)), imported(read(self.path)))


def ghosts_of(path, impl, names):
    """Returns the ghost members of these names of an impl block, which ends at a line with only a closing brace."""
    found, inside = [], False
    for number, line in enumerate(read(path).split("\n"), 1):
        if line.startswith("impl") or line == "}":
            inside = impl in line
        member = re.match(r"    ghost (\w+) = (\{.*)", line)
        if inside and member and member[1] in names:
            found.append(Ghost(path, impl, member[1], number, member[2]))
    if len(found) != len(names):
        sys.exit(f"{path}: the impl of {impl} has not each of {', '.join(names)}")
    return found


# ---- the page

def bullet(head, parts):
    """Returns a list item, with line breaks between its parts."""
    lines = [f"- {head}:"]
    for number, part in enumerate(parts, 1):
        part += "," if number < len(parts) else ""
        if len(lines[-1]) + len(part) < 119:
            lines[-1] += f" {part}"
        else:
            lines.append(f"  {part}")
    return "\n".join(lines)


def definitions_listed(definitions):
    """Returns an item for each file: its definitions, each with its line."""
    rows = []
    for (crate, name), module in modules().items():
        items = [it for it in module.items if (crate, name, it) in definitions]
        if items:
            rows.append(bullet(f"[{name}](../{module.path})", [f"`{it}:{module.items[it].start}`" for it in items]))
    return rows


def ghosts_listed(ghosts):
    """Returns an item for each file: its ghost members, each with its line, which shows the impl."""
    by_path = {}
    for it in ghosts:
        by_path.setdefault(it.path, []).append(f"`{it.name}:{it.line}`")
    return [bullet(f"[{path.partition('crates/')[2]}](../{path})", names) for path, names in by_path.items()]


def types_listed(types):
    """Returns an item for each file: the types that definitions name."""
    by_path = {}
    for path, name in sorted(types):
        by_path.setdefault(path, []).append(f"`{name}`")
    return [bullet(f"[{path.partition('crates/')[2]}](../{path})", names) for path, names in by_path.items()]


def theorems():
    """Each theorem: its name, its place, its clauses, its ghost members, and its definitions."""
    ghosts, found = [], []
    for name, path, function, names, members in THEOREMS:
        path = f"crates/{path}"
        clauses = clauses_of(path, function, names)
        own = [it for impls, wanted in members for file, impl in impls for it in ghosts_of(f"crates/{file}", impl, wanted)]
        ghosts = ghosts + own
        named = named_in(set(WORD.findall("\n".join(clauses))), imported(read(path)))
        definitions = closure(named.union(*(it.names() for it in ghosts)))
        found.append((name, path, function, names, own, list(ghosts), definitions))
    return found


def sizes(definitions, ghosts):
    return f"{len(definitions)} definitions, {lines_of(definitions)} lines, {len(ghosts)} ghost members"


def totals(rows):
    """Returns the sizes of the definitions of all theorems together, and of all contracts."""
    whole = set().union(*(it[-1] for it in rows))
    every = closure(named_by_contracts(lambda text: text))
    return (
        f"All four theorems: {sizes(whole, rows[-1][-2])}. All contracts of the libraries (`.ci/trust.py --list`):\n"
        f"{len(every)} definitions, {lines_of(every)} lines.\n"
    )


def made():
    """Returns the text of the page between the marks."""
    rows = theorems()
    text, listed = totals(rows), set()
    for name, path, function, names, own, ghosts, definitions in rows:
        of = " and ".join(f"`{it}`" for it in names) or "all clauses"
        text += f"\n### {name}\n\nStated by {of} of [`{function}`](../{path}):\n{sizes(definitions, ghosts)}.\n"
        for head, lines in (
            ("Definitions added" if listed else "Definitions", definitions_listed(definitions - listed)),
            ("Ghost members", ghosts_listed(own)),
            ("Types", types_listed(types_of(definitions) - types_of(listed))),
        ):
            if lines:
                text += f"\n{head}:\n\n" + "\n".join(lines) + "\n"
        listed |= definitions
    return text


def with_made(page):
    """Returns the page with the right text between its marks."""
    before, begin, rest = page.partition(BEGIN)
    _, end, after = rest.partition(END)
    if not begin or not end:
        sys.exit(f"{PAGE} lacks the marks between which .ci/trust.py writes")
    return before + begin + "\n" + made() + "\n" + end + after


def print_missing():
    """Prints the modules that a contract names and `columnar` does not re-export; returns their number."""
    named = {it[:2] for it in named_by_contracts(public_clauses)}
    own = set(passed_on().get(("columnar", name), ("columnar", name)) for crate, name in passed_on() if crate == "columnar")
    own = {place if place in modules() else passed_on().get(place, place) for place in own}
    apart = {it for it in libraries() if it not in below_columnar()}
    missing = sorted(place for place in named - own if place[0] not in apart)
    for crate, name in missing:
        print(f"columnar/specs/Lib.antt does not pass on {name} of {crate}, which a contract names")
    return len(missing)


def main():
    wanted = sys.argv[1:]
    if wanted == ["--passed-on"]:
        return 1 if print_missing() else 0
    if wanted == ["--list"]:
        print("\n".join(definitions_listed(closure(named_by_contracts(lambda text: text)))))
        return 0
    if wanted not in (["--check"], ["--write"]):
        sys.exit(__doc__)
    page = read(PAGE)
    text = with_made(page)
    if wanted == ["--write"]:
        with open(f"{ROOT}/{PAGE}", "w", encoding="utf-8") as it:
            it.write(text)
    elif page != text:
        print(f"{PAGE} is not what .ci/trust.py makes of the sources: run it with --write")
        return 1
    return 0


if __name__ == "__main__":
    sys.exit(main())
