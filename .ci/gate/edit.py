"""An edit: replacements of texts that make a body wrong, and the function that the prover must reject.

The file is crates/NAME/edits/PLACE/NAME.edit. PLACE is the changed file: its path below src/ without the ending, such as
lookbacks/grow, or, for a definition, its path below the crate, such as specs/Recall. The lines are 'file: src/..', pairs of
'old: TEXT' (which occurs once in that file) and 'new: TEXT', 'of: PATH', the function that must be rejected, by its path below
the crate as a check prints it, and 'goal: NAME' for each goal that must be among those left open, if one body breaks several
promises. Other lines are not read."""
import os

from repository import ROOT


class Edit:
    """The contents of an edit file."""

    def __init__(self, folder, name):
        self.folder, self.name = folder, name
        self.pairs = []
        self.of = ""
        self.goals = []
        with open(f"{folder}/edits/{name}", encoding="utf-8") as it:
            self.text = it.read()
        file = old = None
        for line in self.text.split("\n"):
            if line.startswith("file: "):
                file = line[6:].strip()
            elif line.startswith("old: "):
                old = line[5:]
            elif line.startswith("new:") and file and old:
                self.pairs.append((file, old, line[4:].removeprefix(" ")))
                old = None
            elif line.startswith("of: "):
                self.of = line[4:].strip()
            elif line.startswith("goal: "):
                self.goals.append(line[6:].strip())

    def place(self):
        """Returns the folder below edits/ in which the file must be."""
        return os.path.splitext(self.pairs[0][0])[0].removeprefix("src/")

    def made(self, texts):
        """Makes the edit in the texts, by file; returns why it cannot be made, or None."""
        if not self.pairs:
            return "it has no 'old:' and 'new:' pair"
        if not self.of:
            return "it has no line 'of:'"
        if os.path.dirname(self.name) != self.place():
            return f"it does not stand in edits/{self.place()}"
        for file, old, new in self.pairs:
            if file not in texts:
                if not os.path.isfile(f"{self.folder}/{file}"):
                    return f"there is no file {file}"
                with open(f"{self.folder}/{file}", encoding="utf-8") as it:
                    texts[file] = it.read()
            if texts[file].count(old) != 1:
                return f"an 'old:' text is in {file} {texts[file].count(old)} times, and not once"
            texts[file] = texts[file].replace(old, new)
        return None

    def is_of_code(self):
        return all(file.endswith(".rt") for file, _, _ in self.pairs)


def edits_of(name):
    """Returns the edits of a crate, by path."""
    folder = f"{ROOT}/crates/{name}"
    paths = (f"{at}/{it}" for at, _, files in os.walk(f"{folder}/edits") for it in files if it.endswith(".edit"))
    return [Edit(folder, it) for it in sorted(os.path.relpath(path, f"{folder}/edits") for path in paths)]
