"""The edits of a crate that a run tries, and their results."""
import threading

import judge
import record
from edit import edits_of
from groups import grouped

SAYING = threading.Lock()


def say(text):
    with SAYING:
        print(text, flush=True)


class Choice:
    """The edits of a crate that are tried: those whose checksum differs from the record, and of the others a tenth, if one is
    chosen, or all."""

    def __init__(self, name, tenth=None, all_of_them=False):
        self.name, self.edits, self.why = name, [], {}
        self.sums, self.recorded = {}, record.recorded(name)
        its = edits_of(name)
        for edit in its:
            self.sums[edit.name] = record.rests_on(name, edit)
            if self.recorded.get(edit.name, ("",))[0] != self.sums[edit.name]:
                self.why[edit.name] = "not recorded"
            elif all_of_them:
                self.why[edit.name] = "recorded"
            elif tenth is not None and tenth == record.tenths()[name, edit.name]:
                self.why[edit.name] = "again"
            else:
                continue
            self.edits.append(edit)
        self.left_out = len(its) - len(self.edits)
        self.gone = sorted(set(self.recorded) - {it.name for it in its})

    def write_record(self, told):
        """Writes the new verdicts into the record, by edit; removes edits that did not pass (None), and edits that no longer
        exist."""
        entries = {name: it for name, it in self.recorded.items() if name not in self.gone and name not in told}
        entries.update((name, (self.sums[name], verdict)) for name, verdict in told.items() if verdict is not None)
        if entries != self.recorded:
            record.write(self.name, entries)


class Tries:
    """The chosen edits of a crate, in the groups that are not yet tried, the largest last, and the verdicts so far. Each
    verdict is recorded at once, if the run records."""

    def __init__(self, crate, choice, records):
        self.crate, self.choice, self.records, self.told, well = crate, choice, records, {}, []
        for edit in choice.edits:
            why = edit.made({})
            if why:
                self.tell(edit, False, f"BAD EDIT: {why}")
            else:
                well.append(edit)
        self.groups = sorted(grouped(well), key=lambda it: len(it["edits"]))

    def passed(self):
        return sum(verdict is not None for verdict in self.told.values())

    def is_proved(self):
        status, said = self.crate.check({}, keeps=True)
        if status != 0:
            say(f"edits of {self.crate.name}: the crate itself is not proved\n{said[-2000:]}")
        return status == 0

    def tell(self, edit, well, text):
        with SAYING:
            self.told[edit.name] = text if well else None
            if self.records:
                self.choice.write_record(self.told)
        say(f"edit {self.crate.name}/{edit.name} ({self.choice.why[edit.name]}): {text}")

    def first(self):
        """Tries the smallest group of edits of code, and keeps what it proves about the rest of the crate."""
        group = next((it for it in self.groups if it["edits"][0].is_of_code()), None)
        if group:
            self.groups.remove(group)
            self.one(group, True)

    def one(self, group, keeps=False):
        """Tries a group; then tries alone each edit of the group that this check does not reject."""
        texts, edits = group["texts"], group["edits"]
        said = self.crate.check(texts, edits, keeps, by_contract=True)[1] if edits[0].is_of_code() else ""
        for edit in edits:
            well, text = judge.verdict(edit, said)
            self.tell(edit, *((well, text) if well else self.by_itself(edit)))

    def by_itself(self, edit):
        texts = {}
        edit.made(texts)
        status, said = self.crate.check(texts, [edit])
        return judge.verdict_alone(edit, status, said, lambda file: texts.get(file) or self.text_of(file))

    def text_of(self, file):
        with open(f"{self.crate.folder}/{file}", encoding="utf-8") as it:
            return it.read()
