#!/usr/bin/env python3
"""Tries edits. An edit makes the body of a function wrong, and the prover must reject the function (gate/edit.py has the
form).

One check tries many edits. It proves their functions, and the functions of the crate that these call. No two edits of a
group change the same function, and each function is proved from the contracts of its callees only, so no edit is blamed
for another. A hole replaces the proof files of all other functions: the gate proves those. An edit passes if a goal of
its own function is not proved, and each goal that it names in a line 'goal:'. It fails if the prover rejects it because
a name is gone, or for no goal. An edit of a definition in specs/ is tried alone; it also passes if a lemma is not proved.

A run tries the edits without a valid record (gate/record.py), and a tenth of the others. Next to rt ci it has a time limit: of the
edits that an earlier run rejected, it lists those that it has not tried by then, and leaves them to a later run.

usage: .ci/edits.py [--all | --tenth N] [--sources] [--jobs N] [CRATE ..]
                                      after the crates' libraries were built, as by rt all check: tries the edits without a
                                      valid record, and all others, or the tenth N, 0 to 9, of them; records what passed.
                                      With --sources nothing has to be built: the libraries are read as sources, and the
                                      gate must prove the crates themselves
       .ci/edits.py --beside LOG [--record]
                                      next to the rt ci that writes LOG: the edits of a crate begin once its libraries are
                                      proved, and fail if the crate itself is not proved. A line 'ended' ends LOG. The
                                      commit's hash chooses the tenth. Writes records only with --record
"""
import argparse
import contextlib
import functools
import os
import shutil
import signal
import sys
import tempfile
import time

sys.path.insert(0, os.path.join(os.path.dirname(os.path.abspath(__file__)), "gate"))

import record
from lanes import Lanes, Log, Times, Turns, has_room
from prover import Crate
from repository import ROOT, below, crates
from tries import Choice, Tries, say


def asked():
    parser = argparse.ArgumentParser(add_help=False)
    which = parser.add_mutually_exclusive_group()
    which.add_argument("--all", action="store_true")
    which.add_argument("--tenth", type=int, choices=range(10))
    which.add_argument("--beside")
    parser.add_argument("--record", action="store_true")
    parser.add_argument("--sources", action="store_true")
    parser.add_argument("--jobs", type=int, default=len(os.sched_getaffinity(0)))
    parser.add_argument("crates", nargs="*")
    return parser.parse_args()


# Next to rt ci, the seconds after which no edit is tried that an earlier run rejected, and after which such tries end.
LAST_BEGIN, LAST_END = 8400, 9600


class Run:
    """A run over the edits of some crates."""

    def __init__(self, words):
        self.cores, self.records = words.jobs, words.record or not words.beside
        self.log = Log(words.beside) if words.beside else None
        self.sources = words.sources
        tenth = record.tenth_of_commit() if words.beside else words.tenth
        names = [name for name in crates() if not words.crates or name in words.crates]
        self.choices = {name: Choice(name, tenth, words.all) for name in names}
        self.left = [name for name in names if self.choices[name].edits]
        self.parent, self.times = os.getppid(), Times()
        self.lanes, self.tries, self.copied = Lanes(self.times), {}, set()

    def is_late(self, limit):
        return self.log is not None and time.time() - self.times.started > limit

    def is_left(self, name, edits):
        """Returns whether these edits are left to a later run: it is late, and an earlier run rejected each of them."""
        return self.is_late(LAST_BEGIN) and all(it.name in self.choices[name].recorded for it in edits)

    def one(self, its, name, group):
        if not self.is_left(name, group["edits"]):
            its.one(group)

    def say_choice(self):
        edits = [why for it in self.choices.values() for why in it.why.values()]
        left_out = sum(it.left_out for it in self.choices.values())
        say(f"edits: {edits.count('not recorded')} not recorded, {len(edits) - edits.count('not recorded')} tried again, {left_out} left as recorded")

    def free(self):
        """Returns the number of processors for edits: half of them, or those that no other check uses."""
        return self.cores if not self.log or self.log.has_ended else max(self.cores // 2, self.cores - self.times.busy())

    def jobs(self):
        """Returns the number of processes of a check: two if memory allows, so that a check that continues after rt ci uses
        the free processors."""
        return max(2 if has_room() else 1, self.free() // self.lanes.wanted())

    def begin(self, name, libraries, kept):
        if self.is_left(name, self.choices[name].edits):
            return
        crate = Crate(name, libraries, kept, self.jobs)
        if not self.log and not self.sources and os.path.isdir(f"{crate.folder}/out/incremental"):
            shutil.copytree(f"{crate.folder}/out/incremental", kept)
        self.tries[name] = its = Tries(crate, self.choices[name], self.records)
        if self.log or self.sources or its.is_proved():
            its.first()
            for group in its.groups:
                is_new = any(it.name not in self.choices[name].recorded for it in group["edits"])
                self.lanes.add(len(group["edits"]) + 1000 * is_new, name, functools.partial(self.one, its, name, group))

    def look(self, room):
        """Reads the progress of rt ci, and copies the libraries that it has proved since the last call."""
        if os.getppid() != self.parent:
            sys.exit(1)
        self.log.read()
        self.times.look()
        for name, is_proved in self.log.proved.items():
            rlib = f"{ROOT}/crates/{name}/out/rlib/{name}.rlib"
            if is_proved and name not in self.copied and os.path.isdir(rlib):
                # (when rt ci ends, it gives a crate back what earlier runs left there)
                shutil.copytree(rlib, f"{room}/{name}.rlib")
                self.copied.add(name)

    def try_all(self):
        with tempfile.TemporaryDirectory(prefix="edits-libraries-", ignore_cleanup_errors=True) as room:
            libraries = (lambda _: room) if self.log else (lambda it: f"{ROOT}/crates/{it}/out/rlib")
            libraries = None if self.sources else libraries
            while (self.left or self.lanes.are_used() or (self.log and not self.log.has_ended)) and not self.is_late(LAST_END):
                if self.log:
                    self.look(room)
                well = [name for name in self.left if not self.log or all(it in self.copied for it in below(name))]
                for name in well:
                    self.lanes.add(len(self.choices[name].edits), name, functools.partial(self.begin, name, libraries, f"{room}/{name}"))
                self.left = [name for name in self.left if name not in well]
                if self.log and self.log.has_ended:
                    for name in self.left:
                        say(f"edits of {name}: not tried: rt ci has not proved what it stands on")
                    self.left = []
                self.lanes.fill(self.free())
                time.sleep(0.5)

    def not_tried(self, name):
        """Returns the edits of a crate that are left to a later run."""
        choice, told = self.choices[name], self.tries[name].told if name in self.tries else {}
        its = [it.name for it in choice.edits if it.name not in told and it.name in choice.recorded]
        return its if self.is_late(LAST_BEGIN) else []

    def end(self):
        """Prints the results, and returns the status."""
        self.times.tell()
        passed = failed = late = 0
        for name, choice in self.choices.items():
            for it in choice.gone:
                say(f"edits of {name}: the record has {it}, which is no edit")
            failed += len(choice.gone) if self.log else 0
            # (if rt ci has not come to a crate in time, its own result counts)
            is_proved = not self.log or self.log.proved.get(name, not self.log.has_ended)
            if choice.edits and not is_proved:
                say(f"edits of {name}: all failed: rt ci has not proved it")
            well = self.tries[name].passed() if name in self.tries and is_proved else 0
            left = self.not_tried(name) if is_proved else []
            for it in left:
                say(f"edit {name}/{it}: rejected by an earlier run, not tried in time")
            passed, failed, late = passed + well, failed + len(choice.edits) - well - len(left), late + len(left)
            if self.records and choice.gone and not choice.edits:
                choice.write_record({})
        print(f"edits: {passed} passed, {failed} failed" + (f", {late} not tried in time" if late else ""))
        return 1 if failed else 0


def main():
    # (so that its files below the temporary folder are removed)
    signal.signal(signal.SIGTERM, lambda *_: sys.exit(1))
    run = Run(asked())
    if run.log:
        # (rt ci has priority: the edits use what it leaves idle, and end first where memory is short)
        os.sched_setscheduler(0, os.SCHED_IDLE, os.sched_param(0))
        with contextlib.suppress(OSError), open("/proc/self/oom_score_adj", "w", encoding="utf-8") as it:
            it.write("500")
        Crate.wait = Turns(lambda: run.log.has_ended).wait
    run.say_choice()
    run.try_all()
    return run.end()


if __name__ == "__main__":
    sys.exit(main())
