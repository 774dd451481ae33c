"""Decides what runs when: next to rt ci, whose log shows its progress, or alone."""
import os
import re
import threading
import time
import traceback

from repository import ROOT, crates
from tries import say


class Log:
    """The lines of rt ci so far: which crates are proved and which are not."""

    def __init__(self, path):
        self.lines = open(path, encoding="utf-8", errors="replace")
        self.rest = ""
        self.proved, self.has_ended = {}, False

    def read(self):
        *lines, self.rest = (self.rest + self.lines.read()).split("\n")
        for line in lines:
            # ('is kept': an earlier run on this machine proved the same text)
            crate = re.fullmatch(r"rt: (\w+) (NOT PROVED|proved|is kept)(:.*)?", line)
            if crate:
                self.proved[crate[1]] = crate[2] != "NOT PROVED"
            self.has_ended = self.has_ended or line == "ended"


def processors():
    """Returns for how many seconds since the start of the machine its processors were used, idle, and taken by the host."""
    with open("/proc/stat", encoding="utf-8") as it:
        user, nice, system, idle, waits, *handled, stolen = map(int, it.readline().split()[1:9])
    each = os.sysconf("SC_CLK_TCK")
    return (user + nice + system + sum(handled)) / each, (idle + waits) / each, stolen / each


def has_room():
    """Returns whether there is memory for one more process of a check, and for what rt ci's checks still need."""
    with open("/proc/meminfo", encoding="utf-8") as it:
        sizes = dict(line.split()[:2] for line in it)
    return int(sizes["MemAvailable:"]) > 8 << 20


class Turns:
    """Lets the checks of edits begin one after the other while rt ci runs, and only where they leave it memory."""

    def __init__(self, has_ended):
        self.has_ended, self.turn = has_ended, threading.Lock()

    def wait(self):
        with self.turn:
            while not has_room() and not self.has_ended():
                time.sleep(5)
            if not self.has_ended():
                # (by then the check has taken most of its memory)
                time.sleep(20)


class Times:
    """When each task ran, in seconds after the start; for the checks of rt ci, as seen from the processes."""

    def __init__(self):
        self.started, self.processors = time.time(), processors()
        self.seen = {}
        # the numbers of running processes of checks at the last looks
        self.checks = []

    def note(self, name, what):
        now = time.time() - self.started
        self.seen[name, what] = self.seen.get((name, what), (now, now))[0], now

    def look(self):
        checks = 0
        for pid in filter(str.isdigit, os.listdir("/proc")):
            try:
                with open(f"/proc/{pid}/cmdline", encoding="utf-8", errors="replace") as it:
                    words = it.read().split("\0")
                if os.path.basename(words[0]) == "rattle" and words[1] in ("check", "build") and "--crate-name" in words:
                    name = words[words.index("--crate-name") + 1]
                    if os.readlink(f"/proc/{pid}/cwd") == f"{ROOT}/crates/{name}":
                        self.note(name, "tests" if "--test" in words else "proofs")
                        with open(f"/proc/{pid}/stat", encoding="utf-8") as it:
                            checks += it.read().rpartition(")")[2].split()[0] == "R"
            except OSError:
                pass
        self.checks = [*self.checks[-20:], checks]

    def busy(self):
        """Returns the number of processors that the checks have used recently."""
        return max(self.checks, default=0)

    def tell(self):
        for name in crates():
            spans = [(what, *self.seen[name, what]) for what in ("proofs", "tests", "edits") if (name, what) in self.seen]
            if spans:
                say(f"seconds of {name}: " + ", ".join(f"{what} {at:.0f} to {end:.0f}" for what, at, end in spans))
        used, idle, stolen = (now - then for now, then in zip(processors(), self.processors))
        say(f"seconds of all processors: {used:.0f} used, {idle:.0f} idle, {stolen:.0f} taken by the host")


class Lanes:
    """The tasks that may begin now, each with its size and crate, and the running tasks."""

    def __init__(self, times):
        self.times, self.ready, self.running = times, [], []

    def add(self, size, name, call):
        self.ready.append((size, name, call))

    def wanted(self):
        """Returns the number of lanes with work."""
        return max(1, len(self.ready) + len(self.running))

    def are_used(self):
        self.running = [it for it in self.running if it[1].is_alive()]
        return bool(self.ready or self.running)

    def fill(self, lanes):
        """Begins tasks: first those of crates without a running task, since a check reuses what earlier checks proved; among
        these the largest first, so that all end together."""
        while self.are_used() and self.ready and len(self.running) < lanes:
            busy = {name for name, _ in self.running}
            first = max(self.ready, key=lambda it: (it[1] not in busy, it[0]))
            self.ready.remove(first)
            thread = threading.Thread(target=self.work, args=first[1:], daemon=True)
            thread.start()
            self.running.append((first[1], thread))

    def work(self, name, call):
        self.times.note(name, "edits")
        try:
            call()
        except Exception:
            say(f"edits of {name}: not tried\n{traceback.format_exc()}")
        self.times.note(name, "edits")
