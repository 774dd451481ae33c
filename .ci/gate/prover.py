"""Calls the prover on edited copies of a crate, and keeps results from one call to the next."""
import contextlib
import os
import re
import shutil
import signal
import subprocess
import tempfile

from repository import ROOT, below, crates, kit

PROOFS = {"Answers.antt", "Invariants.antt", "Proof.antt"}


def guard():
    """Returns the number of a process group that ends when this run ends, even if it is killed: the shell in the group reads
    until this run's end of the pipe is closed."""
    ends, _ = os.pipe()
    how = {"stdin": ends, "stdout": subprocess.DEVNULL, "stderr": subprocess.DEVNULL}
    return subprocess.Popen(["sh", "-c", "read _; kill -9 0"], preexec_fn=os.setpgrp, **how).pid


class Crate:
    """A crate, the folders of the libraries below it (None: read as sources), the folder that keeps what its checks proved, and
    the number of jobs of a check. `wait` returns when the next check may begin."""

    guard, wait = None, staticmethod(lambda: None)

    def __init__(self, name, libraries, kept, jobs):
        self.name, self.libraries, self.kept, self.jobs = name, libraries, kept, jobs
        self.folder = f"{ROOT}/crates/{name}"
        Crate.guard = Crate.guard or guard()

    def words(self):
        """Returns the command of a check, without what it should prove."""
        words = [f"{kit()}/bin/rattle", "check", "--crate-name", self.name]
        words += ["src/main.rt" if os.path.isfile(f"{self.folder}/src/main.rt") else "src/lib.rt"]
        words += self.words_below() if self.libraries else self.words_of_sources()
        words += ["--antt-project", f"{kit()}/rattle/logic/antt-project.json", "--logic-built", f"{kit()}/logic_built"]
        return [*words, "--links", f"{self.name}=", "--jobs", str(self.jobs())]

    def words_below(self):
        """Returns the arguments for the built libraries below."""
        own, needs = crates(), crates()[self.name]
        words = kit_libraries(it for it in needs if it not in own)
        for it in needs:
            if it in own:
                words += ["--extern", f"{it}={self.libraries(it)}/{it}.rlib"]
        for it in below(self.name):
            words += ["-L", f"dependency={self.libraries(it)}"]
        return words

    def words_of_sources(self):
        """Returns the arguments for the sources of the libraries below, none of which has to be built."""
        own, its = crates(), below(self.name)
        words = kit_libraries(dict.fromkeys(it for name in [*its, self.name] for it in own[name] if it not in own))
        for it in (it for it in own if it in its):
            words += ["--lib", f"{it}:{','.join(['std', *own[it]])}={ROOT}/crates/{it}/src/lib.rt"]
        return words

    def copied(self, room, texts):
        """Copies the crate's text to a folder, with these texts instead of its own."""
        for part in ("src", "specs", "proofs"):
            if os.path.isdir(f"{self.folder}/{part}"):
                shutil.copytree(f"{self.folder}/{part}", f"{room}/{part}")
        for file, text in texts.items():
            with open(f"{room}/{file}", "w", encoding="utf-8") as it:
                it.write(text)

    def check(self, texts, edits=(), keeps=False, by_contract=False):
        """Runs the prover on a copy of the crate with these texts instead of its own, for the functions of these edits or for all;
        `by_contract` assumes the contracts of all others. Reuses what earlier checks proved. A check that keeps must run alone.
        Returns the status and the output. A check that is killed, most likely for memory, is run again, at most seven times."""
        for _ in range(8):
            Crate.wait()
            status, said = self.once(texts, edits, keeps, by_contract)
            if status != -signal.SIGKILL:
                break
        return status, said

    def once(self, texts, edits, keeps, by_contract):
        words = self.words()
        words += [word for edit in edits for word in ("--only", f"{self.name}::{edit.of}")]
        words += ["--allow-holes"] if by_contract else []
        with tempfile.TemporaryDirectory(prefix="edits-") as room:
            self.copied(room, texts)
            if by_contract:
                leave_holes(self.name, f"{room}/proofs", edits)
            if not keeps and os.path.isdir(self.kept):
                shutil.copytree(self.kept, f"{room}/kept", copy_function=linked)
            words += ["--incremental", self.kept if keeps else f"{room}/kept"]
            how = {"stdin": subprocess.DEVNULL, "stdout": subprocess.PIPE, "stderr": subprocess.STDOUT}
            how["preexec_fn"] = lambda: os.setpgid(0, Crate.guard)
            ran = subprocess.run(words, cwd=room, errors="replace", text=True, **how)
            if not keeps:
                keep(f"{room}/kept", self.kept)
        # (a long message continues on indented lines)
        return ran.returncode, re.sub(r"(\.antt:\d+:\d+: error: [^\n]*)\n  (?=\S)", r"\1 ", ran.stdout)


def kit_libraries(names):
    words = []
    for it in ["std", *names]:
        words += ["--extern", f"{it}={kit()}/rlibs/{it}.rlib"]
    return [*words, "-L", f"dependency={kit()}/rlibs"]


def leave_holes(name, proofs, edits):
    """Replaces by holes the proof files of functions that no edit changes, alone or in a cycle of calls."""
    own = {f"{proofs}/{edit.of.replace('::', '/')}" for edit in edits}
    for folder, _, files in os.walk(proofs):
        path = os.path.relpath(folder, proofs).split("/")
        if PROOFS & set(files) and folder not in own and not any(it.startswith("+") for it in path):
            for it in PROOFS & set(files):
                os.remove(f"{folder}/{it}")
            with open(f"{folder}/Proof.antt", "w", encoding="utf-8") as it:
                it.write(f"use Rattle.{name}.proofs.{'.'.join(path)}.Statement.{{statement}}\n\n")
                it.write(f"pub {path[-1]}_spec : {{M : Type 1}} → statement M\n{path[-1]}_spec = ?\n")


def linked(one, other):
    """Copies a file; links a file of proved results, since a check replaces such files and never changes them."""
    return os.link(one, other) if one.endswith(".oantt") else shutil.copy2(one, other)


def keep(made, kept):
    """Keeps what a check proved and no earlier one did. A check that uses such a file tests it again."""
    for folder, _, files in os.walk(made):
        to = f"{kept}/{os.path.relpath(folder, made)}"
        for it in files:
            if it.endswith(".oantt") and not os.path.exists(f"{to}/{it}"):
                os.makedirs(to, exist_ok=True)
                with contextlib.suppress(FileExistsError):
                    os.link(f"{folder}/{it}", f"{to}/{it}")
