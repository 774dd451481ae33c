"""Runs a crate of .ci/hostile, none of which is proved, and builds it as a program.

Its files end in .rt.in, since a file.rt is one that the gate proves. Here they stand among the crates of a copy of the repository.
`rt try` compiles them with checks, runs that, and keeps nothing; what it compiled is compiled once more without these checks, so
that a program is there which asks the C library for its memory."""
import contextlib
import os
import shutil
import subprocess
import tempfile
import threading
import time

ROOT = os.path.dirname(os.path.dirname(os.path.dirname(os.path.abspath(__file__))))

# How long one test may take: these run beside the gate, which leaves them little of the processors.
SECONDS = 1200


def said_by(*words, where=ROOT):
    return subprocess.run(words, cwd=where, stdout=subprocess.PIPE, text=True, check=True).stdout


@contextlib.contextmanager
def copied(name, below):
    """The folder of the crate in a copy of the repository, that stands on these crates."""
    with tempfile.TemporaryDirectory(prefix="hostile-") as room:
        for path in said_by("git", "ls-files", "-z", "crates", "HANDLES").split("\0")[:-1]:
            os.makedirs(os.path.dirname(f"{room}/{path}"), exist_ok=True)
            shutil.copy(f"{ROOT}/{path}", f"{room}/{path}")
        folder = f"{room}/crates/{name}"
        shutil.copytree(f"{ROOT}/.ci/hostile/{name}", folder)
        for path, _, files in os.walk(folder):
            for it in files:
                if it.endswith(".rt.in"):
                    os.rename(f"{path}/{it}", f"{path}/{it.removesuffix('.in')}")
        with open(f"{ROOT}/crates.txt", encoding="utf-8") as old, open(f"{room}/crates.txt", "w", encoding="utf-8") as new:
            new.write(f"{old.read()}{name}: {' '.join(below)}\n")
        yield folder


def keep(folder, kept, ended):
    """Keeps each module that is compiled in a folder of this one, as soon as it is there, until the event."""
    seen = set()
    while not ended.is_set():
        for path, _, files in os.walk(folder):
            if "module.bc" in files and path not in seen:
                with contextlib.suppress(FileNotFoundError):
                    os.link(f"{path}/module.bc", f"{kept}/{len(seen)}.bc")
                    seen.add(path)
        time.sleep(0.05)


def run_of(folder, *words, **how):
    """The status of `rt try` of the crate, and what it tells."""
    words = ["--seconds", str(SECONDS), *words]
    how = {"stdin": subprocess.DEVNULL, "stdout": subprocess.PIPE, "stderr": subprocess.STDOUT, "errors": "replace", "text": True, **how}
    ran = subprocess.run(["rt", "try", *words], cwd=folder, check=False, **how)
    return ran.returncode, ran.stdout


def tried(folder, words, level="-O1"):
    """What `rt try` tells of the crate, with its status, and the program that it compiled, without its checks."""
    for it in ("compiled", "kept"):
        os.mkdir(f"{folder}/{it}")
    ended = threading.Event()
    keeper = threading.Thread(target=keep, args=(f"{folder}/compiled", f"{folder}/kept", ended))
    keeper.start()
    status, told = run_of(folder, *words, env={**os.environ, "TMPDIR": f"{folder}/compiled"})
    ended.set()
    keeper.join()
    if status != 0:
        return status, told, None
    # Beside the program there are small ones, which tell its checks how to work.
    module = max((it.path for it in os.scandir(f"{folder}/kept")), key=os.path.getsize)
    kit = os.path.dirname(said_by("rt", "doc").strip())
    built = f"{folder}/program"
    subprocess.run([f"{kit}/toolchain/bin/clang", "--no-default-config", "-c", "-x", "ir", module, "-o", f"{built}.o", "-fPIE", level], check=True)
    subprocess.run(["cc", "-o", built, f"{built}.o", f"{kit}/c/libos_c.a", f"{kit}/c/liblibc_c.a"], check=True)
    return 0, told, built
