"""Commands for crates, side by side: as many as there are processors, and as memory allows."""
import os
import re
import shutil
import subprocess
import sys
import tempfile
import time
from concurrent.futures import FIRST_COMPLETED, ThreadPoolExecutor, wait
from queue import SimpleQueue

ROOT = os.path.dirname(os.path.dirname(os.path.abspath(__file__)))
ROOM = 4_000_000_000  # what a check may take


def crates_of(root=ROOT):
    """Each crate of crates.txt, lowest first, with those of the repository that it uses."""
    lines = {}
    with open(f"{root}/crates.txt", encoding="utf-8") as it:
        for line in it:
            head, _, below = line.partition("#")[0].partition(":")
            if head.strip():
                lines[head.split()[0]] = below.split()
    found = {}

    def visit(name):
        if name not in found:
            for below in filter(lines.__contains__, lines[name]):
                visit(below)
            found[name] = [it for it in lines[name] if it in lines]

    for name in lines:
        visit(name)
    return found


def with_below(crates, names):
    """The crates with these names and all that they use, lowest first."""
    wanted = set(names)
    for name in reversed(crates):
        if name in wanted:
            wanted |= set(crates[name])
    return [name for name in crates if name in wanted]


def is_program(name, root=ROOT):
    return os.path.isfile(f"{root}/crates/{name}/src/main.rt")


def has_tests(name, root=ROOT):
    folder = f"{root}/crates/{name}/src"
    files = [os.path.join(at, it) for at, _, names in os.walk(folder) for it in names if it.endswith(".rt")]
    return any(re.search(r"^\s*#\[test\]", open(it, encoding="utf-8").read(), re.M) for it in files)


def lanes():
    """How many checks there may be at a time."""
    with open("/proc/meminfo", encoding="ascii") as it:
        free = 1024 * int(re.search(r"MemAvailable:\s+(\d+)", it.read())[1])
    return max(1, min(len(os.sched_getaffinity(0)), free // ROOM))


def run(words, folder, env=None):
    """The status of a command, and what it printed on both streams."""
    how = {"stdin": subprocess.DEVNULL, "stdout": subprocess.PIPE, "stderr": subprocess.STDOUT}
    ran = subprocess.run(words, cwd=folder, env=env, errors="replace", **how)
    return ran.returncode, ran.stdout


def run_all(what, tasks):
    """Runs tasks, each a name, the names of those that it waits for, and a call. Returns the result of each
    call, and None for a task that waits for one whose result is false."""
    given, running, began = {}, {}, 0
    left = {name: (after, call) for name, after, call in tasks}
    with ThreadPoolExecutor(lanes()) as pool:
        room = pool._max_workers
        while left or running:
            for name in list(left):
                after, call = left[name]
                if any(it in given and not given[it] for it in after):
                    given[name] = None
                    del left[name]
                elif len(running) < room and all(it in given for it in after):
                    began += 1
                    print(f"{what}: {name}, {began} of {len(tasks)}", flush=True)
                    running[pool.submit(call)] = name
                    del left[name]
            if running:
                for it in wait(running, return_when=FIRST_COMPLETED).done:
                    given[running.pop(it)] = it.result()
    return given


def timed(start):
    seconds = int(time.monotonic() - start)
    return f"{seconds // 60} min {seconds % 60} s"


def copies_of(root, folder):
    """Copies of the crates at the root, one for each lane, in a queue. rt locks the folders of all libraries below
    a crate while it works there, so each lane has its own, and takes what another one has built."""
    free = SimpleQueue()
    for lane in range(lanes()):
        copy = f"{folder}/{lane}"
        shutil.copytree(f"{root}/crates", f"{copy}/crates", ignore=shutil.ignore_patterns("out"))
        for name in ("crates.txt", "HANDLES"):
            shutil.copyfile(f"{root}/{name}", f"{copy}/{name}")
        free.put(copy)
    return free


def library(folder):
    """Proves and builds the library in this folder. Returns whether it is built, and what was printed."""
    status, said = run(["rt", "lib"], folder)
    return status == 0, said


def program(folder, name):
    """Proves and builds the program in this folder by rt run, which also runs it: the program prints its help, and
    ends with another status than 0. Returns whether it is built, and what was printed."""
    made = f"{folder}/out/{name}"
    if os.path.exists(made):
        os.remove(made)
    _, said = run(["rt", "run", "--", "--help"], folder)
    return os.access(made, os.X_OK), said


def build_crates(what, root, crates, names):
    """Proves and builds the crates with these names and those that they use, except for libraries that are built
    and have not changed. Returns whether all are proved."""
    wanted = with_below(crates, names)
    libraries = [name for name in wanted if not is_program(name, root)]
    os.makedirs(f"{root}/out", exist_ok=True)
    with tempfile.TemporaryDirectory(prefix="copies-", dir=f"{root}/out") as folder:
        free = copies_of(root, folder)

        def build(name):
            copy = free.get()
            at, own = f"{copy}/crates/{name}", f"{root}/crates/{name}/out"
            is_built, said = library(at) if name in libraries else program(at, name)
            if is_built and name not in libraries:
                os.makedirs(own, exist_ok=True)
                shutil.copy2(f"{at}/out/{name}", f"{own}/{name}")
            free.put(copy)
            told = f"{what}: {name} is proved" if is_built else f"{said}{what}: {name} IS NOT PROVED"
            print(told, flush=True)
            return is_built

        tasks = [(name, crates[name], lambda name=name: build(name)) for name in wanted]
        found = run_all(what, tasks)
        # What is built is taken from the copies before these are removed.
        made = [name for name in libraries if found[name]]
        below = {it for name in made for it in crates[name]}
        taken = [library(f"{root}/crates/{name}")[0] for name in made if name not in below]
    return all(found.values()) and all(taken)


sys.dont_write_bytecode = True
