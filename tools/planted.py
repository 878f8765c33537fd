#!/usr/bin/env python3
"""planted.py [CRATE..]: tries all wrong bodies of the crates with these names, of crates/NAME/must-fail/ and
of crates/NAME/planted/, which the gate leaves out, on a copy: the prover must refuse each. A crate is proved
once, and each of its wrong bodies over that; crates go side by side. The last lines have a crate's counts
each, and the sum.
"""
import os
import re
import shutil
import subprocess
import sys
import tempfile
import time

sys.dont_write_bytecode = True
from side_by_side import ROOT, build_crates, crates_of, run, run_all, timed


def copy_into(folder):
    """The files that git knows, and the proved libraries beside them."""
    listed = subprocess.run(["git", "ls-files", "-z"], cwd=ROOT, stdout=subprocess.PIPE, check=True).stdout
    for name in filter(None, listed.decode().split("\0")):
        if os.path.exists(f"{ROOT}/{name}"):
            os.makedirs(os.path.dirname(f"{folder}/{name}"), exist_ok=True)
            shutil.copy2(f"{ROOT}/{name}", f"{folder}/{name}")
    for name in os.listdir(f"{ROOT}/crates"):
        built = f"{ROOT}/crates/{name}/out/rlib"
        if os.path.isdir(built) and os.path.isdir(f"{folder}/crates/{name}"):
            shutil.copytree(built, f"{folder}/crates/{name}/out/rlib", symlinks=True)
    subprocess.run(["git", "init", "-q", "."], cwd=folder, check=True)


def edits_of(folder, name):
    """Puts all wrong bodies of the crate where rt looks for them, and returns their number."""
    here, there = f"{folder}/crates/{name}/planted", f"{folder}/crates/{name}/must-fail"
    if os.path.isdir(here):
        os.makedirs(there, exist_ok=True)
        for it in os.listdir(here):
            shutil.move(f"{here}/{it}", f"{there}/{it}")
    return len(os.listdir(there)) if os.path.isdir(there) else 0


def tried(folder, name, count):
    """How many of a crate's wrong bodies were refused."""
    begun = time.monotonic()
    _, said = run(["rt", "must-fail", name], folder)
    lines = re.findall(r"^(?:rt: )?must-fail (.*)$", said, re.M)
    refused = sum("refused, as it must be" in it for it in lines)
    print("".join(f"  {it}\n" for it in lines) if lines else said, end="")
    print(f"planted: {name}: {refused} of {count} refused, in {timed(begun)}", flush=True)
    return refused, count


def main():
    crates, names = crates_of(), sys.argv[1:]
    unknown = [name for name in names if name not in crates]
    if unknown:
        sys.exit(f"planted: there is no crate {unknown[0]}")
    begun = time.monotonic()
    with tempfile.TemporaryDirectory(prefix="planted-") as folder:
        copy_into(folder)
        counts = {name: edits_of(folder, name) for name in names or crates}
        chosen = [name for name, count in counts.items() if count]
        below = {it for name in chosen for it in crates[name]}
        if not build_crates("planted, proving", folder, crates, below):
            sys.exit("planted: a crate is not proved, so nothing was tried")
        tasks = [(name, [], lambda name=name: tried(folder, name, counts[name])) for name in chosen]
        found = run_all("planted, trying", tasks)
    for name, (refused, count) in sorted(found.items()):
        print(f"{name:14}{refused:5} of{count:4} refused")
    refused, count = (sum(it[at] for it in found.values()) for at in (0, 1))
    print(f"planted: {refused} refused, {count - refused} not, in {timed(begun)}")
    return refused != count


sys.exit(main())
