#!/usr/bin/env python3
"""try.py PREFIX: compiles the programs side by side, with checks at run time in the place of proofs, and
installs them with their manual pages and the shells' completions below PREFIX. Their `--version` says `unproved`.
"""
import os
import shutil
import subprocess
import sys
import tempfile
import time
from concurrent.futures import ThreadPoolExecutor

sys.dont_write_bytecode = True
from side_by_side import ROOT, timed
from tried import built

# How many seconds after the start each program's compiler begins. On a machine of four cores all four ended sooner
# in this way than if they began at once (docs/BENCHMARKS.md). Why was not found out.
PROGRAMS = {"seccheck": 0, "nodeagent": 0, "scriptd": 15, "scriptctl": 45}
VERSION_FILE, VERSION = "crates/command_line/src/arguments.rt", '"0.1.0"'


def copy_into(folder):
    """The sources that git knows, with another version."""
    listed = subprocess.run(["git", "ls-files", "-z", "crates", "crates.txt", "HANDLES"], cwd=ROOT,
                            stdout=subprocess.PIPE, check=True).stdout
    for name in filter(None, listed.decode().split("\0")):
        if os.path.exists(f"{ROOT}/{name}"):
            os.makedirs(os.path.dirname(f"{folder}/{name}"), exist_ok=True)
            shutil.copyfile(f"{ROOT}/{name}", f"{folder}/{name}")
    with open(f"{folder}/{VERSION_FILE}", "r+", encoding="utf-8") as it:
        text = it.read()
        if text.count(VERSION) != 1:
            sys.exit(f"try: {VERSION_FILE} does not have {VERSION} once")
        it.seek(0)
        it.write(text.replace(VERSION, f'{VERSION[:-1]} unproved"'))


def installed(name, folder, prefix, begun):
    """Compiles a program and installs it, and answers whether there is one."""
    time.sleep(PROGRAMS[name])
    said, is_there = built(name, folder, folder)
    if not is_there:
        print(f"{said}try: {name} could not be compiled", flush=True)
        return False
    for part in ("bin", "share/man/man1"):
        os.makedirs(f"{prefix}/{part}", exist_ok=True)
    program = f"{prefix}/bin/{name}"
    shutil.copyfile(f"{folder}/bin/{name}", f"{program}.new")
    os.chmod(f"{program}.new", 0o755)
    os.rename(f"{program}.new", program)
    shutil.copyfile(f"{ROOT}/man/{name}.1", f"{prefix}/share/man/man1/{name}.1")
    print(f"try: {program} is installed, unproved, after {timed(begun)}", flush=True)
    return True


def main():
    if len(sys.argv) != 2:
        sys.exit("usage: try.py PREFIX")
    prefix = os.path.abspath(sys.argv[1])
    print(f"try: {', '.join(PROGRAMS)} are compiled with checks in the place of proofs", flush=True)
    with tempfile.TemporaryDirectory(prefix="try-") as folder:
        copy_into(folder)
        with ThreadPoolExecutor(len(PROGRAMS)) as pool:
            begun = time.monotonic()
            found = [*pool.map(lambda name: installed(name, folder, prefix, begun), PROGRAMS)]
    if all(found):
        subprocess.run([f"{ROOT}/tools/completions.py", prefix], check=True)
    return not all(found)


sys.exit(main())
