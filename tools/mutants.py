#!/usr/bin/env python3
"""mutants.py [PROGRAM..]: plants the wrong bodies that tests/mutants lists, those of the named programs or all, and
runs the cases that should notice each. Each program is built once with all wrong bodies in it, compiled with checks
in the place of proofs. For each wrong body a copy of its program has this one switched on. The other programs are
those that are built here, those of the folder BIN, or those that make test built. The cases first run with all wrong
bodies off: a case that fails then fails the run. Prints which wrong bodies are caught, and by which case. One that no
case notices fails the run.

A line of tests/mutants has six columns, parted by tabs: the program, a file or a folder of cases, the file of the
sources, the old text, which that file has once, the new text, and the promise that the wrong body breaks. In a text
\\n is the end of a line. In the new text MUTANT is a condition: it is true where the wrong body is switched on, and
else the new text has to do what the old one does. A new text without this word gets a build of its own.

KEEP=FOLDER keeps the built programs in this folder. A later run builds those whose sources have changed. SIDE=N
tries N wrong bodies side by side, two if it is absent.
"""
import hashlib
import os
import re
import shutil
import subprocess
import sys
import tempfile
import time
from concurrent.futures import ThreadPoolExecutor

sys.dont_write_bytecode = True
from side_by_side import ROOT, crates_of, with_below
from tried import built

LIST, SIDE = f"{ROOT}/tests/mutants", int(os.environ.get("SIDE", "2"))
COLUMNS = ("program", "cases", "file", "old", "new", "promise")
PROGRAMS = ("seccheck", "scriptd", "scriptctl", "nodeagent")
TRIALS = ("memory_trials", "node_trials")
MARK = "switches-of-wrong-bodies-6b1f0c93d5a84e27:"
SWITCHES = """//! The wrong bodies that are switched on, as a text that tools/mutants.py changes in the built program.

const SWITCHES: &str = "%s";

pub(crate) fn is_on(place: usize) -> bool {
    SWITCHES.as_bytes()[place] == b'1'
}
"""


def mutants():
    with open(LIST, encoding="utf-8") as it:
        rows = [line.rstrip("\n").split("\t") for line in it if line.strip() and not line.startswith("#")]
    wrong = [row for row in rows if len(row) != len(COLUMNS) or row[0] not in PROGRAMS]
    if wrong:
        sys.exit(f"mutants: a line has {len(COLUMNS)} columns, and begins with a program: {wrong[0]}")
    found = [dict(zip(COLUMNS, row)) for row in rows]
    for number, mutant in enumerate(found):
        mutant["number"], mutant["is_switched"] = number, "MUTANT" in mutant["new"]
        if not os.path.exists(f"{ROOT}/tests/{mutant['cases']}"):
            sys.exit(f"mutants: there is no tests/{mutant['cases']}")
    return found


def copy_sources(folder):
    listed = subprocess.run(["git", "ls-files", "-z", "crates", "crates.txt", "HANDLES"], cwd=ROOT,
                            stdout=subprocess.PIPE, check=True).stdout
    for name in filter(None, listed.decode().split("\0")):
        if not re.search(r"/(must-fail|planted)/", name):
            os.makedirs(os.path.dirname(f"{folder}/{name}"), exist_ok=True)
            shutil.copyfile(f"{ROOT}/{name}", f"{folder}/{name}")


def change(path, old, new):
    """Replaces a text that the file has once. Returns whether there is this file, and has it once."""
    if not os.path.isfile(path):
        return False
    with open(path, "r+", encoding="utf-8") as it:
        text = it.read()
        if text.count(old) != 1:
            return False
        it.seek(0)
        it.truncate()
        it.write(text.replace(old, new))
    return True


def plant(mutant, folder):
    place = f"crate::mutants::is_on({len(MARK) + mutant['number']})"
    old, new = (mutant[it].replace("\\n", "\n") for it in ("old", "new"))
    if not change(f"{folder}/{mutant['file']}", old, new.replace("MUTANT", place)):
        sys.exit(f"mutants: {mutant['file']} does not have this text once: {mutant['old']}")


def planted(wanted, count, folder):
    """Makes a copy of the sources with these wrong bodies, with room for the switches of the whole list."""
    copy_sources(folder)
    for mutant in wanted:
        plant(mutant, folder)
    for crate in {it["file"].split("/")[1] for it in wanted if it["is_switched"]}:
        with open(f"{folder}/crates/{crate}/src/mutants.rt", "w", encoding="utf-8") as it:
            it.write(SWITCHES % (MARK + (count // 256 + 1) * 256 * "0"))
        auto = "#![tactic(auto)]\n"
        if not change(f"{folder}/crates/{crate}/src/lib.rt", auto, auto + "\nmod mutants;\n"):
            sys.exit(f"mutants: crates/{crate}/src/lib.rt has no line {auto}")


def checksum(name, folder):
    """Returns a checksum of the sources in the folder that this program is built from."""
    sums = hashlib.sha256()
    for crate in with_below(crates_of(folder), [name]):
        for at, folders, names in os.walk(f"{folder}/crates/{crate}/src"):
            folders.sort()
            for file in sorted(names):
                with open(f"{at}/{file}", "rb") as it:
                    sums.update(f"{crate}/{file}\0".encode() + it.read())
    return sums.hexdigest()


def build(name, sources, kept):
    """Builds a program of the copied sources into the kept folder, unless it is there already."""
    program, of, is_of = f"{kept}/{name}", f"{kept}/{name}.of", checksum(name, sources)
    if os.path.exists(program) and os.path.exists(of) and open(of, encoding="ascii").read() == is_of:
        return
    start = time.monotonic()
    said, is_there = built(name, sources, sources)
    if not is_there:
        sys.exit(f"mutants: {name} is not built: {said[-2000:]}")
    shutil.copyfile(f"{sources}/bin/{name}", program)
    os.chmod(program, 0o755)
    with open(of, "w", encoding="ascii") as it:
        it.write(is_of)
    print(f"mutants: {name} is built, {time.monotonic() - start:.0f} s", flush=True)


def switched_on(program, mutant, into):
    """Writes a copy of the program with this wrong body switched on in each of its crates."""
    with open(program, "rb") as it:
        data = bytearray(it.read())
    places = [it.end() + mutant["number"] for it in re.finditer(re.escape(MARK.encode()), data)]
    if not places:
        sys.exit(f"mutants: {program} has no switches")
    for place in places:
        data[place] = ord("1")
    with open(into, "wb") as it:
        it.write(data)
    os.chmod(into, 0o755)


def programs_in(folder, kept, names, but=None):
    """Makes a folder with links to the programs: those with these names are the kept ones."""
    os.makedirs(folder, exist_ok=True)
    for name in (*PROGRAMS, *TRIALS):
        given = f"{os.environ['BIN']}/{name}" if "BIN" in os.environ else f"{ROOT}/crates/{name}/out/{name}"
        program = f"{kept}/{name}" if name in names else os.path.abspath(given)
        if name in TRIALS and not os.path.exists(program):
            program = shutil.which("false")  # only the cases of tests/memory run it
        if name != but and os.path.exists(program):
            os.symlink(program, f"{folder}/{name}")


def failures(folder, cases):
    """Returns the commands that failed in these cases, with the programs of the folder. After the first case that
    fails no other begins."""
    env = {**os.environ, "BIN": folder, "QUICK": "1", "FIRST": "1"}
    words = [f"{ROOT}/tests/run", *(f"{ROOT}/tests/{it}" for it in cases)]
    ran = subprocess.run(words, capture_output=True, text=True, env=env)
    found = re.findall(r"^failed: (.*)$", ran.stdout, re.M)
    if ran.returncode and not found:
        sys.exit(f"mutants: {' '.join(cases)} did not end as cases do: {(ran.stdout + ran.stderr)[-500:]}")
    return found


def verdict(mutant, kept, names, count):
    """Returns whether a wrong body was caught, and the first command that noticed."""
    program = mutant["program"]
    with tempfile.TemporaryDirectory(prefix="mutant-") as folder:
        bin_folder = f"{folder}/programs"
        programs_in(bin_folder, kept, names, program)
        if mutant["is_switched"]:
            switched_on(f"{kept}/{program}", mutant, f"{bin_folder}/{program}")
        else:
            planted([mutant], count, f"{folder}/sources")
            build(program, f"{folder}/sources", bin_folder)
        noticed = failures(bin_folder, [mutant["cases"]])
    return (True, noticed[0][:100]) if noticed else (False, "no case")


def run(wanted, kept, names, count):
    caught = dict.fromkeys(PROGRAMS, 0)
    with ThreadPoolExecutor(SIDE) as pool:
        found = pool.map(lambda mutant: verdict(mutant, kept, names, count), wanted)
        for mutant, (is_caught, by) in zip(wanted, found):
            caught[mutant["program"]] += is_caught
            how = "caught" if is_caught else "SURVIVES"
            print(f"{how}: {mutant['program']}: {mutant['promise']}: {by}", flush=True)
    for name in names:
        of = sum(it["program"] == name for it in wanted)
        print(f"{name}: {of} wrong bodies, {caught[name]} caught, {of - caught[name]} survive")
    survivors = len(wanted) - sum(caught.values())
    print(f"{len(wanted)} wrong bodies, {len(wanted) - survivors} caught, {survivors} survive")
    return survivors != 0


def main():
    named, found = sys.argv[1:], mutants()
    wanted = [it for it in found if not named or it["program"] in named]
    with tempfile.TemporaryDirectory(prefix="mutants-") as folder:
        kept = os.path.abspath(os.environ.get("KEEP", f"{folder}/kept"))
        os.makedirs(kept, exist_ok=True)
        planted([it for it in found if it["is_switched"]], len(found), f"{folder}/sources")
        names = [name for name in PROGRAMS if any(it["program"] == name for it in wanted)]
        for name in names:
            build(name, f"{folder}/sources", kept)
        programs_in(f"{folder}/off", kept, names)
        wrong = failures(f"{folder}/off", sorted({it["cases"] for it in wanted}))
        if wrong:
            sys.exit(f"mutants: a case fails without a wrong body: {wrong[0]}")
        return run(wanted, kept, names, len(found))


sys.exit(main())
