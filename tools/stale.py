#!/usr/bin/env python3
"""stale.py: finds what a renaming has left behind, in seconds and without a proof: imports of specs/, proofs/ and
ghost uses whose file or name is not there, proofs of functions that are gone, and wrong bodies (must-fail/,
planted/, tests/mutants) whose old text their file does not have exactly once. Modules that a check makes (Goals,
Given, TheConstants, contracts) are passed over. The last line has the counts.
"""
import glob
import os
import re
import sys

sys.dont_write_bytecode = True
from side_by_side import ROOT, crates_of

# The crate, specs or proofs, the module's path, and the imported names.
USE = re.compile(
    r"^\s*(?:ghost )?use Rattle\.(\w+)\.(specs|proofs)\.([^\s;{]+?)(?:\.\{([^}]*)\})?(?: as \w+)?;?$", re.M)
MADE = {"Goals", "Given", "Code", "Statement", "TheConstants", "contracts"}
TEXTS = {}


def text_of(path):
    """The text of a file, or nothing if it is not there."""
    if path not in TEXTS:
        try:
            with open(path, encoding="utf-8") as file:
                TEXTS[path] = file.read()
        except FileNotFoundError:
            TEXTS[path] = ""
    return TEXTS[path]


def names_in(words):
    """The imported names, without operators and without the words that they get here."""
    names = (word.split(" as ")[0].strip() for word in (words or "").split(","))
    return [name for name in names if name and "◌" not in name]


def file_of(folder, parts, suffix):
    """The file of a module's path, and the parts behind it. None if there is no file."""
    for end in range(len(parts), 0, -1):
        path = f"{folder}/{'/'.join(parts[:end])}{suffix}"
        if os.path.isfile(path):
            return path, parts[end:]
    return None


def missing(crate, kind, parts, names):
    """The names of an import that are not there."""
    if MADE & set(parts):
        return []
    folder = f"{ROOT}/crates/{crate}"
    is_type = kind == "specs" and parts[0] == "declared"
    found = file_of(f"{folder}/src", parts[1:], ".rt") if is_type else file_of(f"{folder}/{kind}", parts, ".antt")
    if found is None:
        return [".".join(parts)]
    path, rest = found
    wanted = [name for name in [*rest, *names] if name != "TheVariants"]
    return [name for name in wanted if not re.search(rf"(?<!\w){re.escape(name)}(?!\w)", text_of(path))]


def imports():
    """Each import of the repository's crates, and what is missing of it."""
    crates = crates_of()
    for path in sorted(glob.glob(f"{ROOT}/crates/*/*/**/*", recursive=True)):
        if path.endswith((".rt", ".antt")) and "/out/" not in path:
            for crate, kind, where, words in USE.findall(text_of(path)):
                if crate in crates:
                    lacking = missing(crate, kind, where.split("."), names_in(words))
                    yield path, [f"{crate} has no {name} in {kind}.{where}" for name in lacking]


def proofs():
    """Each file of a function's proof, whose folder has the function's name, and what is wrong with it."""
    for crate in sorted(glob.glob(f"{ROOT}/crates/*")):
        sources = "".join(map(text_of, glob.glob(f"{crate}/src/**/*.rt", recursive=True)))
        names = set(re.findall(r"\bfn (\w+)", sources))
        for path in sorted(glob.glob(f"{crate}/proofs/**/*.antt", recursive=True)):
            name = os.path.basename(os.path.dirname(path)).lstrip("+")
            if os.path.basename(path) in ("Answers.antt", "Invariants.antt"):
                yield path, [] if name in names else [f"{os.path.basename(crate)} has no function {name}"]


def wrong_bodies():
    """The file of each wrong body, the file that it changes, and the old text."""
    for path in sorted(glob.glob(f"{ROOT}/crates/*/must-fail/*.edit") + glob.glob(f"{ROOT}/crates/*/planted/*.edit")):
        crate, file = os.path.dirname(os.path.dirname(path)), ""
        for line in text_of(path).splitlines():
            word, _, rest = line.partition(": ")
            if word == "file":
                file = f"{crate}/{rest}"
            elif word == "old":
                yield path, file, rest
    mutants = f"{ROOT}/tests/mutants"
    for line in text_of(mutants).splitlines():
        if line and not line.startswith("#"):
            _, _, file, old, *_ = line.split("\t")
            yield mutants, f"{ROOT}/{file}", old.replace("\\n", "\n")


def edits():
    """Each old text of a wrong body, and what is wrong with it."""
    for path, file, old in wrong_bodies():
        count = text_of(file).count(old)
        yield path, [] if count == 1 else [f"{os.path.relpath(file, ROOT)} has {count} times: {old.strip()[:80]}"]


def main():
    passed = failed = 0
    for path, faults in [*imports(), *proofs(), *edits()]:
        for fault in faults:
            print(f"stale: {os.path.relpath(path, ROOT)}: {fault}", flush=True)
        passed, failed = passed + (not faults), failed + len(faults)
    print(f"{passed} passed, {failed} failed")
    return failed != 0


sys.exit(main())
