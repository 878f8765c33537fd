#!/usr/bin/env python3
"""gate_times.py FILE COMMAND..: runs the command, prints which crate of how many is under way, and writes to
FILE the processor seconds that the prover spent below it, crate by crate: on the crate, on its tests, and on
its must-fail edits. gate_times.py FILE: prints that table. A process is seen once a second, so its last
second is lost.
"""
import os
import subprocess
import sys
import time

sys.dont_write_bytecode = True
from side_by_side import ROOT, crates_of, has_tests

PARTS = ("proofs", "tests", "edits")
TICKS = os.sysconf("SC_CLK_TCK")


def children_of(root):
    """The processes below one, with their words."""
    parents, words = {}, {}
    for pid in filter(str.isdigit, os.listdir("/proc")):
        try:
            with open(f"/proc/{pid}/stat", encoding="utf-8", errors="replace") as it:
                parents[int(pid)] = int(it.read().rpartition(")")[2].split()[1])
            with open(f"/proc/{pid}/cmdline", "rb") as it:
                words[int(pid)] = it.read().decode(errors="replace").split("\0")
        except OSError:
            pass
    below, new = set(), {root}
    while new:
        below |= new
        new = {pid for pid, parent in parents.items() if parent in below} - below
    return {pid: words[pid] for pid in below if pid in words}


def seconds_of(pid):
    """What a process and its ended children spent so far."""
    try:
        with open(f"/proc/{pid}/stat", encoding="utf-8", errors="replace") as it:
            return sum(map(int, it.read().rpartition(")")[2].split()[11:13])) / TICKS
    except OSError:
        return 0


def part_of(words):
    """The crate and the part that the words of a process name, if it is the prover's."""
    if not words or os.path.basename(words[0]) != "rattle" or "--crate-name" not in words:
        return None
    crate = words[words.index("--crate-name") + 1]
    if any("rt-edits-" in word or "rt-edit" in word for word in words):
        return crate, "edits"
    return crate, "tests" if "--test" in words or crate.endswith("_tests") else "proofs"


def totals(crates):
    """How many crates there are, with tests, and with must-fail edits."""
    edits = {name: f"{ROOT}/crates/{name}/must-fail" for name in crates}
    with_edits = [name for name, folder in edits.items() if os.path.isdir(folder) and os.listdir(folder)]
    return {"proofs": len(crates), "tests": len([*filter(has_tests, crates)]), "edits": len(with_edits)}


def watch(command, crates):
    """Runs the command, and answers its status and the seconds of each part of each crate."""
    started, spent, all_of = subprocess.Popen(command), {}, totals(crates)
    began = {part: [] for part in PARTS}
    while started.poll() is None:
        for pid, words in children_of(started.pid).items():
            part = part_of(words)
            if part:
                spent[pid, part] = max(spent.get((pid, part), 0), seconds_of(pid))
                what = part[1]
                name = part[0] if part[0] in crates else part[0].removesuffix("_tests")
                if name not in began[what]:
                    began[what].append(name)
                    place = f"{len(began[what])} of {all_of[what]} crates"
                    print(f"under way: {what} of {name}, {place}", flush=True)
        time.sleep(1)
    table = {}
    for (_, (crate, part)), seconds in spent.items():
        row = table.setdefault(crate, dict.fromkeys(PARTS, 0))
        row[part] += seconds
    return started.returncode, table


def lines_of(table, order):
    """The table as text, in the order of the crates."""
    yield f"{'crate':14}" + "".join(f"{part:>9}" for part in PARTS) + f"{'all':>9}"
    total = dict.fromkeys(PARTS, 0)
    for crate in sorted(table, key=lambda name: order.index(name) if name in order else len(order)):
        row = table[crate]
        yield f"{crate:14}" + "".join(f"{row[part]:9.0f}" for part in PARTS) + f"{sum(row.values()):9.0f}"
        for part in PARTS:
            total[part] += row[part]
    yield f"{'all':14}" + "".join(f"{total[part]:9.0f}" for part in PARTS) + f"{sum(total.values()):9.0f}"
    yield f"processor minutes: {sum(total.values()) / 60:.0f}"


def main():
    file, command = sys.argv[1], sys.argv[2:]
    if command:
        order = [*crates_of()]
        status, table = watch(command, order)
        os.makedirs(os.path.dirname(file), exist_ok=True)
        with open(file, "w", encoding="utf-8") as it:
            it.write("\n".join(lines_of(table, order)) + "\n")
        sys.exit(status if status >= 0 else 1)
    try:
        with open(file, encoding="utf-8") as it:
            print(it.read(), end="")
    except FileNotFoundError:
        sys.exit("no gate has run here yet: make test")


main()
