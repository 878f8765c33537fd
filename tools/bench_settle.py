#!/usr/bin/env python3
"""bench_settle.py [CONTAINERS [ROUNDS]]: a node that settles. A runtime and an agent in processes of their
own have 7 pods, and then 110, with so many containers each (16) that end at once; the agent ends once each
pod is over. Prints what the agent takes of the processor for a container of the few and of the many, the
least and the median of so many rounds in turn (5), and how many times the one median is the other. The
programs are crates/NAME/out/NAME, or those in the folder BIN names. OTHER names a folder with further
programs, which take turns with them.
"""
import json
import os
import statistics
import subprocess
import sys
import tempfile
import time

ROOT = os.path.dirname(os.path.dirname(os.path.abspath(__file__)))
CONTAINERS, ROUNDS = [int(it) for it in sys.argv[1:]] + [16, 5][len(sys.argv) - 1:]
COUNTS = FEW, MANY = 7, 110


def program(folder, name):
    path = os.path.abspath(f"{folder}/{name}" if folder else f"{ROOT}/crates/{name}/out/{name}")
    if not os.access(path, os.X_OK):
        raise SystemExit(f"bench_settle: there is no {path}")
    return path


def write(path, value):
    with open(path, "w", encoding="utf-8") as it:
        json.dump(value, it)


def manifests(folder, count):
    """So many pods, whose containers end at once."""
    write(f"{folder}/ends.s", {"steps": [{"call": "getpid"}, {"exit": 0}]})
    listed = [{"name": f"c{place}", "image": "ends.s"} for place in range(CONTAINERS)]
    spec = {"restartPolicy": "Never", "containers": listed}
    names = [f"p{at}" for at in range(count)]
    for name in names:
        pod = {"apiVersion": "v1", "kind": "Pod", "metadata": {"name": name}, "spec": spec}
        write(f"{folder}/{name}.json", pod)
    return [f"{name}.json" for name in names]


def settled(programs, folder, names):
    """How many seconds of the processor the agent took."""
    quiet = {"cwd": folder, "stdout": subprocess.DEVNULL, "stderr": subprocess.DEVNULL}
    runtime = subprocess.Popen([program(programs, "scriptd"), "--socket", "s"], **quiet)
    try:
        while not os.path.exists(f"{folder}/s") and runtime.poll() is None:
            time.sleep(0.01)
        line = [program(programs, "nodeagent"), "--socket", "s", "--settle", *names]
        agent = subprocess.Popen(line, **quiet)
        _, status, used = os.wait4(agent.pid, 0)
        agent.returncode = os.waitstatus_to_exitcode(status)
    finally:
        runtime.kill()
        runtime.wait()
    if agent.returncode:
        raise SystemExit(f"bench_settle: the agent ended with {agent.returncode}")
    return used.ru_utime + used.ru_stime


def taken(programs, count):
    """The microseconds that the agent takes for each container, with this number of pods."""
    with tempfile.TemporaryDirectory(prefix="motchidu-bench-") as folder:
        return 1e6 * settled(programs, folder, manifests(folder, count)) / (count * CONTAINERS)


def main():
    folders = [os.environ.get("BIN"), *filter(None, [os.environ.get("OTHER")])]
    found = {(folder, count): [] for folder in folders for count in COUNTS}
    for _ in range(ROUNDS):
        for folder, count in found:
            found[folder, count].append(taken(folder, count))
    print(f"a node that settles, {CONTAINERS} containers a pod: what the agent takes for a container, in "
          f"microseconds, the least and the median of {ROUNDS}")
    for folder in folders:
        told = "".join(f"{count} pods {min(found[folder, count]):.0f} and "
                       f"{statistics.median(found[folder, count]):.0f}, " for count in COUNTS)
        few, many = (statistics.median(found[folder, count]) for count in COUNTS)
        print(f"  {f'{folder}: ' if folder else ''}{told}{many / few:.2f} times", flush=True)


main()
