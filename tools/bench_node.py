#!/usr/bin/env python3
"""bench_node.py [SECONDS [COUNTED [PODS]]]: an agent that stays. A runtime and an agent in processes of their
own have a node of 110 pods, or of PODS, with 4 containers each that fail and are made again for ever, by the
machine's clock for so many seconds (80), and then by a virtual clock to such a moment (14,400); 0 leaves a
clock out. Pods begin one after the other, so that calls are spread. For each tenth of the time it prints how
many calls there are, the entries of the history up to then, the memory of both processes, and what a
call takes of the processor; then what the agent held once all pods had begun and at the end, and the calls of
the first tenth beside those of the last. By the machine's clock the pods lie in a folder, and the agent's
share has a look at it each second in it. The programs are crates/NAME/out/NAME, or those in the folder BIN
names.
"""
import json
import os
import re
import subprocess
import sys
import tempfile
import threading
import time
from collections import namedtuple

ROOT = os.path.dirname(os.path.dirname(os.path.abspath(__file__)))
CONTAINERS, PART, TENTHS = 4, 1024, 10
SECONDS, COUNTED, PODS = [int(it) for it in sys.argv[1:]] + [80, 14_400, 110][len(sys.argv) - 1:]
PUT = min(300, SECONDS / 2)  # by when all pods are put there: the longest back-off, or half of the time
DELAYS, PUT_OFF = 6, 310  # in how many ways a start is put off by the virtual clock, and by how much at most
FEW = 200  # calls of whose share of the processor little can be said
PAUSE = 0.1  # seconds between two looks

Look = namedtuple("Look", "moment calls entries agent runtime agent_took runtime_took")


def program(name):
    folder = os.environ.get("BIN")
    path = os.path.abspath(f"{folder}/{name}" if folder else f"{ROOT}/crates/{name}/out/{name}")
    if not os.access(path, os.X_OK):
        raise SystemExit(f"bench_node: there is no {path}")
    return path


def write(path, value):
    """Puts a file there as a whole: the agent may read the folder meanwhile."""
    with open(f"{path}.new", "w", encoding="utf-8") as it:
        json.dump(value, it)
    os.rename(f"{path}.new", path)


def scripts(folder):
    """A script that fails each time, and scripts that fail up to this number of times."""
    calls = [{"call": "getpid"}, {"call": "write"}]
    write(f"{folder}/fails.s", {"steps": [*calls, {"exit": 1}]})
    for times in range(DELAYS):
        write(f"{folder}/fails{times}.s", {"steps": [*calls, {"exitByAttempt": [1] * times + [0]}]})


def pod(at, is_put_off):
    """A pod whose containers fail each time, and so are made again after a back-off; if it is to be put off,
    they begin after an init container that fails some times."""
    listed = [{"name": f"c{place}", "image": "fails.s"} for place in range(CONTAINERS)]
    spec = {"securityContext": {"seccompProfile": {"type": "RuntimeDefault"}}, "containers": listed}
    if is_put_off:
        spec["initContainers"] = [{"name": "first", "image": f"fails{at % DELAYS}.s"}]
    return {"apiVersion": "v1", "kind": "Pod", "metadata": {"name": f"p{at}"}, "spec": spec}


def memory_of(pid):
    """The memory of a process now, in KiB; 0 if it has ended."""
    with open(f"/proc/{pid}/status", encoding="utf-8") as it:
        held = re.search(r"^VmRSS:\s+(\d+)", it.read(), re.M)
    return int(held[1]) if held else 0


def took_of(pid):
    """How many seconds of processors a process took."""
    with open(f"/proc/{pid}/stat", encoding="utf-8") as it:
        fields = it.read().rpartition(")")[2].split()
    return (int(fields[11]) + int(fields[12])) / os.sysconf("SC_CLK_TCK")


class Node:
    """A runtime, and an agent whose lines are counted."""

    def __init__(self, folder, words):
        quiet = {"cwd": folder, "stdout": subprocess.DEVNULL}
        served = [program("scriptd"), "--socket", "s"]
        line = [program("nodeagent"), "--socket", "s", "--verbose", "--history", str(PART), *words]
        self.runtime = subprocess.Popen(served, stderr=subprocess.DEVNULL, **quiet)
        while not os.path.exists(f"{folder}/s") and self.runtime.poll() is None:
            time.sleep(0.01)
        self.agent = subprocess.Popen(line, stderr=subprocess.PIPE, text=True, errors="replace", **quiet)
        self.calls, self.moments, self.moment, self.said = 0, 0, 0, ""
        self.reader = threading.Thread(target=self.read)
        self.reader.start()

    def read(self):
        """Counts calls, and the moments at which they begin."""
        for line in self.agent.stderr:
            told = re.match(r"moment (\d+) s |(\d+) lines left out", line)
            if not told:
                self.said = line
            elif told[1] is None:
                self.calls += int(told[2])
            else:
                self.calls += 1
                if int(told[1]) > self.moment:
                    self.moments, self.moment = self.moments + 1, int(told[1])

    def look(self, moment=None):
        """What is seen now. A call has two entries, and a step of the clock has one."""
        pids = self.agent.pid, self.runtime.pid
        moment, entries = self.moment if moment is None else moment, 2 * self.calls + self.moments
        return Look(moment, self.calls, entries, *map(memory_of, pids), *map(took_of, pids))

    def end(self):
        """Ends both, where the agent has not ended by itself."""
        if self.agent.poll() is None:
            self.agent.kill()
        status = self.agent.wait()
        self.reader.join()
        self.runtime.kill()
        self.runtime.wait()
        if status not in (0, 5):
            print(f"bench_node: the agent ended with {status}: {self.said.strip()}", flush=True)


def watched(node, step):
    """Looks at a node until its agent ends, after each step of the caller's, which returns the moment."""
    looks = [node.look(0)]
    try:
        while node.agent.poll() is None:
            seen = node.look(step())
            if seen.agent and seen.runtime:
                looks.append(seen)
            time.sleep(PAUSE)
    finally:
        node.end()
    return looks


def by_the_clock(folder):
    """Looks at a node whose pods come one after the other."""
    os.mkdir(f"{folder}/pods")
    node = Node(folder, ["--pods", "pods", "--until", str(SECONDS)])
    begun, put = time.monotonic(), 0

    def step():
        nonlocal put
        moment = time.monotonic() - begun
        while put < PODS and put * PUT / PODS <= moment:
            write(f"{folder}/pods/p{put}.json", pod(put, False))
            put += 1
        return moment

    return watched(node, step)


def counted(folder):
    """Looks at a node whose pods are all there at the start, and put off in turn."""
    names = [f"p{at}.json" for at in range(PODS)]
    for at, name in enumerate(names):
        write(f"{folder}/{name}", pod(at, True))
    node = Node(folder, ["--settle", "--until", str(COUNTED), *names])
    return watched(node, lambda: None)


class Share:
    """What came between two looks."""

    def __init__(self, before, after):
        self.before, self.after, self.calls = before, after, after.calls - before.calls

    def each(self, took):
        """What a call took, in microseconds."""
        if not self.calls:
            return "-"
        spent = getattr(self.after, took) - getattr(self.before, took)
        return f"{1e6 * spent / self.calls:.0f}"

    def line(self):
        it = self.after
        few = ", few calls" if self.calls < FEW else ""
        return (f"to {it.moment:.0f} s: {self.calls} calls, {it.entries} entries; agent {it.agent} KiB, "
                f"{self.each('agent_took')} us a call; scriptd {it.runtime} KiB, "
                f"{self.each('runtime_took')} us a call{few}")


def shares(looks, end):
    """The tenths of the time. A tenth ends with the first look after its last moment, if there is one."""
    ends, at = [looks[0]], 0
    for tenth in range(1, TENTHS):
        while at + 1 < len(looks) and looks[at].moment < end * tenth / TENTHS:
            at += 1
        ends.append(looks[at])
    ends.append(looks[-1])
    return [Share(before, after) for before, after in zip(ends, ends[1:])]


def tell(clock, looks, end, begun, took):
    """Prints what came in each tenth, what the agent grew by since all pods had begun, and the first tenth
    beside the last."""
    last = looks[-1]
    print(f"{PODS} pods of {CONTAINERS} containers for {end} s by {clock}, {took:.0f} s: {last.calls} calls, "
          f"{last.entries} entries", flush=True)
    found = shares(looks, end)
    for share in found:
        print(f"  {share.line()}")
    full = next((it for it in looks if it.moment >= begun), last)
    print(f"  agent once all pods had begun and at the end: {full.agent} and {last.agent} KiB "
          f"({100 * (last.agent - full.agent) / max(full.agent, 1):+.1f} %)")
    few = [name for name, share in (("first", found[0]), ("last", found[-1])) if share.calls < FEW]
    note = f" (the {' and the '.join(few)} of few calls)" if few else ""
    each = " and ".join(share.each("agent_took") for share in (found[0], found[-1]))
    print(f"  a call of the agent in the first tenth and in the last{note}: {each} us", flush=True)


def main():
    real = ("the machine's clock", by_the_clock, SECONDS, PUT)
    virtual = ("a virtual clock", counted, COUNTED, PUT_OFF)
    for clock, look_at, end, all_begun in (real, virtual):
        if end == 0:
            continue
        with tempfile.TemporaryDirectory(prefix="motchidu-bench-") as folder:
            scripts(folder)
            begun = time.monotonic()
            looks = look_at(folder)
            tell(clock, looks, end, all_begun, time.monotonic() - begun)


main()
