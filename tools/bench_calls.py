#!/usr/bin/env python3
"""bench_calls.py ECHO: times scriptd and nodeagent. Calls a second over a Unix socket (connect, request,
reply) beside those of the plain server ECHO with the same frames, by one client and by several at a time; how
long nodes of 10, 50 and 110 pods take to settle, by how many workers; and with how many requests a full node
does, by either version of the messages. The programs are crates/NAME/out/NAME, or those in the folder BIN
names.
"""
import json
import os
import statistics
import subprocess
import sys
import tempfile
import time

ROOT = os.path.dirname(os.path.dirname(os.path.abspath(__file__)))
CALLS, ROUNDS = "5000", 7
CONTAINERS = 4
CLIENTS, WORKERS = (1, 2, 4, 8), (1, 2, 4, 8)
UNTIL = "10"


def program(name):
    folder = os.environ.get("BIN")
    return f"{folder}/{name}" if folder else f"{ROOT}/crates/{name}/out/{name}"


def served(words, path):
    ran = subprocess.Popen(words, stdout=subprocess.DEVNULL, stderr=subprocess.DEVNULL)
    while not os.path.exists(path):
        time.sleep(0.01)
    time.sleep(0.1)
    return ran


def rate(echo, path):
    return int(subprocess.run([echo, "call", path, CALLS], check=True, capture_output=True, text=True).stdout)


def rate_of(echo, path, clients):
    """Calls a second of so many clients at a time, each a process of its own."""
    how = {"stdout": subprocess.PIPE, "text": True}
    ran = [subprocess.Popen([echo, "call", path, CALLS], **how) for _ in range(clients)]
    return sum(int(it.communicate()[0]) for it in ran)


def calls(echo, folder):
    ours, plain = f"{folder}/ours", f"{folder}/plain"
    servers = [served([program("scriptd"), "--socket", ours], ours), served([echo, "serve", plain], plain)]
    rates = [(rate(echo, ours), rate(echo, plain)) for _ in range(ROUNDS)]
    print("| clients | scriptd | plain C |\n|---|---|---|")
    for clients in CLIENTS:
        found = [(rate_of(echo, ours, clients), rate_of(echo, plain, clients)) for _ in range(ROUNDS)]
        medians = [str(statistics.median(column)) for column in zip(*found)]
        print(f"| {clients} | {' | '.join(medians)} |", flush=True)
    for server in servers:
        server.kill()
        server.wait()
    ours, plain = (statistics.median(column) for column in zip(*rates))
    print(f"calls a second: scriptd {ours}, plain C {plain}, ratio {ours / plain:.2f}", flush=True)


def pods_of(folder, pods, containers, calls):
    """The manifests of so many pods, each of whose containers makes so many calls and ends."""
    with open(f"{folder}/some.s", "w", encoding="utf-8") as it:
        json.dump({"steps": [{"call": "getpid"}] * calls + [{"exit": 0}]}, it)
    names = []
    for at in range(pods):
        listed = [{"name": f"c{place}", "image": "some.s"} for place in range(containers)]
        spec = {"restartPolicy": "Never", "containers": listed}
        pod = {"apiVersion": "v1", "kind": "Pod", "metadata": {"name": f"p{at}"}, "spec": spec}
        names.append(f"{folder}/p{at}.json")
        with open(names[-1], "w", encoding="utf-8") as it:
            json.dump(pod, it)
    return names


def agent(folder, *words):
    return [program("nodeagent"), "--socket", f"{folder}/s", "--scripts", folder, "--with-runtime", *words]


def seconds(words):
    took = []
    for _ in range(3):
        start = time.monotonic()
        subprocess.run(words, check=True, stdout=subprocess.DEVNULL)
        took.append(time.monotonic() - start)
    return statistics.median(took)


def settle(folder, pods):
    took = seconds(agent(folder, "--settle", *pods_of(folder, pods, CONTAINERS, 1)))
    a_pod = took / pods * 1000
    print(f"{pods} pods of {CONTAINERS} containers settle in {took:.3f} s, {a_pod:.2f} ms a pod", flush=True)


def settle_by_workers(folder):
    manifests = pods_of(folder, 110, CONTAINERS, 1)
    print("| workers | 110 pods settle in |\n|---|---|")
    for workers in WORKERS:
        took = seconds(agent(folder, "--workers", str(workers), "--settle", *manifests))
        print(f"| {workers} | {took:.3f} s |", flush=True)


def requests(words):
    """How many requests were made: each is a line on standard error."""
    how = {"stdout": subprocess.DEVNULL, "stderr": subprocess.PIPE}
    return len(subprocess.run([*words, "--verbose"], check=False, **how).stderr.splitlines())


def versions(folder):
    """A full node by either version of the messages: settled with the clock counted, and looked after by the
    machine's."""
    for cri in ("1", "2"):
        words = agent(folder, "--cri", cri, "--settle", *pods_of(folder, 110, 16, 1))
        made, took = requests(words), seconds(words)
        print(f"110 pods of 16 containers settle by --cri {cri} with {made} requests, in {took:.3f} s",
              flush=True)
    for cri in ("1", "2"):
        words = agent(folder, "--cri", cri, "--until", UNTIL, *pods_of(folder, 110, 16, 4095))
        done = f"looked after for {UNTIL} s by --cri {cri} with {requests(words)} requests"
        print(f"110 pods of 16 containers are {done}", flush=True)


def main():
    with tempfile.TemporaryDirectory() as folder:
        calls(os.path.abspath(sys.argv[1]), folder)
        for pods in (10, 50, 110):
            settle(folder, pods)
        settle_by_workers(folder)
        versions(folder)


main()
