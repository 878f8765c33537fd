#!/usr/bin/env python3
"""bench_full.py [CALLS [REMOVALS]]: times a full sandbox of scriptd, whose containers have made so many calls
each: the statuses of its 1,024 containers, its removal, and meanwhile the status of a container of another
sandbox, beside clients that ask for nothing but the statuses of the full one. The program is
crates/scriptd/out/scriptd, or that in the folder BIN names.
"""
import json
import os
import socket
import statistics
import subprocess
import sys
import tempfile
import threading
import time

ROOT = os.path.dirname(os.path.dirname(os.path.abspath(__file__)))
CELLS, CLIENTS, ROUNDS, SECONDS = 1024, 64, 200, 15
CALLS, REMOVALS = [int(it) for it in sys.argv[1:]] + [1000, 5][len(sys.argv) - 1:]


class Client:
    """A connection that asks by version 2 of the messages, and waits for each answer."""

    def __init__(self, path):
        self.wire = socket.socket(socket.AF_UNIX)
        self.wire.connect(path)

    def take(self, size):
        taken = bytearray()
        while len(taken) < size:
            piece = self.wire.recv(size - len(taken))
            if not piece:
                raise EOFError
            taken += piece
        return taken

    def send(self, call, fields):
        text = json.dumps({"v": 2, "id": 1, "call": call, **fields}).encode()
        self.wire.sendall(b"\x02" + len(text).to_bytes(3, "big") + text)

    def ask(self, call, **fields):
        self.send(call, fields)
        return self.take(int.from_bytes(self.take(4)[1:], "big"))

    def done(self, call, **fields):
        answer = json.loads(self.ask(call, **fields))
        if "ok" not in answer:
            raise SystemExit(f"bench_full: {call} of {fields} answers {answer}")
        return answer["ok"]


def served(path, folder):
    program = f"{os.environ['BIN']}/scriptd" if "BIN" in os.environ else f"{ROOT}/crates/scriptd/out/scriptd"
    quiet = {"stdout": subprocess.DEVNULL, "stderr": subprocess.DEVNULL}
    ran = subprocess.Popen([program, "--socket", path, "--scripts", folder], **quiet)
    while not os.path.exists(path):
        time.sleep(0.01)
    time.sleep(0.1)
    return ran


def fill(client, uid, cells):
    """A sandbox of so many containers, all of which have ended."""
    client.done("RunPodSandbox", uid=uid)
    for at in range(cells):
        key = {"uid": uid, "name": f"c{at}", "attempt": 0}
        client.done("CreateContainer", **key, image="some.s", profile={"type": "Unconfined"})
        client.done("StartContainer", **key)
    while any(it["state"] != "EXITED" for it in client.done("ContainerStatuses", uid=uid)["statuses"]):
        time.sleep(0.1)


def milliseconds(work, rounds):
    """The time of each of these rounds, or of those that begin within SECONDS."""
    took, begun = [], time.monotonic()
    while len(took) < rounds and time.monotonic() < begun + SECONDS:
        start = time.monotonic()
        work()
        took.append(1000 * (time.monotonic() - start))
    return took


def told(what, took):
    print(f"{what}: {statistics.median(took):.2f} ms, at most {max(took):.2f} ms", flush=True)


def asked_for(path, uid, ended):
    client = Client(path)
    while not ended.is_set():
        client.ask("ContainerStatuses", uid=uid)


def crowded(path, work):
    """The times of the work, beside clients that ask for the statuses of the full sandbox."""
    ended = threading.Event()
    clients = [threading.Thread(target=asked_for, args=(path, "full", ended)) for _ in range(CLIENTS)]
    for it in clients:
        it.start()
    time.sleep(1)
    took = milliseconds(work, ROUNDS)
    ended.set()
    for it in clients:
        it.join()
    return took


def removed(path, client, uid, other):
    """The time of a removal, and the longest wait for a status of another sandbox beside it."""
    asker, ended, waited = Client(path), threading.Event(), []

    def watch():
        while not ended.is_set():
            waited.extend(milliseconds(lambda: asker.ask("ContainerStatus", **other), 1))

    watcher = threading.Thread(target=watch)
    watcher.start()
    time.sleep(0.2)
    took = milliseconds(lambda: client.done("RemovePodSandbox", uid=uid), 1)
    time.sleep(0.2)
    ended.set()
    watcher.join()
    return took[0], max(waited)


def main():
    with tempfile.TemporaryDirectory() as folder:
        with open(f"{folder}/some.s", "w", encoding="utf-8") as it:
            json.dump({"steps": [{"call": "getpid"}] * CALLS + [{"exit": 0}]}, it)
        path = f"{folder}/socket"
        server = served(path, folder)
        try:
            client = Client(path)
            fill(client, "other", 1)
            fill(client, "full", CELLS)
            other = {"uid": "other", "name": "c0", "attempt": 0}

            def status():
                client.ask("ContainerStatus", **other)

            def statuses():
                client.ask("ContainerStatuses", uid="full")

            told(f"the statuses of {CELLS} containers", milliseconds(statuses, ROUNDS))
            told("a status of another sandbox, alone", milliseconds(status, ROUNDS))
            told(f"beside {CLIENTS} clients that ask for the {CELLS}", crowded(path, status))
            removals = [removed(path, client, "full", other)]
            for at in range(1, REMOVALS):
                fill(client, f"full{at}", CELLS)
                removals.append(removed(path, client, f"full{at}", other))
            told(f"a removal of {CELLS} containers", [took for took, _ in removals])
            told("the longest wait for a status beside it", [wait for _, wait in removals])
        finally:
            server.kill()
            server.wait()


main()
