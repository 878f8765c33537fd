#!/usr/bin/env python3
"""bench_creations.py [--limits] [CREATIONS]: times scriptd while containers are created. How long a list of another sandbox
waits, alone and beside four clients that create containers with scripts of 4,000 steps; the processor time of a
creation with RuntimeDefault, with a profile of its own and without one; and the memory of 1,024 containers of one
such script, created and ended. The program is crates/scriptd/out/scriptd, or that in the folder BIN names. With
--limits it prints only what is above its limit, and times no lists.
"""
import json
import multiprocessing
import os
import socket
import struct
import subprocess
import sys
import tempfile
import time

ROOT = os.path.dirname(os.path.dirname(os.path.abspath(__file__)))
CLIENTS, STEPS, CONTAINERS = 4, 4000, 1024
SECONDS = 5.0
WORDS = [it for it in sys.argv[1:] if it != "--limits"]
CREATED = int(WORDS[0]) if WORDS else 1000
# The most that a creation takes of the processor, relative to one without a profile, and an ended container in KiB.
MOST_RATIO, MOST_ENDED = 2.0, 300
UNCONFINED, DEFAULT = {"type": "Unconfined"}, {"type": "RuntimeDefault"}
OWN = {"type": "Localhost", "path": "own.json"}


class Client:
    """A connection over which requests are made one after the other."""

    def __init__(self, path):
        self.stream = socket.socket(socket.AF_UNIX)
        self.stream.connect(path)

    def ask(self, **request):
        text = json.dumps({"id": 1, "v": 1, **request}, separators=(",", ":"), sort_keys=True).encode()
        self.stream.sendall(struct.pack(">I", len(text)) + text)
        (length,) = struct.unpack(">I", self.read(4))
        return json.loads(self.read(length))

    def read(self, length):
        found = b""
        while len(found) < length:
            piece = self.stream.recv(length - len(found))
            if not piece:
                sys.exit("bench_creations: the runtime closed the connection")
            found += piece
        return found

    def create(self, uid, number, image, profile):
        return self.ask(call="CreateContainer", uid=uid, name=f"c{number % 1000}", attempt=number // 1000,
                        image=image, profile=profile)


def program():
    folder = os.environ.get("BIN")
    return f"{folder}/scriptd" if folder else f"{ROOT}/crates/scriptd/out/scriptd"


def served(folder):
    ran = subprocess.Popen([program(), "--socket", f"{folder}/s", "--scripts", folder, "--profiles", folder],
                           stderr=subprocess.DEVNULL)
    while not os.path.exists(f"{folder}/s"):
        time.sleep(0.01)
    time.sleep(0.1)
    return ran


def waits(path):
    """How many milliseconds a list takes, of 100 the longest but one, and the longest of all."""
    client, took = Client(path), []
    end = time.monotonic() + SECONDS
    while time.monotonic() < end:
        start = time.monotonic()
        client.ask(call="ListContainers", uid="quiet")
        took.append((time.monotonic() - start) * 1000)
        time.sleep(0.001)
    took.sort()
    return took[len(took) * 99 // 100], took[-1]


def creates(path, uid, ends):
    """Creates containers, and removes each sandbox before it is full."""
    client, sandbox = Client(path), 0
    while not ends.is_set():
        name = f"{uid}-{sandbox}"
        client.ask(call="RunPodSandbox", uid=name)
        for number in range(16):
            client.create(name, number, "long.s", UNCONFINED)
        client.ask(call="RemovePodSandbox", uid=name)
        sandbox += 1


def lists_beside_creations(folder):
    path, ran = f"{folder}/s", served(folder)
    Client(path).ask(call="RunPodSandbox", uid="quiet")
    alone, longest = waits(path)
    print(f"a list takes {alone:.2f} ms alone, {longest:.2f} ms at most", flush=True)
    # In processes of their own, or they would take turns with the client that is timed.
    ends = multiprocessing.Event()
    others = [multiprocessing.Process(target=creates, args=(path, f"u{at}", ends)) for at in range(CLIENTS)]
    for other in others:
        other.start()
    beside, longest = waits(path)
    ends.set()
    for other in others:
        other.join()
    ran.kill()
    ran.wait()
    print(f"beside {CLIENTS} clients that create containers {beside:.2f} ms, {longest:.2f} ms at most, "
          f"ratio {beside / alone:.1f}", flush=True)


def processor_seconds(pid):
    with open(f"/proc/{pid}/stat", encoding="ascii") as it:
        words = it.read().rpartition(")")[2].split()
    return (int(words[11]) + int(words[12])) / os.sysconf("SC_CLK_TCK")


def cost(folder, profile):
    """The microseconds of processor time of a creation."""
    ran = served(folder)
    client = Client(f"{folder}/s")
    start = processor_seconds(ran.pid)
    for number in range(CREATED):
        uid = f"u{number // 16}"
        if number % 16 == 0:
            client.ask(call="RunPodSandbox", uid=uid)
        client.create(uid, number, "short.s", profile)
    took = processor_seconds(ran.pid) - start
    ran.kill()
    ran.wait()
    os.remove(f"{folder}/s")
    return took / CREATED * 1e6


def memory_kib(pid):
    """The memory of a process that no other one has too."""
    with open(f"/proc/{pid}/smaps_rollup", encoding="ascii") as it:
        words = [line.split() for line in it]
    return sum(int(line[1]) for line in words if line[0] in ("Private_Clean:", "Private_Dirty:"))


def memory(folder, images):
    """The KiB of each of 1,024 containers, created and ended, with these images in turn."""
    ran = served(folder)
    client = Client(f"{folder}/s")
    client.ask(call="RunPodSandbox", uid="u")
    begin = memory_kib(ran.pid)
    for number in range(CONTAINERS):
        client.create("u", number, images[number % len(images)], UNCONFINED)
    created = memory_kib(ran.pid)
    for number in range(CONTAINERS):
        client.ask(call="StartContainer", uid="u", name=f"c{number % 1000}", attempt=number // 1000)
    while client.ask(call="ListContainers", uid="u")["ok"]["containers"][-1]["state"] != "EXITED":
        time.sleep(0.1)
    ended = memory_kib(ran.pid)
    ran.kill()
    ran.wait()
    os.remove(f"{folder}/s")
    return (created - begin) / CONTAINERS, (ended - begin) / CONTAINERS


def main():
    with tempfile.TemporaryDirectory() as folder:
        for name, steps in (("long.s", STEPS), ("short.s", 1)):
            with open(f"{folder}/{name}", "w", encoding="utf-8") as it:
                json.dump({"steps": [{"call": "getpid"}] * (steps - 1) + [{"exit": 0}]}, it)
        with open(f"{folder}/own.json", "w", encoding="utf-8") as it:
            json.dump({"defaultAction": "SCMP_ACT_ERRNO", "syscalls": [
                {"names": ["getpid", "read", "write", "exit_group"], "action": "SCMP_ACT_ALLOW"}]}, it)
        plain, confined, own = (cost(folder, it) for it in (UNCONFINED, DEFAULT, OWN))
        if "--limits" in sys.argv:
            _, ended = memory(folder, ["long.s"])
            for what, found, most in (("RuntimeDefault", confined / plain, MOST_RATIO),
                                      ("a profile of its own", own / plain, MOST_RATIO),
                                      ("KiB of an ended container", ended, MOST_ENDED)):
                if found > most:
                    print(f"{what}: {found:.1f}, at most {most}")
            return
        print(f"a creation takes {plain:.0f} us of processor time, with RuntimeDefault {confined:.0f} us, "
              f"ratio {confined / plain:.1f}, with a profile of its own {own:.0f} us, ratio {own / plain:.1f}",
              flush=True)
        created, ended = memory(folder, ["long.s"])
        print(f"a container of {STEPS} steps takes {created:.0f} KiB created and {ended:.0f} KiB ended, "
              f"{CONTAINERS} of them {ended * CONTAINERS / 1024:.0f} MiB", flush=True)
        lists_beside_creations(folder)


main()
