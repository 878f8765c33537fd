#!/usr/bin/env python3
"""fleet.py: three nodes that read an etcd of this machine, as docs/FLEET.md describes them. Hands out 60 pods, moves
ten of them to another node, kills each part once with SIGKILL, and checks each time that the folder of every node
has the files of its keys within ten seconds, that every pod runs where its key says, and that no status is older
than ten seconds. If bwrap is there, the parts of node a run under the filters that seccheck compiles from the
profiles of the units. The programs are crates/NAME/out/NAME, or those in the folder BIN. Where a package is
missing it says which, and ends with status 0. The units are checked if systemd-analyze is there.
"""
import base64
import json
import os
import shutil
import signal
import socket
import subprocess
import sys
import tempfile
import time

ROOT = os.path.dirname(os.path.dirname(os.path.abspath(__file__)))
FLEET = f"{ROOT}/examples/fleet"
NODES, PODS, MOVED = ("a", "b", "c"), 60, 10
UNITS = ("scriptd", "nodeagent", "motchidu-fleet")
LIMIT, PATIENCE = 10, 60  # seconds until the files are those of the keys, and until all pods run
FAILED = []


def program(name):
    folder = os.environ.get("BIN")
    return f"{folder}/{name}" if folder else f"{ROOT}/crates/{name}/out/{name}"


def free_port():
    with socket.socket() as it:
        it.bind(("127.0.0.1", 0))
        return it.getsockname()[1]


class Part:
    """A process that can be killed and started again, under a filter if there is one."""

    def __init__(self, words, out=None, code=None):
        self.words, self.out, self.code = words, out, code
        self.start()

    def start(self):
        words = self.words
        if self.code:
            script = 'exec bwrap --dev-bind / / --die-with-parent --seccomp 3 "$@" 3< "$0"'
            words = ["sh", "-c", script, self.code, *words]
        out = open(self.out, "wb") if self.out else subprocess.DEVNULL
        self.ran = subprocess.Popen(words, stdout=out, stderr=subprocess.DEVNULL, start_new_session=True)

    def kill(self):
        os.killpg(self.ran.pid, signal.SIGKILL)
        self.ran.wait()


def filters(room):
    """The filters that seccheck compiles from the profiles of the units, if bwrap can install them."""
    if not shutil.which("bwrap"):
        print("fleet: without Debian's package bubblewrap no part runs under a filter", flush=True)
        return {}
    found = {}
    for name in UNITS:
        found[name] = f"{room}/{name}.bpf"
        words = [program("seccheck"), "compile", f"{FLEET}/{name}.json", found[name]]
        ran = subprocess.run(words, capture_output=True, text=True)
        FAILED.extend([] if ran.returncode == 0 and not ran.stderr else [f"{name}.json: {ran.stdout}{ran.stderr}"])
    return found


class Fleet:
    def __init__(self, room):
        self.room, ports = room, (free_port(), free_port())
        urls = [f"http://127.0.0.1:{port}" for port in ports]
        os.environ |= {"ETCDCTL_ENDPOINTS": urls[0], "ETCDCTL_API": "3"}
        self.parts = {"etcd": Part(["etcd", "--data-dir", f"{room}/etcd", "--listen-client-urls", urls[0],
                                    "--advertise-client-urls", urls[0], "--listen-peer-urls", urls[1],
                                    "--initial-advertise-peer-urls", urls[1],
                                    "--initial-cluster", f"default={urls[1]}"])}
        with open(f"{room}/some.s", "w", encoding="utf-8") as it:
            it.write('{"steps": [{"call": "getpid"}, {"call": "ptrace"}, {"exit": 0}]}')
        confined = filters(room)
        for node in NODES:
            os.makedirs(f"{room}/{node}/pods")
            path, records = f"{room}/{node}/s", f"{room}/{node}/records"
            code = confined if node == NODES[0] else {}
            self.parts[f"scriptd {node}"] = Part(
                [program("scriptd"), "--socket", path, "--scripts", room, "--records", records],
                None, code.get("scriptd"))
            self.parts[f"nodeagent {node}"] = Part(
                [program("nodeagent"), "--socket", path, "--pods", f"{room}/{node}/pods", "--watch", "--json",
                 "--state", f"{room}/{node}/uids"], f"{room}/{node}/changes", code.get("nodeagent"))
            self.parts[f"motchidu-fleet {node}"] = Part(
                [f"{FLEET}/motchidu-fleet", node, f"{room}/{node}/pods", f"{room}/{node}/changes", records],
                None, code.get("motchidu-fleet"))

    def end(self):
        for part in self.parts.values():
            part.kill()

    def keys(self, node):
        """The node's manifests and the statuses of its pods, by name; and the statuses that never expire."""
        ran = subprocess.run(["etcdctl", "get", "--prefix", f"/nodes/{node}/pods/", "-w", "json"],
                             capture_output=True, check=True)
        manifests, statuses, stale = set(), {}, []
        for it in json.loads(ran.stdout).get("kvs", []):
            rest = base64.b64decode(it["key"]).decode().split("/")[4:]
            if len(rest) == 1:
                manifests.add(rest[0])
            elif len(rest) == 2:
                statuses[rest[0].split(".")[1]] = json.loads(base64.b64decode(it["value"]))["phase"]
                stale += [] if it.get("lease") else [rest[0]]
        return manifests, statuses, stale

    def has_denied(self):
        """Whether the denied call of each pod is in etcd."""
        for node in NODES:
            ran = subprocess.run(["etcdctl", "get", "--prefix", f"/nodes/{node}/denied/", "-w", "json"],
                                 capture_output=True, check=True)
            found = [base64.b64decode(it["key"]).decode().split("/") for it in json.loads(ran.stdout).get("kvs", [])]
            calls = [json.loads(base64.b64decode(it["value"]))["calls"][0]["call"]
                     for it in json.loads(ran.stdout).get("kvs", [])]
            if {it[4].split(".")[1] for it in found} != self.keys(node)[0] or set(calls) != {"ptrace"}:
                return False
        return True

    def files(self, node):
        return {it[:-len(".json")] for it in os.listdir(f"{self.room}/{node}/pods") if it.endswith(".json")}

    def has_files(self):
        return all(self.files(node) == self.keys(node)[0] for node in NODES)

    def runs(self):
        for node in NODES:
            manifests, statuses, stale = self.keys(node)
            if stale or statuses != dict.fromkeys(manifests, "Running"):
                return False
        return True


def wait(what, holds, limit):
    start = time.monotonic()
    while time.monotonic() - start < limit:
        try:
            if holds():
                print(f"fleet: {what} after {time.monotonic() - start:.1f} s", flush=True)
                return
        except (subprocess.CalledProcessError, OSError):
            pass
        time.sleep(0.2)
    print(f"fleet: FAILED: {what}, not within {limit} s", flush=True)
    FAILED.append(what)


def settled(fleet, what, rest=0):
    """Waits for the files, and for the pods once every status from before has expired."""
    wait(f"{what}: the files are those of the keys", fleet.has_files, LIMIT)
    time.sleep(rest)
    wait(f"{what}: every pod runs where its key says", fleet.runs, PATIENCE)


def etcdctl(*words):
    subprocess.run(["etcdctl", *words], check=True, stdout=subprocess.DEVNULL)


def manifest(pod):
    confined = {"seccompProfile": {"type": "RuntimeDefault"}}
    spec = {"containers": [{"name": "main", "image": "some.s", "securityContext": confined}]}
    return json.dumps({"apiVersion": "v1", "kind": "Pod", "metadata": {"name": pod}, "spec": spec})


def check_units(room):
    """Each unit allows the calls of its profile, and systemd accepts it."""
    units = []
    for name in UNITS:
        with open(f"{FLEET}/{name}.json", encoding="utf-8") as it:
            allowed = json.load(it)["syscalls"][0]["names"]
        with open(f"{FLEET}/{name}.service", encoding="utf-8") as it:
            text = it.read()
        line = next(it for it in text.replace("\\\n", "").splitlines() if it.startswith("SystemCallFilter="))
        if line.removeprefix("SystemCallFilter=").split() != allowed:
            FAILED.append(f"the calls of {name}.service are those of {name}.json")
        for each in ("scriptd", "nodeagent"):
            text = text.replace(f"/usr/local/bin/{each} ", f"{program(each)} ")
        units.append(f"{room}/{name}.service")
        with open(units[-1], "w", encoding="utf-8") as it:
            it.write(text.replace("/usr/local/bin/motchidu-fleet ", f"{FLEET}/motchidu-fleet "))
    if not shutil.which("systemd-analyze"):
        return
    ran = subprocess.run(["systemd-analyze", "verify", "--man=no", *units], capture_output=True, text=True)
    print(f"fleet: systemd-analyze {'accepts the units' if ran.returncode == 0 else ran.stderr}", flush=True)
    FAILED.extend([] if ran.returncode == 0 else ["the units"])


def main():
    for command, package in (("etcd", "etcd-server"), ("etcdctl", "etcd-client")):
        if not shutil.which(command):
            print(f"fleet: Debian's package {package} is missing: apt-get install {package}")
            return
    with tempfile.TemporaryDirectory() as room:
        check_units(room)
        fleet = Fleet(room)
        try:
            wait("etcd answers", lambda: fleet.keys("a") is not None, PATIENCE)
            for at in range(PODS):
                etcdctl("put", f"/nodes/{NODES[at % len(NODES)]}/pods/p{at}", manifest(f"p{at}"))
            settled(fleet, f"{PODS} pods")
            wait("the denied call of each pod is there", fleet.has_denied, PATIENCE)
            for at in range(0, len(NODES) * MOVED, len(NODES)):
                etcdctl("del", f"/nodes/a/pods/p{at}")
                etcdctl("put", f"/nodes/b/pods/p{at}", manifest(f"p{at}"))
            settled(fleet, f"{MOVED} pods moved")
            files = {node: fleet.files(node) for node in NODES}
            for name in ("etcd", "motchidu-fleet a", "nodeagent b", "scriptd c"):
                fleet.parts[name].kill()
                time.sleep(5)
                if {node: fleet.files(node) for node in NODES} != files:
                    FAILED.append(f"without {name} the files stay")
                fleet.parts[name].start()
                settled(fleet, f"{name} killed and started again", LIMIT + 1)
        finally:
            fleet.end()
    sys.exit(f"fleet: {len(FAILED)} FAILED" if FAILED else 0)


main()
