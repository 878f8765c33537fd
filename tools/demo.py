#!/usr/bin/env python3
"""make demo: programs compiled with checks at run time in place of proofs. A small one prints a first
verdict. Then come the commands of a user and their answers: seccheck over a profile, filters and scripts, and
nodeagent, which settles two pods over a socket and looks after a folder of pods.
"""
import os
import shutil
import subprocess
import sys
import tempfile
import time
from concurrent.futures import ThreadPoolExecutor

sys.dont_write_bytecode = True
from side_by_side import ROOT, timed
from tried import built

PATIENCE = 120  # seconds for each line that is waited for

SECCHECK = (
    ("A profile is compiled to a filter:", "seccheck compile no_ptrace.json compiled.bpf"),
    ("A filter is checked:", "seccheck verify no_ptrace.bpf"),
    ("Its instructions:", "seccheck show no_ptrace.bpf"),
    ("A verified filter judges a call:", "seccheck run x86_64_only.bpf getpid"),
    ("The entry of a profile that decides a call:", "seccheck explain no_ptrace.json ptrace"),
    ("A container's script is played under a filter:", "seccheck play tries_ptrace.json no_ptrace.bpf"),
    ("A script adds a filter of its own, which denies its next call:", "seccheck play adds_a_filter.json"),
    ("The profile of each container of a pod:", "seccheck pick two_profiles.json"),
)


def said(text):
    print(f"demo: {text}", flush=True)


def shown(command, room, env):
    """Runs a command as a user would type it, and shows what it prints."""
    print(f"$ {command}", flush=True)
    if subprocess.run(command, shell=True, cwd=room, env=env, check=False).returncode:
        raise SystemExit("demo: the command failed")


def shown_until(agent, told, wanted):
    """Prints what the agent prints, until it prints this of a pod."""
    late = time.monotonic() + PATIENCE
    while time.monotonic() < late:
        line = told.readline()
        if line:
            print(line, end="", flush=True)
            if line.rstrip("\n").endswith(wanted):
                return
        elif agent.poll() is not None:
            break
        else:
            time.sleep(0.05)
    raise SystemExit(f"demo: nodeagent did not print: {wanted}")


def looked_after(room, env):
    os.mkdir(f"{room}/pods")
    command = "nodeagent --socket node.sock --with-runtime --watch --pods pods --run demo"
    print(f"$ {command} &", flush=True)
    with open(f"{room}/told", "w", encoding="utf-8") as out, open(f"{room}/told", encoding="utf-8") as told:
        agent = subprocess.Popen(command.split(), cwd=room, env=env, stdout=out)
        try:
            print("$ cp confined_pod.json pods/web.json", flush=True)
            shutil.copy(f"{room}/confined_pod.json", f"{room}/pods/web.json")
            shown_until(agent, told, "default.confined.demo Failed")
            print("$ rm pods/web.json", flush=True)
            os.unlink(f"{room}/pods/web.json")
            shown_until(agent, told, "default.confined.demo Deleted")
        finally:
            agent.terminate()
            agent.wait()


def main():
    begun = time.monotonic()
    said("programs are compiled with checks in place of proofs; make test proves what they run")
    with tempfile.TemporaryDirectory(prefix="motchidu-demo-") as folder, ThreadPoolExecutor() as pool:
        env = {**os.environ, "PATH": f"{folder}/bin:{os.environ['PATH']}"}
        room = shutil.copytree(f"{ROOT}/examples", f"{folder}/examples")

        def wait_for(name, building):
            text, is_there = building.result()
            if not is_there:
                raise SystemExit(f"{text}demo: {name} could not be compiled")

        def start(name):
            return pool.submit(built, name, f"{folder}/{name}")

        # The small program has all processors, so that its verdicts come soon.
        programs = {"first_verdict": start("first_verdict")}
        programs["first_verdict"].result()
        programs.update((name, start(name)) for name in ("seccheck", "nodeagent"))
        os.makedirs(f"{folder}/bin")
        for name, building in programs.items():
            wait_for(name, building)
            os.rename(f"{folder}/{name}/bin/{name}", f"{folder}/bin/{name}")
            if name == "first_verdict":
                said(f"after {timed(begun)}, a small program compiles a profile, and has its first verdicts:")
                shown("first_verdict no_ptrace.json getpid ptrace", room, env)
                said("seccheck and nodeagent are compiled, a minute and a half more")
            elif name == "seccheck":
                for title, command in SECCHECK:
                    said(title)
                    shown(command, room, env)
            else:
                said("Two pods over a socket. A container asks for ptrace under RuntimeDefault, and one under "
                     "a profile that allows it:")
                shown("nodeagent --socket node.sock --with-runtime --settle confined_pod.json "
                      "tracing_pod.json", room, env)
                said("A folder of pods. A manifest is put into it, and removed:")
                looked_after(room, env)
    said(f"the end, after {timed(begun)}")


main()
