#!/usr/bin/env python3
"""real.py: runs the scripts of examples/real/, each of which runs a real program under a filter or a profile,
and the commands of docs/REAL.md. seccheck is crates/seccheck/out/seccheck, or that in the folder BIN; the
library for C is that of out/c, or the one that pkg-config knows. What this machine can't run is left out, and
the last lines say why. Status 0 if all that could run passed.
"""
import os
import re
import shlex
import signal
import subprocess
import sys
import tempfile

ROOT = os.path.dirname(os.path.dirname(os.path.abspath(__file__)))
REAL = f"{ROOT}/examples/real"
BIN = os.path.abspath(os.environ.get("BIN") or f"{ROOT}/crates/seccheck/out")
LEFT_OUT, SECONDS = 77, 120  # the status of a script that can't run here, and the limit of each


def environment():
    new = {**os.environ, "PATH": f"{BIN}:{os.environ['PATH']}"}
    if os.path.exists(f"{ROOT}/out/c/motchidu.pc"):
        for name in ("PKG_CONFIG_PATH", "LD_LIBRARY_PATH"):
            new[name] = ":".join(filter(None, (f"{ROOT}/out/c", new.get(name))))
    return new


def status_of(words, **more):
    how = {"stdin": subprocess.DEVNULL, "stdout": subprocess.PIPE, "stderr": subprocess.STDOUT, "text": True}
    ran = subprocess.Popen(words, cwd=ROOT, env=environment() | more, start_new_session=True, errors="replace", **how)
    try:
        said, _ = ran.communicate(timeout=SECONDS)
    except subprocess.TimeoutExpired:
        os.killpg(ran.pid, signal.SIGKILL)  # the script and what it started
        said, _ = ran.communicate()
        said += f"{os.path.basename(words[0])}: FAILED: more than {SECONDS} s\n"
    return ran.returncode, said


def page():
    """docs/REAL.md as a script that ends at the first command which fails or prints another text than is shown."""
    with open(f"{ROOT}/docs/REAL.md", encoding="utf-8") as it:
        blocks = re.findall(r"^```(sh|console)\n(.*?)^```$", it.read(), re.M | re.S)
    lines = []
    for kind, block in blocks:
        if kind == "sh":
            lines += [line for line in block.splitlines() if not line.startswith("apt-get ")]
            continue
        parts = re.split(r"^\$ (.*)\n", block, flags=re.M)
        lines += [f'[ "$({command} 2>&1)" = {shlex.quote(below.rstrip())} ]'
                  for command, below in zip(parts[1::2], parts[2::2])]
    return "\n".join(lines)


def follows_page():
    with tempfile.TemporaryDirectory() as room:
        status, said = status_of(["sh", "-exc", page()], TMPDIR=room, LC_ALL="C")
    if status:
        print("".join(f"    {line}\n" for line in said.splitlines()[-5:]), end="")
    return status == 0


def main():
    if not os.access(f"{BIN}/seccheck", os.X_OK):
        sys.exit(f"real: there is no {BIN}/seccheck: make try, and then make real BIN=PREFIX/bin")
    passed, failed, left_out = 0, [], []
    scripts = sorted(it for it in os.listdir(REAL) if it.endswith(".sh") and it != "common.sh")
    for script in scripts:
        status, said = status_of([f"{REAL}/{script}"])
        if status == LEFT_OUT:
            left_out.append(said)
            continue
        print(said, end="", flush=True)
        passed += status == 0
        failed += [script] if status else []
    others = []
    if any(it.startswith("bubblewrap: ") for it in left_out):
        left_out.append("docs/REAL.md: left out: it needs what bubblewrap.sh needs\n")
    else:
        others.append(("docs/REAL.md: each command prints what is shown", follows_page))
    for what, holds in others:
        if holds():
            print(what, flush=True)
            passed += 1
        else:
            failed.append(what.partition(":")[0])
    print("".join(left_out), end="")
    print(f"real: {passed} passed, {len(failed)} failed, {len(left_out)} left out")
    sys.exit(f"real: FAILED: {', '.join(failed)}" if failed else 0)


main()
