#!/usr/bin/env python3
"""Puts the seccomp profiles that container engines ship into a folder, as JSON, and names their files. Beside
each is a file of its rules, as the benchmarks give them to other compilers.

They come from Debian's packages golang-github-containers-common (podman's), golang-github-docker-docker-dev
(Docker's) and golang-github-containerd-containerd-dev (containerd's), whose files lie below the root that is
given as the second argument, or /. An engine whose package is not there is skipped with a line on standard
error. containerd's profile is written in Go: what is taken of it is what a container without capabilities
gets on x86-64, on a kernel of version 4.8 or later.
"""
import json
import re
import shutil
import sys
from pathlib import Path

SOURCES = "usr/share/gocode/src/github.com"
PODMAN = "usr/share/containers/seccomp.json"
DOCKER = f"{SOURCES}/docker/docker/profiles/seccomp/default.json"
CONTAINERD = f"{SOURCES}/containerd/containerd/contrib/seccomp/seccomp_default.go"

# The CLONE_NEW.. flags of linux/sched.h that containerd's entry for clone is written with.
NAMESPACES = {"NS": 0x20000, "CGROUP": 0x2000000, "UTS": 0x4000000, "IPC": 0x8000000, "USER": 0x10000000,
              "PID": 0x20000000, "NET": 0x40000000}
# Families of sockets by which containerd's entries for socket are written since 1.7 (linux/socket.h).
FAMILIES = {"AF_ALG": 38, "AF_VSOCK": 40}
OPERATORS = {"OpEqualTo": "SCMP_CMP_EQ", "OpNotEqual": "SCMP_CMP_NE", "OpMaskedEqual": "SCMP_CMP_MASKED_EQ",
             "OpLessThan": "SCMP_CMP_LT", "OpLessEqual": "SCMP_CMP_LE", "OpGreaterThan": "SCMP_CMP_GT",
             "OpGreaterEqual": "SCMP_CMP_GE"}
EPERM, ENOSYS = 1, 38

# The values of a filter (linux/seccomp.h), and libseccomp's numbers of comparisons.
VALUES = {"KILL_PROCESS": 0x80000000, "KILL_THREAD": 0, "KILL": 0, "TRAP": 0x30000, "ERRNO": 0x50000,
          "TRACE": 0x7ff00000, "LOG": 0x7ffc0000, "ALLOW": 0x7fff0000}
COMPARISONS = ["", "NE", "LT", "LE", "EQ", "GE", "GT", "MASKED_EQ"]


def number(text):
    """What a number is, or names of flags with `|` between them."""
    flags = re.findall(r"CLONE_NEW(\w+)", text)
    if flags:
        return sum(NAMESPACES[flag] for flag in flags)
    name = text.strip().removeprefix("unix.").removeprefix("syscall.")
    return FAMILIES[name] if name in FAMILIES else int(name, 0)


def block(text):
    """The text between the first brace and the one that closes it."""
    depth, begun = 0, text.index("{")
    for at, letter in enumerate(text[begun:], begun):
        depth += (letter == "{") - (letter == "}")
        if depth == 0:
            return text[begun + 1:at]
    raise ValueError("a brace is not closed")


def arguments(text):
    """The conditions of an entry, whatever the order of their fields."""
    found = []
    for inner in re.findall(r"\{([^{}]*\bOp:[^{}]*)\}", text):
        fields = dict(re.findall(r"(\w+):\s*([^,]+?)\s*(?:,|$)", inner.strip()))
        found.append({"index": int(fields["Index"]), "value": number(fields["Value"]),
                      "valueTwo": number(fields.get("ValueTwo", "0")),
                      "op": OPERATORS[fields["Op"].removeprefix("specs.")]})
    return found


def entries(text):
    """The entries of some of the Go source, in order."""
    for names, action, rest in re.findall(
            r"Names:\s*\[\]string\{(.*?)\},\s*Action:\s*specs\.Act(\w+),(.*?)(?=Names:|\Z)", text, re.S):
        entry = {"names": re.findall(r'"(\w+)"', names), "action": f"SCMP_ACT_{action.upper()}",
                 "args": arguments(rest)}
        if action == "Errno":
            entry["errnoRet"] = ENOSYS
        yield entry


def containerd(source):
    """Its profile has entries for all, a switch over architectures with entries for some, and then entries
    for containers without capabilities, in a switch over architectures whose default is x86-64's too."""
    source = source[source.index("func DefaultProfile"):]
    places = [it.start() for it in re.finditer(r"switch \w+\.GOARCH", source)]
    by_arch, others = block(source[places[0]:]), source[places[-1]:]
    amd64 = re.search(r'^\s*case "amd64":(.*?)(?=^\s*(?:case |default:)|\Z)', by_arch, re.S | re.M)[1]
    parts = (source[:places[0]], amd64, others[others.index("default:"):])
    syscalls = [entry for part in parts for entry in entries(part)]
    return json.dumps({"defaultAction": "SCMP_ACT_ERRNO", "syscalls": syscalls})


def value(action, error):
    kind = action.removeprefix("SCMP_ACT_")
    data = EPERM if error is None else error
    return VALUES[kind] | (data if kind in ("ERRNO", "TRACE") else 0)


def rules(profile):
    """What other calls return, and a line for each name of each entry: what it returns, how many conditions
    it has, and these. Left out is what an entry before decides, and, as no library takes it, what returns the
    same as other calls do."""
    other = value(profile["defaultAction"], profile.get("defaultErrnoRet"))
    lines, decided = [str(other)], set()
    for entry in profile["syscalls"]:
        conditions = entry.get("args") or []
        returned = value(entry["action"], entry.get("errnoRet"))
        words = [returned, len(conditions)]
        for condition in conditions:
            words += [condition["index"], COMPARISONS.index(condition["op"].removeprefix("SCMP_CMP_")),
                      condition["value"], condition.get("valueTwo") or 0]
        for name in entry.get("names", []):
            line = " ".join(map(str, [name, *words]))
            if name not in decided and returned != other and line not in lines:
                lines.append(line)
            if not conditions:
                decided.add(name)
    return "\n".join(lines) + "\n"


def main():
    folder = Path(sys.argv[1])
    root = Path(sys.argv[2] if len(sys.argv) > 2 else "/")
    folder.mkdir(parents=True, exist_ok=True)
    for engine, path in (("podman", PODMAN), ("docker", DOCKER), ("containerd", CONTAINERD)):
        source, target = root / path, folder / f"{engine}.json"
        if not source.exists():
            print(f"{engine}: skipped, this machine has no /{path}", file=sys.stderr)
            continue
        if path == CONTAINERD:
            target.write_text(containerd(source.read_text()))
        else:
            shutil.copyfile(source, target)
        target.with_suffix(".rules").write_text(rules(json.loads(target.read_text())))
        print(target)


main()
