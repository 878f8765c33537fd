"""Explains calls by their names under a profile and under RuntimeDefault, and resolves a template:
explain.py LIBRARY PROFILE TEMPLATE"""
import json
import sys

import motchidu

SYS_ADMIN = 1 << 21  # CAP_SYS_ADMIN of linux/capability.h


def read(path):
    with open(path, "rb") as file:
        return file.read()


def told(profile, name):
    found = library.explain_name(profile, name)
    decider = f"syscalls[{found.entry}]" if found.decider == motchidu.ENTRY else "defaultAction"
    return f"{name}: {found.value:08x} by {decider}"


library = motchidu.Library(sys.argv[1])
profile, template = read(sys.argv[2]), read(sys.argv[3])
for name in ("mkdir", "personality", "getpid"):
    print(told(profile, name))
for name in ("clone3", "ptrace"):
    print("by default", told(library.default(), name))
filter_value, _ = library.compile(profile).run(motchidu.call(library.call_number("mkdir")))
print("as its filter returns:", filter_value == library.explain(profile, motchidu.call(83)).value)
i386, x32 = motchidu.call(83, arch=0x40000003), motchidu.call(0x40000000)
print("i386:", library.explain(profile, i386).decider == motchidu.ARCHITECTURE)
print("x32:", library.explain(profile, x32).decider == motchidu.X32)
print("calls 83 and 4711:", library.call_name(83), library.call_name(4711))
print("mkdri:", library.call_number("mkdri"))
for version in (motchidu.LINUX_5_8, motchidu.LINUX_6_12):
    print("futex_waitv and 462:", library.call_number("futex_waitv", version), library.call_name(462, version))
try:
    library.call_name(0, 2)
except motchidu.Refused as refused:
    print("a third version:", refused)
for caps, kernel in ((0, motchidu.NEWEST), (SYS_ADMIN, motchidu.NEWEST), (0, (4, 7))):
    resolved = json.loads(library.resolve(template, caps, kernel))
    print("resolved:", *(name for entry in resolved["syscalls"] for name in entry["names"]))
try:
    library.resolve(b'{"defaultAction": "SCMP_ACT_ERRNO", "defaultErrno": "ENOSUCH"}')
except motchidu.Refused as refused:
    print("an unknown errno:", refused)
try:
    library.compile(b'{"defaultAction": "SCMP_ACT_ALLOW", "syscalls": [{"names": []}]}')
except motchidu.Refused as refused:
    print("no names:", refused)
