#!/usr/bin/env python3
"""compare_call_types.py: compares the types of calls' arguments in profile_advice/src/table.rt with those of the
kernel that runs, as tracefs prints them: how many there are, and which have at most 32 bits. A machine without
tracefs is skipped, and so is a call that its kernel does not have."""
import glob
import os
import re
import sys

ROOT = os.path.dirname(os.path.dirname(os.path.abspath(__file__)))
EVENTS = "/sys/kernel/tracing/events/syscalls"
# The names of functions that differ from the names of calls.
FUNCTIONS = {"stat": "newstat", "fstat": "newfstat", "lstat": "newlstat", "uname": "newuname",
             "sendfile": "sendfile64", "umount2": "umount"}
NARROW = {"int", "unsigned int", "unsigned", "s32", "__s32", "u32", "__u32", "pid_t", "uid_t", "gid_t", "umode_t",
          "key_serial_t", "key_t", "qid_t", "clockid_t", "timer_t", "mqd_t", "rwf_t"}


def texts(path, name):
    with open(f"{ROOT}/crates/{path}/src/table.rt", encoding="utf-8") as it:
        table = it.read().partition(f"static {name}: ")[2].partition("= [")[2].partition("\n];")[0]
    return re.findall(r'"([^"]*)"', re.sub(r"//.*", "", table))


def types_of(function):
    """The letters of a call of the kernel, or None if it does not have the call."""
    path = f"{EVENTS}/sys_enter_{function}/format"
    if not os.path.exists(path):
        return None
    with open(path, encoding="utf-8") as it:
        fields = re.findall(r"field:(.*?)\s*\b\w+;\toffset:(\d+)", it.read())
    kinds = [re.sub(r"^const ", "", kind) for kind, offset in fields if int(offset) >= 16]
    return "".join("i" if kind in NARROW else "l" for kind in kinds)


def main():
    if not glob.glob(f"{EVENTS}/sys_enter_*"):
        print("types of arguments: skipped, this machine shows no tracefs")
        return
    names, types = texts("sys_table", "NAMES"), texts("profile_advice", "TYPES")
    found = [(name, letters, types_of(FUNCTIONS.get(name, name)))
             for name, letters in zip(names, types, strict=True) if name]
    wrong = [it for it in found if it[2] is not None and it[1] != it[2]]
    for name, letters, kernel in wrong:
        print(f"types of arguments: {name} has {letters or 'none'}, and the kernel {kernel or 'none'}")
    absent = sum(it[2] is None for it in found)
    print(f"types of arguments: {len(found) - absent - len(wrong)} calls as in the kernel that runs; it lacks {absent}")
    sys.exit(bool(wrong))


main()
