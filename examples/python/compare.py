"""Compares the filters of two profiles, and shows why a filter is refused: compare.py LIBRARY PROFILE OTHER"""
import struct
import sys

import motchidu

JUMP, RETURN = 0x05, 0x06


def filter_of(library, path):
    with open(path, "rb") as file:
        return library.compile(file.read())


library = motchidu.Library(sys.argv[1])
one, other = (filter_of(library, path) for path in sys.argv[2:])
print("the same as itself:", one.compare(one) is None)
call, value, another = one.compare(other)
print("differ on a call:", one.run(call)[0] == value != another == other.run(call)[0])
print("within its longest way:", 0 < one.run(call)[1] <= one.longest())
too_far = struct.pack("<HBBI", JUMP, 0, 0, 9) + struct.pack("<HBBI", RETURN, 0, 0, 0)
try:
    library.filter(too_far)
except motchidu.Refused as refused:
    print("a jump too far:", refused)
try:
    library.compile(b"defaultAction: SCMP_ACT_ALLOW")
except motchidu.Refused as refused:
    print("a profile in YAML:", refused)
