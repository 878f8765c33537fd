"""Compiles a profile, judges two calls by its filter, and verifies filters: judge.py LIBRARY PROFILE"""
import sys

import motchidu

library = motchidu.Library(sys.argv[1])
with open(sys.argv[2], "rb") as file:
    judging = library.compile(file.read())
results = judging.run_all([motchidu.call(83), motchidu.call(39)])
for name, (value, _) in zip(["mkdir", "getpid"], results):
    print(f"{name}: {value:08x}")
library.verify(judging.code)
try:
    library.verify(b"")
except motchidu.Refused as refused:
    print("no instructions:", refused)
