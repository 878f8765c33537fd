#!/usr/bin/env python3
"""build.py CRATE..: proves and builds the crates with these names and all that they use, and prints which
of how many is under way."""
import sys

sys.dont_write_bytecode = True
from side_by_side import ROOT, build_crates, crates_of

sys.exit(not build_crates("install", ROOT, crates_of(), sys.argv[1:]))
