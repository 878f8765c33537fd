#!/bin/bash
# Times the runtime by the program in bench/runtime, which is proved and run as one more crate of a copy: its
# answer differs from run to run, so it is none of the crates whose output the gate compares. Its ending is
# not .rt because the gate refuses such a file outside a crate.
set -eu
cd "$(dirname "$0")/.."
copy=$(mktemp -d)
trap 'rm -rf "$copy"' EXIT
cp -a crates crates.txt HANDLES "$copy"
mkdir -p "$copy/crates/runtime_bench/src"
cp bench/runtime/main.rattle "$copy/crates/runtime_bench/src/main.rt"
echo 'runtime_bench: runtime_core cri_msgs manifest node_io' >> "$copy/crates.txt"
cd "$copy"
git init -q .
cd crates/runtime_bench
rt run 2>&1 | grep -E 'a step$|a creation' || { echo "runtime_bench: not proved, or not run" >&2; exit 1; }
