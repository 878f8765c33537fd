#!/bin/bash
# What make test runs: the gate (rt ci), the examples in C over the library, and the cases of tests/ with
# README and the manual pages over what would be installed. Each prints its counts; the last lines repeat what
# failed, with the end of what its check or its tests printed, and the sum of all.
set -u
cd "$(dirname "$0")/.."
said=$(mktemp)
trap 'rm -f "$said"' EXIT
all_passed=0 all_failed=0 failures=

# The last lines of what was printed on a crate that is not proved, or whose tests failed.
reasons='/^== / { count = 0 } { lines[count++] = substr($0, 1, 300) }
  / NOT PROVED$| FAILED$/ { for (at = count > 10 ? count - 10 : 0; at < count; at++) print lines[at]; count = 0 }'

# Runs a command whose last line is `N passed, M failed`, and adds that line to the sums. A command that
# fails, or that prints no such line, has one failure at least.
part() { # NAME COMMAND..
  local name=$1 status passed failed told
  shift
  "$@" 2>&1 | tee "$said" | sed -u -E "s/^([0-9]+ passed, [0-9]+ failed)$/$name: \1/"
  status=${PIPESTATUS[0]}
  read -r passed failed < <(grep -E '^[0-9]+ passed, [0-9]+ failed$' "$said" | tail -1 | tr -dc '0-9 \n')
  if [ "$status" != 0 ] || [ -z "${failed:-}" ]; then
    failed=$((${failed:-0} > 0 ? failed : 1))
    told=$(grep -aE '^(rt: FAILED|failed): ' "$said" | head -20)
    failures+="$(awk "$reasons" "$said" | head -40)"$'\n'"$name: ${told:-ended with status $status}"$'\n'
  fi
  all_passed=$((all_passed + ${passed:-0}))
  all_failed=$((all_failed + failed))
}

c_examples() {
  tools/proved_library.sh && tools/pack_library.sh crates/motchidu_c/out/libmotchidu_c.a out/c &&
    tools/c_examples.sh
}

echo "rt ci proves every crate from nothing, with its tests and its must-fail edits. It prints:"
part "rt ci" tools/gate_times.py out/gate_times rt ci
part "C examples" c_examples
part "cases" tests/run
# In one line, so that a log keeps it near its end.
columns='NR > 1 && NF == 5 { printf "%s %s %s %s; ", $1, $2, $3, $4 }'
echo "processor seconds of proofs, tests, edits: $(tools/gate_times.py out/gate_times | awk "$columns")"
echo -n "$failures"
echo "$all_passed passed, $all_failed failed"
[ $all_failed = 0 ]
