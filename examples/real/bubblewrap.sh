#!/bin/sh
# bwrap runs mkdir under the filter of its learned profile, and then under that of the same profile without
# its call. bwrap reads the filter from a descriptor, and installs it just before it starts the program.
. "$(dirname "$0")/common.sh"
needs bwrap bubblewrap
bwrap --ro-bind / / true 2> "$room/said" || skip "$(cat "$room/said")"
learned

confined() {
  bwrap --ro-bind / / --tmpfs /tmp --seccomp 3 mkdir /tmp/new 3< "$room/$1.bpf"
}

both
