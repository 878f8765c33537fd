#!/bin/sh
# runc runs mkdir in a container, under its learned profile, and then under the same profile without its call.
# runc takes no filter: it makes its own from the profile, by libseccomp, so what is proved of seccheck's filters
# is not proved of this one. `seccheck lint` reports entries on which runc's filter is known to differ
# (EnginesDiffer); these profiles have none. For root.
. "$(dirname "$0")/common.sh"
needs runc runc
[ "$(id -u)" = 0 ] || skip "it is for root"

container() { # LINUX
  bundle "$1" ''
  runc --root "$room/runc" run --bundle "$room/bundle" "motchidu-$$" && rmdir "$room/bundle/rootfs/new"
}

confined() {
  ! seccheck lint "$room/$1.json" | grep EnginesDiffer || return 1
  container "\"seccomp\": $(cat "$room/$1.json"),"
}

said=$(container '' 2>&1) || skip "runc starts no container here: $said"
# Between the installation of the filter and mkdir, runc looks at its open files, and its threads go on.
printf '%s\n' fstatfs getdents64 fcntl getpid gettid tgkill nanosleep epoll_ctl epoll_pwait sigaltstack > "$room/names"
learned "$room/names"
both
