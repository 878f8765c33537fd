#!/bin/sh
# systemd runs mkdir as a transient unit under SystemCallFilter= of its learned profile, and then of the same
# profile without its call. systemd takes no filter: it makes its own, by libseccomp, so what is proved of
# seccheck's filters is not proved of this one. For root the unit is one of the system, for others one of the user.
. "$(dirname "$0")/common.sh"
needs systemd-run systemd
learned

lines() { # NAME
  seccheck write --systemd "$room/$1.json"
}

# systemd knows each name: for one that it lacks, a line is printed.
{ lines with; echo ExecStart=/bin/true; } > "$room/motchidu.service" || fail "the profile has no unit"
said=$(systemd-analyze verify --man=no "$room/motchidu.service" 2>&1) || fail "$said"
[ -z "$said" ] || fail "$said"
[ -d /run/systemd/system ] || skip "systemd accepts the unit, but is not running"
[ "$(id -u)" = 0 ] && manager=--system || manager=--user

confined() {
  lines "$1" | sed 1d > "$room/lines" || return 1
  set -- --quiet --wait --pipe --collect --setenv LC_ALL=C
  while read -r line; do set -- "$@" --property "$line"; done < "$room/lines"
  systemd-run "$manager" "$@" mkdir "$room/new" && rmdir "$room/new"
}

both
