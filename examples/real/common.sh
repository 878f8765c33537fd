# shellcheck shell=sh disable=SC2034
# Sourced by the scripts of this folder, which need seccheck on the path. Each calls `learned`, which makes the
# profile of mkdir from traces, and defines `confined NAME`, which runs mkdir under the filter or the profile
# $room/NAME.*. It ends with `both`.
# Status 0: both runs ended as the profiles decide. 1: one did not. 77: this machine can't run the script.
set -eu
export LC_ALL=C # messages in English
here=$(cd "$(dirname "$0")" && pwd)
me=$(basename "$0" .sh)
room=$(mktemp -d)
trap 'rm -rf --one-file-system "$room"' EXIT

fail() {
  echo "$me: FAILED: $1"
  exit 1
}

skip() {
  echo "$me: left out: $1"
  exit 77
}

needs() { # COMMAND PACKAGE
  command -v "$1" > /dev/null || skip "$1 is missing: apt-get install $2"
}

command -v seccheck > /dev/null || fail "seccheck is not on the path: make try or make install"

# Makes the profile of two runs of mkdir, and what `profiles` makes of it. The second run fails, as the folder
# is there by then, so the profile has the calls of an error message too.
learned() { # OPTION or FILE..
  needs strace strace
  strace -f -o "$room/log" mkdir "$room/new" || skip "strace can't trace here"
  ! strace -f -A -o "$room/log" mkdir "$room/new" 2> "$room/said" || fail "a folder was made twice"
  rmdir "$room/new"
  # Each name on a line of its own.
  seccheck learn --needed --default 'ERRNO 38' "$@" "$room/log" | sed 's/"[a-z0-9_]*",/&\n/g' > "$room/learned.json"
  profiles "$room/learned.json"
}

# with.json and with.bpf are the profile and its filter; without.json and without.bpf lack the call mkdir, whose
# name is on a line of its own.
profiles() { # PROFILE
  cp "$1" "$room/with.json"
  sed -E '/"mkdir(at)?"/d' "$1" > "$room/without.json"
  for name in with without; do
    seccheck compile "$room/$name.json" "$room/$name.bpf" > "$room/said" 2>&1 || fail "$(cat "$room/said")"
  done
}

both() {
  said=$(confined with 2>&1) || fail "mkdir does not work under its filter: $said"
  echo "$me: mkdir works under its filter"
  ! said=$(confined without 2>&1) || fail "mkdir works without its call"
  case $said in
    *"mkdir: "*"directory"*"${denied:-Function not implemented}"*) echo "$me: without its call: $said" ;;
    *) fail "mkdir does not fail as the profile says: $said" ;;
  esac
}

# An OCI bundle in $room/bundle that runs mkdir, with these members of `linux` and these at the top.
bundle() { # LINUX TOP
  mkdir -p "$room/bundle/rootfs"
  cat > "$room/bundle/config.json" << END
{"ociVersion": "1.0.0", "root": {"path": "rootfs"}, $2
 "process": {"args": ["mkdir", "/new"], "cwd": "/", "user": {"uid": 0, "gid": 0}, "noNewPrivileges": true,
             "env": ["PATH=/usr/bin:/bin", "LC_ALL=C"]},
 "mounts": [{"destination": "/proc", "type": "proc", "source": "proc"},
            {"destination": "/dev", "type": "tmpfs", "source": "tmpfs"},
            {"destination": "/usr", "type": "bind", "source": "/usr", "options": ["bind", "ro"]},
            {"destination": "/bin", "type": "bind", "source": "/bin", "options": ["bind", "ro"]},
            {"destination": "/lib", "type": "bind", "source": "/lib", "options": ["bind", "ro"]},
            {"destination": "/lib64", "type": "bind", "source": "/lib64", "options": ["bind", "ro"]}],
 "linux": {$1 "namespaces": [{"type": "mount"}, {"type": "pid"}]}}
END
}
