#!/bin/sh
# A program in C, examples/c/confine.c, runs its child under the filter of its learned profile, by the library
# for C, and then under that of the same profile without getpid. pkg-config has to know the library, as after
# `make install` with README's lines of `export`.
. "$(dirname "$0")/common.sh"
needs "${CC:-cc}" gcc
needs pkg-config pkg-config
needs strace strace
flags=$(pkg-config --cflags --libs motchidu 2> /dev/null) || skip "pkg-config knows no motchidu: make install"
# shellcheck disable=SC2086
"${CC:-cc}" -D_GNU_SOURCE "$here/../c/confine.c" -o "$room/confine" $flags

# The child makes a folder, which the next run has to make again.
run() { # PROFILE
  "$room/confine" "$1" && rmdir /tmp/motchidu_confined
}

echo '{"defaultAction": "SCMP_ACT_ALLOW"}' > "$room/all.json"
said=$(run "$room/all.json") || { [ $? = 77 ] && skip "$said"; fail "$said"; }
strace -f -o "$room/log" "$room/confine" "$room/all.json" > "$room/said" || skip "strace can't trace here"
rmdir /tmp/motchidu_confined
# Each name on a line of its own.
seccheck learn --needed --default 'ERRNO 38' "$room/log" | sed 's/"[a-z0-9_]*",/&\n/g' > "$room/with.json"
sed '/"getpid"/d' "$room/with.json" > "$room/without.json"

[ "$(run "$room/with.json")" = "$said" ] || fail "the program does not work under its filter"
echo "$me: getpid works under the filter"
echo "$said" | sed 's/^getpid: .*/getpid: errno 38/' > "$room/wanted"
[ "$(run "$room/without.json")" = "$(cat "$room/wanted")" ] || fail "getpid does not fail as the profile says"
echo "$me: without its call: $(head -1 "$room/wanted")"
