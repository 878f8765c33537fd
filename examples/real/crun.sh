#!/bin/sh
# crun runs mkdir in a container, under the filter of its learned profile, and then under that of the same
# profile without its call. The annotation run.oci.seccomp_bpf_data takes the filter in Base64, and crun installs
# it unchanged. For root.
. "$(dirname "$0")/common.sh"
needs crun crun
[ "$(id -u)" = 0 ] || skip "it is for root"

# crun 1.8 refuses a machine with cgroups of version 1 beside version 2. There it sees version 2 alone.
started() { crun "$@"; }
if [ -d /sys/fs/cgroup/unified ]; then
  alone='umount -R /sys/fs/cgroup && mount -t cgroup2 none /sys/fs/cgroup && exec crun "$@"'
  started() { unshare --mount sh -c "$alone" crun "$@"; }
fi

container() { # TOP
  bundle '' "$1"
  started --root "$room/crun" run --bundle "$room/bundle" "motchidu-$$" && rmdir "$room/bundle/rootfs/new"
}

confined() {
  seccheck compile --base64 "$room/$1.json" "$room/$1.base64" > "$room/said" 2>&1 || fail "$(cat "$room/said")"
  container "\"annotations\": {\"run.oci.seccomp_bpf_data\": \"$(cat "$room/$1.base64")\"},"
}

said=$(container '' 2>&1) || skip "crun starts no container here: $said"
learned
both
