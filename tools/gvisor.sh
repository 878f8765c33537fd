#!/bin/bash
# Builds the benchmarks' compiler by gVisor, and prints what a C compiler needs to link it: gvisor.sh FOLDER
# [ROOT]. Go (1.22 or later) and gVisor come from Debian 13's packages golang-go and golang-gvisor-gvisor-dev,
# whose files lie below the root, or /. Older packages have gVisor without its optimiser. If the
# packages are missing, it prints a line on standard error.
set -e
cd "$(dirname "$0")/.."
folder=$1 root=$(cd "${2:-/}" && pwd)
go=$(ls -d "${root%/}"/usr/lib/go-1.*/bin/go 2> /dev/null | sort -V | tail -1)
sources=${root%/}/usr/share/gocode
if [ -z "$go" ] || [ ! -e "$sources/src/gvisor.dev/gvisor/pkg/seccomp/seccomp_optimizer.go" ]; then
  echo "gVisor: skipped, below $root there is no Go or no gVisor of 2024 or later" >&2
  exit
fi
mkdir -p "$folder"
export GO111MODULE=off GOTOOLCHAIN=local GOPATH=$sources
export GOROOT=${go%/bin/go} GOCACHE=$(cd "$folder" && pwd)/go_cache
"$go" build -buildmode=c-archive -o "$folder/libgvisor.a" bench/gvisor.go >&2
echo "-DHAS_GVISOR $folder/libgvisor.a -pthread"
