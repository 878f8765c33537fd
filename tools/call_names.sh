#!/bin/bash
# The names of the calls of Linux 5.8 as an array in C, each at its number.
cd "$(dirname "$0")/.."
echo "static const char *const names[] = {"
sed -n '/static NAMES/,/^\];/p' crates/sys_table/src/table.rt | sed '1d;s://.*::' | grep -o '"[^"]*"' |
  sed '441,$d;s/^"uretprobe"$/""/;s/^""$/NULL/;s/$/,/'
echo "};"
