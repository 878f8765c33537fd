#!/bin/bash
# Compares each name and number of both call tables with the kernel's header on this machine
# (asm/unistd_64.h, of Debian's linux-libc-dev), as far as the header goes: an older header lacks the newest calls
# of Linux 6.12. Numbers that the header has and a table leaves out are counted, not refused: the tables have the
# calls that are implemented.
set -e
cd "$(dirname "$0")/.."
header=$(ls /usr/include/x86_64-linux-gnu/asm/unistd_64.h /usr/include/asm/unistd_64.h 2>/dev/null | head -1)
if [ -z "$header" ]; then
  echo "call table: skipped, this machine has no asm/unistd_64.h"
  exit 0
fi
constant() { # the value of a constant of the table
  sed -n "s/.* $1: [a-z0-9]* = \([0-9]*\);/\1/p" crates/sys_table/src/table.rt
}
limit=$(constant NUMBER_LIMIT)
table_limit=$(constant TABLE_LIMIT)
late=$(constant LATE_NUMBER)
parts=$(mktemp -d)
trap 'rm -rf "$parts"' EXIT
awk '$1 == "#define" && $2 ~ /^__NR_/ { print $3, substr($2, 6) }' "$header" | sort > "$parts/header"
last=$(sort -n "$parts/header" | tail -1 | cut -d ' ' -f 1)
sed -n '/static NAMES/,/^\];/p' crates/sys_table/src/table.rt | sed '1d;s://.*::' | grep -o '"[^"]*"' |
  tr -d '"' | awk '{ if ($0 != "") print NR - 1, $0 }' | sort > "$parts/6.12"
awk -v limit="$limit" -v late="$late" '$1 < limit && $1 != late' "$parts/6.12" > "$parts/5.8"

# The late number is of Linux 6.11: a header without the newest calls lacks it too.
for version in 5.8 6.12; do
  awk -v last="$last" -v newest="$((table_limit - 1))" -v late="$late" \
    '$1 <= last && (last >= newest || $1 != late)' "$parts/$version" > "$parts/known"
  wrong=$(comm -23 "$parts/known" "$parts/header")
  if [ -n "$wrong" ]; then
    echo "call table of Linux $version: not as in $header:"
    echo "$wrong"
    exit 1
  fi
  more=$(comm -13 "$parts/known" "$parts/header" | wc -l)
  later=$(($(wc -l < "$parts/$version") - $(wc -l < "$parts/known")))
  echo "call table of Linux $version: $(wc -l < "$parts/known") names as in $header, which has $more more" \
    "and lacks $later"
done
