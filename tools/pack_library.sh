#!/bin/bash
# Makes of the crate's archive a static and a shared library that a C program links with nothing else, and
# puts them beside the header and a pkg-config file: pack_library.sh ARCHIVE FOLDER [PREFIX]. The
# pkg-config file names PREFIX as their place, or the folder itself if PREFIX is left out.
#
# A crate that takes memory calls the toolchain's few lines over malloc, realloc and free, which go along.
# Functions begin at multiples of 64 bytes, so that the speed of the machine's loop does not depend on
# where a link happens to put it. Both libraries show the functions of the header alone.
#
# All tools are the toolchain's: its clang is LLVM's objcopy too, when it is called by that name.
set -e
archive=$1 folder=$2
kit=$(dirname "$(rt doc)")
parts=$(mktemp -d)
trap 'rm -rf "$parts"' EXIT
mkdir -p "$folder"
ln -s "$kit/toolchain/bin/clang" "$parts/llvm-objcopy"
# The proved functions need a place to write to, and tools/null_places.c calls them with one.
"$parts/llvm-objcopy" --redefine-sym motchidu_verify=proved_verify \
  --redefine-sym motchidu_longest=proved_longest "$archive" "$parts/proved.a"
"$kit/toolchain/bin/clang" -std=c11 -O2 -fPIC -ffreestanding -Wall -Wextra -Werror -c tools/null_places.c \
  -o "$parts/null_places.o"
echo 'SECTIONS { .text : SUBALIGN(64) { *(.text .text.*) } }' > "$parts/layout"
"$kit/toolchain/bin/ld.lld" -r -T "$parts/layout" --whole-archive "$parts/proved.a" "$kit/c/liblibc_c.a" \
  "$parts/null_places.o" -o "$parts/motchidu.o"
# Or a program could not link the library beside another that brings the same few lines.
"$parts/llvm-objcopy" --wildcard --keep-global-symbol='motchidu_*' "$parts/motchidu.o"
version=$(sed -n -E 's/^#define MOTCHIDU_VERSION "(.*)"$/\1/p' include/motchidu.h)
name=libmotchidu.so.${version%%.*}
# The shared library names C's, whose malloc and free it calls, if a compiler prints the path of C's.
libc=$("${CC:-cc}" -print-file-name=libc.so.6 2> /dev/null || true)
[ -f "$libc" ] || libc=
rm -f "$folder"/libmotchidu.*
"$kit/toolchain/bin/llvm-ar" rcsD "$folder/libmotchidu.a" "$parts/motchidu.o"
echo '{ global: motchidu_*; local: *; };' > "$parts/exports"
"$kit/toolchain/bin/ld.lld" -shared -soname "$name" --version-script "$parts/exports" -z now -z relro \
  "$parts/motchidu.o" ${libc:+"$libc"} -o "$folder/$name"
ln -sf "$name" "$folder/libmotchidu.so"
cp include/motchidu.h "$folder/"
if [ -n "${3:-}" ]; then
  places="prefix=$3"$'\nlibdir=${prefix}/lib\nincludedir=${prefix}/include'
else
  places=$'libdir=${pcfiledir}\nincludedir=${pcfiledir}'
fi
cat > "$folder/motchidu.pc" <<END
$places

Name: motchidu
Description: Compiles, checks and runs seccomp filters, proved
Version: $version
Cflags: -I\${includedir}
Libs: -L\${libdir} -lmotchidu
END
echo "$folder: libmotchidu.a, libmotchidu.so, motchidu.h and motchidu.pc"
