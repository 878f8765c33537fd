#!/bin/bash
# Builds the archive of the C library over the libraries that `rt ci` has just proved here. It proves the crate
# motchidu_c again, and nothing below it. (`rt lib`, as in `make lib`, would prove again all that is below.)
set -e -o pipefail
cd "$(dirname "$0")/../crates"
name=motchidu_c kit=$(dirname "$(rt doc)")
words=(--crate-name "$name" src/lib.rt --extern "std=$kit/rlibs/std.rlib" -L "dependency=$kit/rlibs")
for library in $(sed -n "s/^$name staticlib: //p" ../crates.txt); do
  if [ -d "$library" ]; then
    words+=(--extern "$library=../$library/out/rlib/$library.rlib")
  else
    words+=(--extern "$library=$kit/rlibs/$library.rlib")
  fi
done
# A library is looked for among all that were proved: those that it names need theirs.
for folder in */out/rlib; do
  words+=(-L "dependency=../$folder")
done
words+=(--antt-project "$kit/rattle/logic/antt-project.json" --logic-built "$kit/logic_built" --links "$name="
  --jobs 4 --crate-type staticlib --toolchain "$kit/toolchain" --backend llvm)
mkdir -p "$name/out"
echo "The library for C is built over the proved crates. The last line that rattle prints:"
cd "$name"
"$kit/bin/rattle" build "${words[@]}" -o "out/lib$name.a" | tail -1
