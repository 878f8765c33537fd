#!/bin/bash
# Builds the examples in C against the folder of `make lib` and runs them, and those in Python over the shared
# library, so that header, module and library can't part. Prints which fail; the last line has their counts.
set -u
cd "$(dirname "$0")/.."
library=out/c out=out/examples cc=${CC:-cc} passed=0 failed=0
mkdir -p "$out"

count() { # NAME STATUS
  if [ "$2" = 0 ]; then
    passed=$((passed + 1))
  else
    failed=$((failed + 1))
    echo "failed: examples/$1"
  fi
}

# Debian's packages for what the machine lacks, where this may install them.
lacks() { ! command -v "$1" > /dev/null; }
if { lacks "$cc" || lacks pkg-config; } && [ "$(id -u)" = 0 ] && ! lacks apt-get; then
  apt-get update -qq && apt-get install -y -qq gcc libc6-dev pkg-config > /dev/null
fi
if lacks "$cc" || lacks pkg-config; then
  echo "examples/c: there is no $cc or no pkg-config: install them," \
    "as by apt-get install gcc libc6-dev pkg-config"
  echo "0 passed, 1 failed"
  exit 1
fi

build() { # NAME [FLAG]..
  local name=$1
  shift
  "$cc" -std=c11 -D_GNU_SOURCE -O2 -Wall -Wextra -Werror "examples/c/$name.c" "$@" -o "$out/$name"
}

# Links with the shared library, by the flags of its pkg-config file.
read -ra shared < <(PKG_CONFIG_PATH=$library pkg-config --cflags --libs motchidu)
shared+=("-Wl,-rpath,$PWD/$library")

build judge "${shared[@]}" && "$out/judge" examples/x86_64_only.bpf > "$out/judge.stdout" \
  && diff examples/c/judge.stdout "$out/judge.stdout"
count c/judge $?

if build explain "${shared[@]}"; then
  {
    "$out/explain" - read clone3 ptrace nosuchcall
    "$out/explain" examples/c/refused.json mkdir
  } > "$out/explain.stdout"
  diff examples/c/explain.stdout "$out/explain.stdout"
fi
count c/explain $?

build versions "${shared[@]}" && "$out/versions" examples/c/versions.json > "$out/versions.stdout" \
  && diff examples/c/versions.stdout "$out/versions.stdout"
count c/versions $?

build every_status -I$library $library/libmotchidu.a -Wl,--wrap=malloc && "$out/every_status"
count c/every_status $?

# The second library is the first one with other names for its exports, so that the
# program defines any other name that it shows twice.
if lacks objcopy; then
  echo "examples/c/two_libraries: skipped, there is no objcopy"
else
  rename='s/^enum motchidu_status motchidu_([a-z_]+)\(.*/--redefine-sym motchidu_\1=other_\1/p'
  renamed=$(sed -n -E "$rename" include/motchidu.h)
  # shellcheck disable=SC2086
  objcopy $renamed $library/libmotchidu.a "$out/libother.a" \
    && build two_libraries -I$library $library/libmotchidu.a \
      -Wl,--whole-archive "$out/libother.a" -Wl,--no-whole-archive \
    && "$out/two_libraries"
  count c/two_libraries $?
fi

build small_stacks "${shared[@]}" -pthread && "$out/small_stacks"
count c/small_stacks $?

if build confine "${shared[@]}"; then
  "$out/confine" examples/c/confine.json > "$out/confine.stdout"
  case $? in
    0) diff examples/c/confine.stdout "$out/confine.stdout" ;;
    77) cat "$out/confine.stdout" ;;
    *) false ;;
  esac
fi
count c/confine $?

if lacks python3; then
  echo "examples/python: skipped, there is no python3"
else
  try_python() { # NAME PROFILE..
    local name=$1
    shift
    python3 -B "examples/python/$name.py" $library/libmotchidu.so "$@" > "$out/${name}_py.stdout" \
      && diff "examples/python/$name.stdout" "$out/${name}_py.stdout"
    count "python/$name" $?
  }
  try_python judge examples/c/confine.json
  try_python compare examples/c/confine.json examples/no_ptrace.json
  try_python explain examples/c/confine.json examples/template.json
  # The names of statuses in the module are those of the header, in its order. So are the functions, but
  # for those that a function with a version of Linux replaces.
  diff <(sed -n -E 's/^    case MOTCHIDU_[A-Z_]+: return "(.*)";/\1/p' include/motchidu.h) \
    <(PYTHONPATH=examples/python python3 -B -c 'import motchidu; print(*motchidu.NAMES, sep="\n")')
  count python/motchidu $?
  functions=$(sed -n -E 's/^enum motchidu_status (motchidu_[a-z_]+)\(.*/\1/p' include/motchidu.h | sort)
  replaced=$(sed -n -E 's/_with$//p' <<< "$functions" && echo motchidu_compile_at)
  diff <(grep -vxF "$replaced" <<< "$functions") \
    <(PYTHONPATH=examples/python python3 -B -c 'import motchidu; print(*motchidu._ARGUMENTS, sep="\n")')
  count "python/motchidu's functions" $?
fi
echo "$passed passed, $failed failed"
[ $failed = 0 ]
