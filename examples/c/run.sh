#!/bin/sh
# Proves and builds the library, builds the examples against it and runs them: with gcc and clang, plain, with their
# sanitizers for addresses and undefined behaviour, and under valgrind; the headers also as C++. What is not installed is
# left out, and the last line says so. The archive may need nothing of its host but memcpy and memset (docs/FIRMWARE.md).
set -eu
cd "$(dirname "$0")"
../../tools/build.sh plate_c >/dev/null
lib=../../target/staticlib/libplate.a
# what the program rig writes; seen from the folder of another build by its whole name
rig=$PWD/../../crates/rig/stdout
out=$(mktemp -d)
trap 'rm -rf "$out"' EXIT
left_out=

for name in $(nm "$lib" 2>/dev/null | awk '$1 == "U" { print $2 }' | sort -u); do
    case $name in
    memcpy | memset) ;;
    *)
        echo "libplate.a needs $name"
        exit 1
        ;;
    esac
done

has() { command -v "$1" >/dev/null; }
leave() { left_out="$left_out${left_out:+, }$1"; }

# The compiler can link a program with its sanitizers: their libraries are packages of their own.
sanitizes() {
    echo 'int main(void) { return 0; }' >"$out/probe.c"
    "$1" -fsanitize=address,undefined "$out/probe.c" -o "$out/probe" 2>/dev/null && "$out/probe" 2>/dev/null
}

# run DIR: the programs of a folder; all but the first run are silent unless they fail.
run() { (cd "$1" && ./host impulse.wav && ./packed packed.wav && ./rewire && ./burst "$rig" && ./claims) >"$1/said" 2>&1 || { cat "$1/said"; echo "failed: $2"; exit 1; }; }

first=gcc
has gcc || first=cc
make -s clean all CC=$first
./host impulse.wav
./packed packed.wav
./rewire
./burst "$rig"
./claims

for cc in gcc clang; do
    has $cc || { leave $cc; continue; }
    mkdir "$out/$cc"
    make -s all CC=$cc OUT="$out/$cc"
    run "$out/$cc" "built by $cc"
    echo "$cc: no warnings, and the programs end as they must"
    sanitizes $cc || { leave "sanitizers of $cc"; continue; }
    mkdir "$out/$cc-sanitized"
    make -s all CC=$cc OUT="$out/$cc-sanitized" EXTRA="-g -fsanitize=address,undefined -fno-sanitize-recover=all"
    run "$out/$cc-sanitized" "built by $cc, sanitized"
    echo "$cc: nothing found by its sanitizers for addresses and undefined behaviour"
done

for cc in gcc clang; do
    has $cc || continue
    $cc -std=c99 -Wall -Wextra -Wconversion -pedantic -Werror -I../../include header.c $lib -o "$out/header"
    "$out/header"
done
for cxx in g++ clang++; do
    has $cxx || { leave $cxx; continue; }
    $cxx -x c++ -std=c++11 -Wall -Wextra -Wconversion -pedantic -Werror -I../../include header.c -x none $lib -o "$out/header"
    "$out/header"
    echo "$cxx: the headers are C++ too"
done

if has valgrind; then
    for program in "host impulse.wav" "packed packed.wav" rewire "burst ../../crates/rig/stdout" claims; do
        valgrind -q --error-exitcode=1 ./$program >"$out/said" 2>&1 || { cat "$out/said"; echo "failed: $program under valgrind"; exit 1; }
    done
    echo "valgrind: nothing found"
else
    leave valgrind
fi
[ -z "$left_out" ] || echo "left out, since not installed: $left_out"
