#!/bin/sh
# worst.sh [RUNS]: prints, in Markdown, what a block of libplate.a costs on the slowest boards; RUNS is 2000 if not said, at
# most 100000. For figures that stand, let nothing else run: what the system does meanwhile is in the most. PLATE_LIB names
# the library (target/staticlib/libplate.a).
set -eu
root=$(cd "$(dirname "$0")/.." && pwd -P)
lib=${PLATE_LIB:-$root/target/staticlib/libplate.a}
[ -f "$lib" ] || { echo "bench/worst.sh: no library $lib: tools/build.sh plate_c, or set PLATE_LIB" >&2; exit 1; }
mkdir -p "$root/target/bench"
cc -std=gnu11 -O2 -Wall -Wextra -Werror -I"$root/include" -I"$root/examples/c" "$root/bench/worst.c" "$lib" -o "$root/target/bench/worst"
exec "$root/target/bench/worst" "$@"
