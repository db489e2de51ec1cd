#!/bin/sh
# stack.sh: prints the stack that each call of libplate.a takes.
set -eu
root=$(cd "$(dirname "$0")/.." && pwd -P)
lib=${PLATE_LIB:-$root/target/staticlib/libplate.a}
mkdir -p "$root/target/bench"
cc -std=gnu11 -O2 -Wall -Wextra -I"$root/include" "$root/bench/stack.c" "$lib" -lpthread -o "$root/target/bench/stack"
"$root/target/bench/stack"
