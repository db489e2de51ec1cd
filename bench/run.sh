#!/bin/sh
# run.sh [ROUNDS]: times the library beside the original Rust and straight-line Rust (src/main.rs); needs what
# oracle/build.sh needs. PLATE_LIB names the library (target/staticlib/libplate.a).
set -eu
root=$(cd "$(dirname "$0")/.." && pwd -P)
PLATE_LIB=$(realpath "${PLATE_LIB:-$root/target/staticlib/libplate.a}")
export PLATE_LIB
[ -f "$PLATE_LIB" ] || { echo "bench/run.sh: no library $PLATE_LIB: tools/build.sh plate_c, or set PLATE_LIB" >&2; exit 1; }
"$root/oracle/build.sh"
cd "$root/target/oracle"
cargo build --quiet --release --offline -p bench
exec ./target/release/bench "$@"
