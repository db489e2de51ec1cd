#!/bin/sh
# run.sh [boards N] [plate M] [seed S] [floats K]: compares the library with the original Rust and with a model of the
# documents; see README.md. PLATE_LIB names the library (target/staticlib/libplate.a), GLICOL_SYNTH the original Rust
# (build.sh).
set -eu
root=$(cd "$(dirname "$0")/.." && pwd -P)
PLATE_LIB=$(realpath "${PLATE_LIB:-$root/target/staticlib/libplate.a}")
export PLATE_LIB
[ -f "$PLATE_LIB" ] || { echo "oracle/run.sh: no library $PLATE_LIB: tools/build.sh plate_c, or set PLATE_LIB" >&2; exit 1; }
"$root/oracle/build.sh"
cd "$root/target/oracle"
cargo build --quiet --release --offline -p programs --bin run
exec ./target/release/run "$@"
