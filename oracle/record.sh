#!/bin/sh
# record.sh [FILE] [boards N] [plate M] [packed P] [seed S]: writes FILE (crates/replay/stdin), a list of calls with the
# oracle's answers, and replays it in the library; README.md has the format. Variables as for run.sh.
set -eu
root=$(cd "$(dirname "$0")/.." && pwd -P)
file=$root/crates/replay/stdin
case ${1:-boards} in boards | plate | packed | seed) ;; *) file=$(realpath "$1") && shift ;; esac
PLATE_LIB=$(realpath "${PLATE_LIB:-$root/target/staticlib/libplate.a}")
export PLATE_LIB
[ -f "$PLATE_LIB" ] || { echo "oracle/record.sh: no library $PLATE_LIB: tools/build.sh plate_c, or set PLATE_LIB" >&2; exit 1; }
"$root/oracle/build.sh"
cd "$root/target/oracle"
cargo build --quiet --release --offline -p programs
./target/release/record "$file" "$@"
exec ./target/release/replay "$file"
