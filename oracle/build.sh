#!/bin/sh
# build.sh [FOLDER]: lays out a cargo workspace in target/oracle with the original Rust, edited, and the programs that
# compare with it. FOLDER is the src of the glicol synth crate; without it the variable GLICOL_SYNTH, then
# ../shared/docs/src/rs/synth/src beside the repository. Nothing of it is committed. Needs cargo, python3 and Debian's
# packages librust-petgraph-dev and librust-hashbrown-dev (apt-get install); no network.
set -eu
root=$(cd "$(dirname "$0")/.." && pwd -P)
registry=/usr/share/cargo/registry
rust=${1:-${GLICOL_SYNTH:-$root/../shared/docs/src/rs/synth/src}}
work=$root/target/oracle

stop() { echo "oracle/build.sh: $*" >&2; exit 1; }
command -v cargo >/dev/null || stop "no cargo: the oracle is Rust"
command -v python3 >/dev/null || stop "no python3: the original Rust is edited by a python program"
[ -f "$rust/node/effect/plate.rs" ] || stop "no original Rust in $rust (give the folder, or set GLICOL_SYNTH)"
for crate in petgraph hashbrown; do
  ls -d "$registry/$crate"-* >/dev/null 2>&1 || stop "no $crate in $registry: apt-get install librust-$crate-dev"
done

mkdir -p "$work/.cargo" "$work/glicol"
python3 "$root/oracle/edits.py" "$rust" "$work/glicol/src"
# cp -u: what has not changed is not built again.
cp -u "$root/oracle/glicol/Cargo.toml" "$work/glicol/"
cp -ur "$root/oracle/stand-ins/ring" "$root/oracle/stand-ins/slice" "$root/oracle/compare" "$root/oracle/programs" "$root/bench" "$work/"
cp -u "$root/crates/rig/stdout" "$work/programs/rig"
cat >"$work/Cargo.toml" <<'EOS'
[workspace]
resolver = "2"
members = ["ring", "slice", "glicol", "compare", "programs", "bench"]

[profile.release]
opt-level = 3
incremental = false
EOS
cat >"$work/.cargo/config.toml" <<EOS
[source.crates-io]
replace-with = "debian"

[source.debian]
directory = "$registry"

[net]
offline = true
EOS
