#!/bin/sh
# build.sh NAME..: proves and builds programs, with the crates that they stand on, and tells each crate. The program NAME goes
# into target/bin, and the library for C that `plate_c` is into target/staticlib/libplate.a. What was proved before and has not
# changed is not proved again.
set -eu
root=$(cd "$(dirname "$0")/.." && pwd -P)
[ $# -gt 0 ] || { sed -n '2,4s/^# //p' "$0" >&2; exit 2; }
for name; do
    [ -d "$root/crates/$name" ] || { echo "build.sh: there is no crate $name" >&2; exit 2; }
done
command -v rt >/dev/null || { echo "build.sh: rt, the command of the Rattle kit, is not found" >&2; exit 1; }
log=$(mktemp)
trap 'rm -f "$log"' EXIT

# the crates of the repository that these stand on, each below those that name it, and themselves
crates=$(awk -F: -v wanted="$*" '/^[a-z]/ { split($1, words, " "); deps[words[1]] = $2 }
    function visit(name, list, n, i) {
        if (!(name in deps) || (name in seen)) return
        seen[name] = 1
        n = split(deps[name], list, " ")
        for (i = 1; i <= n; i++) visit(list[i])
        print name
    }
    END { n = split(wanted, names, " "); for (i = 1; i <= n; i++) visit(names[i]) }' "$root/crates.txt")
count=$(echo "$crates" | wc -l)
n=0
for crate in $crates; do
    n=$((n + 1))
    here=$root/crates/$crate
    began=$(date +%s)
    if [ -f "$here/src/main.rt" ]; then
        # rt runs what it builds; it is proved where rt has put its stamp beside it
        (cd "$here" && rt run) >"$log" 2>&1 </dev/null || true
        [ -f "$here/out/$crate.stamp" ] && proved=yes || proved=no
    else
        # a library for C is for any x86-64 processor
        grep -q "^$crate staticlib" "$root/crates.txt" && cpu=--cpu=x86-64 || cpu=
        (cd "$here" && rt lib $cpu) >"$log" 2>&1 && proved=yes || proved=no
    fi
    if [ $proved = no ]; then
        cat "$log" >&2
        echo "build.sh: $crate was not proved" >&2
        exit 1
    fi
    time="($(($(date +%s) - began)) s)"
    if [ ! -s "$log" ] || grep -q '^rt: nothing has changed' "$log"; then time="(as before)"; fi
    echo "proved $crate $time, $n of $count"
done

for name; do
    if [ -f "$root/crates/$name/src/main.rt" ]; then
        mkdir -p "$root/target/bin"
        cp "$root/crates/$name/out/$name" "$root/target/bin/$name"
    elif [ -f "$root/crates/$name/out/lib$name.a" ]; then
        mkdir -p "$root/target/staticlib"
        cp "$root/crates/$name/out/lib$name.a" "$root/target/staticlib/lib${name%_c}.a"
    fi
done
