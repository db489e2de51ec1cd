#!/bin/sh
# Tries tools/install.sh: installs into a folder of its own, moves that folder, and builds and runs the two small projects
# against it, examples/pkgconfig (C, Makefile) and examples/cmake (C++). Needs the library (tools/build.sh plate_c), and
# pkg-config and cmake, of which it leaves out what is not installed and says so.
set -eu
here=$(cd "$(dirname "$0")" && pwd -P)
work=$(mktemp -d)
trap 'rm -rf "$work"' EXIT

if PLATE_LIB=$work/none.a "$here/../tools/install.sh" "$work/none" 2>"$work/said" || ! grep -q 'tools/build.sh plate_c' "$work/said"; then
    echo "install.sh does not say that the library is missing"
    exit 1
fi
"$here/../tools/install.sh" "$work/first"
mv "$work/first" "$work/moved here"
prefix="$work/moved here"
left_out=

if command -v pkg-config >/dev/null; then
    cp -r "$here/pkgconfig" "$work/pkgconfig"
    # pkg-config writes a space of a folder's name with a backslash, and make passes it on to the shell.
    PKG_CONFIG_PATH="$prefix/lib/pkgconfig" make -s -C "$work/pkgconfig" judge
    "$work/pkgconfig/judge" </dev/null
    printf 'no board' | "$work/pkgconfig/judge" && exit 1
    echo "pkg-config $(PKG_CONFIG_PATH="$prefix/lib/pkgconfig" pkg-config --modversion plate): built and run"
else
    left_out="pkg-config"
fi

if command -v cmake >/dev/null; then
    configure() { cmake -S "$work/$1" -B "$work/$1/build" -DCMAKE_BUILD_TYPE=Release -DCMAKE_PREFIX_PATH="$prefix" >"$work/said" 2>&1; }
    cp -r "$here/cmake" "$work/cmake"
    configure cmake && cmake --build "$work/cmake/build" >>"$work/said" 2>&1 || { cat "$work/said"; exit 1; }
    "$work/cmake/build/loudness"
    # Another minor version is another interface, and is not found.
    cp -r "$here/cmake" "$work/later"
    sed -i 's/find_package(plate 0\.[0-9]*/find_package(plate 0.99/' "$work/later/CMakeLists.txt"
    if configure later; then
        echo "find_package takes version 0.99"
        exit 1
    fi
    echo "cmake: built and run; another version is not found"
else
    left_out="$left_out${left_out:+, }cmake"
fi
[ -z "$left_out" ] || echo "left out, since not installed: $left_out"
