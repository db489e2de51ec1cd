#!/bin/sh
# install.sh PREFIX: installs the library for C and C++ below PREFIX (/usr/local, say): lib/libplate.a, include/plate.h and
# plate_words.h, lib/pkgconfig/plate.pc, and lib/cmake/plate for find_package. The folder may be moved afterwards: nothing
# in it names PREFIX. DESTDIR, if set, stands before PREFIX; PLATE_LIB names another archive.
set -eu
root=$(cd "$(dirname "$0")/.." && pwd -P)
lib=${PLATE_LIB:-$root/target/staticlib/libplate.a}
header=$root/include/plate.h

if [ $# -ne 1 ] || [ -z "$1" ]; then
    echo "use: tools/install.sh PREFIX" >&2
    exit 2
fi
if [ ! -f "$lib" ]; then
    echo "install.sh: the library is not built yet, $lib is not there: run tools/build.sh plate_c in $root" >&2
    exit 1
fi
to=${DESTDIR:-}$1

part() { sed -n "s/^#define PLATE_VERSION_$1 \([0-9][0-9]*\)\$/\1/p" "$header"; }
major=$(part MAJOR) minor=$(part MINOR) patch=$(part PATCH)
version=$major.$minor.$patch
if ! grep -q "^#define PLATE_VERSION \"$version\"\$" "$header"; then
    echo "install.sh: the version macros of $header do not agree" >&2
    exit 1
fi

mkdir -p "$to/lib/pkgconfig" "$to/lib/cmake/plate" "$to/include"
install -m 644 "$lib" "$to/lib/libplate.a"
install -m 644 "$header" "$root/include/plate_words.h" "$to/include"

cat >"$to/lib/pkgconfig/plate.pc" <<END
prefix=\${pcfiledir}/../..
libdir=\${prefix}/lib
includedir=\${prefix}/include

Name: plate
Description: The plate tank: boards of audio nodes and a plate reverberator, proved (x86-64)
Version: $version
Libs: -L\${libdir} -lplate
Cflags: -I\${includedir}
END

cat >"$to/lib/cmake/plate/plateConfig.cmake" <<'END'
# The imported target plate::plate.
get_filename_component(plate_prefix "${CMAKE_CURRENT_LIST_DIR}/../../.." ABSOLUTE)
if(NOT TARGET plate::plate)
  add_library(plate::plate STATIC IMPORTED)
  set_target_properties(plate::plate PROPERTIES
    IMPORTED_LOCATION "${plate_prefix}/lib/libplate.a"
    INTERFACE_INCLUDE_DIRECTORIES "${plate_prefix}/include")
endif()
unset(plate_prefix)
END

# While the major version is 0, another minor version is another interface.
cat >"$to/lib/cmake/plate/plateConfigVersion.cmake" <<END
set(PACKAGE_VERSION "$version")
if(PACKAGE_FIND_VERSION VERSION_GREATER PACKAGE_VERSION
    OR NOT "\${PACKAGE_FIND_VERSION_MAJOR}.\${PACKAGE_FIND_VERSION_MINOR}" VERSION_EQUAL "$major.$minor")
  set(PACKAGE_VERSION_COMPATIBLE FALSE)
else()
  set(PACKAGE_VERSION_COMPATIBLE TRUE)
endif()
if(PACKAGE_FIND_VERSION VERSION_EQUAL PACKAGE_VERSION)
  set(PACKAGE_VERSION_EXACT TRUE)
endif()
if(NOT CMAKE_SIZEOF_VOID_P EQUAL 8 OR NOT CMAKE_SYSTEM_PROCESSOR MATCHES "^(x86_64|AMD64|amd64)\$")
  set(PACKAGE_VERSION "$version (x86-64 only)")
  set(PACKAGE_VERSION_UNSUITABLE TRUE)
endif()
END

echo "plate $version installed in $to: pkg-config in $to/lib/pkgconfig, CMake in $to/lib/cmake/plate"
