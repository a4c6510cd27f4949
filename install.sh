#!/bin/sh
# Installs the C library: PREFIX/include/hourlog.h, PREFIX/lib/libhourlog_c.a and
# PREFIX/lib/pkgconfig/hourlog.pc. What is not there is made.
#
# usage: ./install.sh PREFIX      (/usr/local, say)
#   HOURLOG_LIB  the folder that holds libhourlog_c.a (else it is proved and built,
#                which takes minutes the first time)
set -eu

fail() {
    echo "install.sh: $1" >&2
    exit 1
}

[ $# -eq 1 ] || fail "usage: ./install.sh PREFIX"
command -v install >/dev/null || fail "install is not on the PATH: it belongs to the GNU core utilities"
if [ -z "${HOURLOG_LIB:-}" ]; then
    command -v rt >/dev/null ||
        fail "rt is not on the PATH: it belongs to the Rattle kit (or set HOURLOG_LIB to the folder of a built libhourlog_c.a)"
elif [ ! -f "$HOURLOG_LIB/libhourlog_c.a" ]; then
    fail "no libhourlog_c.a in $HOURLOG_LIB"
fi
mkdir -p "$1" 2>/dev/null || fail "$1 cannot be made"
prefix=$(cd "$1" && pwd)
[ -w "$prefix" ] || fail "$prefix cannot be written"

source=$(cd "$(dirname "$0")" && pwd)
library=$("$source/tests/library.sh") || fail "the library was not built"
version() {
    sed -n "s/^#define HOURLOG_VERSION_$1 //p" "$source/include/hourlog.h"
}

install -d "$prefix/include" "$prefix/lib/pkgconfig"
install -m 644 "$source/include/hourlog.h" "$prefix/include"
install -m 644 "$library/libhourlog_c.a" "$prefix/lib"
cat >"$prefix/lib/pkgconfig/hourlog.pc" <<END
prefix=$prefix
includedir=\${prefix}/include
libdir=\${prefix}/lib

Name: hourlog
Description: The hour log of the coin board
Version: $(version MAJOR).$(version MINOR)
Cflags: -I\${includedir}
Libs: -L\${libdir} -lhourlog_c
END
echo "installed in $prefix: hourlog $(version MAJOR).$(version MINOR)"
