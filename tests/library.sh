#!/bin/sh
# Prints the folder that holds libhourlog_c.a: HOURLOG_LIB if it is set, else
# target/staticlib, in which the library is proved and built first.
set -eu

if [ -n "${HOURLOG_LIB:-}" ]; then
    cd "$HOURLOG_LIB"
else
    cd "$(dirname "$0")/.."
    echo "== the library (from nothing it takes some minutes)" >&2
    if [ "$(tests/proved.sh)" = kept ]; then
        tests/recompiled.sh kit target/staticlib
    else
        mkdir -p target/staticlib
        cp crates/hourlog_c_c/out/libhourlog_c_c.a target/staticlib/libhourlog_c.a
    fi
    cd target/staticlib
fi
pwd
