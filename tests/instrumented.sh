#!/bin/sh
# Builds the library a second time, for tests alone, with AddressSanitizer's
# check in front of each load and store of its own code.
#
# usage: tests/instrumented.sh FOLDER    (tests/proved.sh comes first)
#
# tests/instrumenting_clang marks the module's functions and adds the sanitizer.
# Its checks go in behind the passes of -O3, so what they stand in front of are
# the loads and stores that -O3 leaves, as in the library that is shipped.
set -eu

folder=${1:?usage: tests/instrumented.sh FOLDER}
here=$(dirname "$0")
"$here/recompiled.sh" "$here/instrumenting_clang" "$folder"
tail -n 1 "$folder/build.txt"
