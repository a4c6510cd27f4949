#!/bin/sh
# Document 02, note 2: after its soundness check an append works out the reserve
# of the whole page at most twice. A copy of the library that counts it shows
# that; answers and bytes are those of the library that is shipped; and a copy
# that works it out once more must fail here.
#
# usage: tests/reserve_twice.sh SHIPPED    SHIPPED is the folder with libhourlog_c.a
set -eu

shipped=${1:?usage: tests/reserve_twice.sh SHIPPED}
shipped=$(cd "$shipped" && pwd)
cd "$(dirname "$0")/.."
out=target/reserve-twice
mkdir -p "$out"

# program NAME LIBRARY-FOLDER: the test over one of the libraries.
program() {
    gcc -std=c99 -O2 -Wall -Wextra -Wpedantic -Werror -Iinclude tests/reserve_twice.c -L"$2" -lhourlog_c -o "$out/$1"
}

for copy in counting once-more; do
    tests/recompiled.sh tests/counting_clang "$out/libraries/$copy"
done
program shipped "$shipped"
program counting "$out/libraries/counting"
program once-more "$out/libraries/once-more"

"$out/shipped" >"$out/shipped.txt"
if ! "$out/counting" counting >"$out/counting.txt"; then
    grep FAILED "$out/counting.txt" >&2
    exit 1
fi
grep -v '^count ' "$out/counting.txt" | diff "$out/shipped.txt" - >&2
if "$out/once-more" counting >"$out/once-more.txt"; then
    echo "reserve twice: a copy that works it out once more was not noticed" >&2
    exit 1
fi
grep -v '^count ' "$out/once-more.txt" | diff "$out/shipped.txt" - >&2
echo "reserve twice: $(grep -c '^count ' "$out/counting.txt") calls counted; a copy that works it out once more fails"
