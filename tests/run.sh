#!/bin/sh
# The tests outside the proofs: the library and the session program against the
# second implementation, how the program reads and writes, the C example as C and
# as C++, the header and its figures, wrong copies of the header, the figures of
# docs/SIZING.md, the library installed and used from there, how often a change
# works out a page's reserve, in a copy that counts it, and comparison and example
# once more in a build with AddressSanitizer.
#
# usage: tests/run.sh
#   HOURLOG_LIB     the folder that holds libhourlog_c.a (else it is built); the
#                   builds that count and with AddressSanitizer are made of the
#                   proved libraries all the same (tests/proved.sh)
#   HOURLOG_PROGRAM the session program (else it is built; empty: left out)
#   HOURLOG_ROUNDS  makes the comparison so many times as long (1)
#   HOURLOG_SEED    plays one seed of the comparison alone
#
# A byte that the library reads or writes outside a slice it is lent is seen
#   - in the comparison: each call is made on memory that ends, and once more on
#     memory that starts, at inaccessible pages. The library is the one that is
#     shipped, and any step outside faults (tests/second/src/lent.rs);
#   - in the build with AddressSanitizer: the library is compiled anew from its
#     proved code with a check in front of each load and store
#     (tests/instrumented.sh), and lent exactly sized heap blocks by the
#     comparison, static arrays by the C example.
# Both first try themselves on buffers that lack one element ('steps outside').
set -eu

folder=$(dirname "$0")
HOURLOG_LIB=$("$folder/library.sh")
export HOURLOG_LIB
if [ -n "${HOURLOG_PROGRAM:-}" ]; then
    HOURLOG_PROGRAM=$(cd "$(dirname "$HOURLOG_PROGRAM")" && pwd)/$(basename "$HOURLOG_PROGRAM")
fi
cd "$folder/.."
proved=$(tests/proved.sh)
if [ -z "${HOURLOG_PROGRAM+given}" ]; then
    echo "== the session program"
    HOURLOG_PROGRAM=$PWD/crates/hourlog/out/hourlog
    # the gate leaves it beside the libraries
    [ "$proved" = kept ] && [ -x "$HOURLOG_PROGRAM" ] || (cd crates/hourlog && rt run </dev/null)
fi

out=target/outside
instrumented=$PWD/target/instrumented
mkdir -p "$out"

# build NAME LIBRARY-FOLDER COMPILER-AND-FLAGS.. SOURCE: one program over header
# and library.
build() {
    name=$1
    library=$2
    shift 2
    "$@" -Wall -Wextra -Wpedantic -Werror -Iinclude -L"$library" -o "$out/$name" -lhourlog_c
}

# transcript PROGRAM: the example must print what it is expected to.
transcript() {
    "$out/$1" "$out/$1.image" >"$out/$1.printed"
    diff examples/board.expected "$out/$1.printed"
    echo "example ($1): transcript as expected"
}

# over_and_back PROGRAM: a book of five hours, ten coins in the first, 00 10; its
# image, the book of that, its image again; then a digit of 10, and an image with a
# count of 10,000 (e = 2, one page: 10,000 stands thrice in its code).
over_and_back() {
    way=$out/$1
    printf '\000\020\001\143\000\000\231\231\000\020' >"$way.old"
    printf '\000\012' >"$way.wrong"
    printf '\001\002\000\000\001\000\000\000\020\047\000\000\066\000\000\000\000\000\000\000\234\102\161\011\304\000\000' >"$way.wide"
    {
        "$way" in "$way.old" 2 "$way.image"
        "$way" out "$way.image" "$way.book"
        "$way" in "$way.book" 2 "$way.again"
        ! "$way" in "$way.wrong" 2 "$way.none"
        ! "$way" out "$way.wide" "$way.none"
    } >"$way.printed"
    diff examples/book.expected "$way.printed"
    cmp "$way.old" "$way.book"
    cmp "$way.image" "$way.again"
    test ! -e "$way.none"
    echo "example ($1): over and back"
}

# build_second CARGO-FLAGS..: the comparison's program.
build_second() {
    cargo build --quiet --offline --release --manifest-path tests/second/Cargo.toml "$@"
}

compare() {
    echo "== second implementation"
    build_second --target-dir target/second
    program=target/second/release/second
    $program self-test
    $program outside
    $program
    if [ -n "$HOURLOG_PROGRAM" ]; then
        $program program "$HOURLOG_PROGRAM"
        tests/sessions "$HOURLOG_PROGRAM" $program
    fi
}

# Whoever compiles with more warnings gets none from the header; the answer of a
# call that is passed over is one.
from_c() {
    echo "== C example and header"
    strict="-O2 -Wconversion -Wsign-conversion"
    for standard in c99 c11; do
        build board-$standard "$HOURLOG_LIB" gcc -std=$standard $strict examples/board.c examples/kept.c
        transcript board-$standard
    done
    build board-c++17 "$HOURLOG_LIB" g++ -std=c++17 $strict -x c++ examples/board.c examples/kept.c
    transcript board-c++17
    build book-c99 "$HOURLOG_LIB" gcc -std=c99 $strict examples/book.c
    over_and_back book-c99
    build book-c++17 "$HOURLOG_LIB" g++ -std=c++17 $strict -x c++ examples/book.c
    over_and_back book-c++17
    for standard in c++11 c++17; do
        build header-$standard "$HOURLOG_LIB" g++ -std=$standard $strict -Wold-style-cast tests/header.cpp
    done
    "$out/header-c++11"
    tests/header_copies
    build stack "$HOURLOG_LIB" gcc -std=c99 -O2 tests/stack.c
    "$out/stack"
    # the library has the header's calls, and no other
    nm -g --defined-only "$HOURLOG_LIB/libhourlog_c.a" | sed -n 's/.* T //p' | sort >"$out/exported.txt"
    sed -n 's/^int64_t \(hourlog_[a-z_]*\)(.*/\1/p' include/hourlog.h | sort | diff - "$out/exported.txt"
    gcc -shared -Wl,--whole-archive "$HOURLOG_LIB/libhourlog_c.a" -Wl,--no-whole-archive -o "$out/hourlog.so"
    tests/sizing "$out/hourlog.so"
    echo '#include "hourlog.h"
        void passed_over(void) { hourlog_append(NULL, 0, 1); }' >"$out/passed_over.c"
    if gcc -Werror -Iinclude -c -o "$out/passed_over.o" "$out/passed_over.c" 2>"$out/passed_over.txt"; then
        echo "an answer that is passed over gets no warning"
        return 1
    fi
    grep -q 'warn_unused_result' "$out/passed_over.txt"
}

# The library as a user has it: installed, and found by pkg-config or, where that is
# missing, by what its file says.
installed() {
    echo "== installed"
    prefix=$PWD/$out/prefix
    rm -rf "$prefix"
    ./install.sh "$prefix"
    file=$prefix/lib/pkgconfig/hourlog.pc
    if command -v pkg-config >/dev/null; then
        flags=$(PKG_CONFIG_PATH=$(dirname "$file") pkg-config --cflags --libs hourlog)
    else
        flags=$(sed -n "s/^Cflags: //p; s/^Libs: //p" "$file" |
            sed "s,\${includedir},$prefix/include,; s,\${libdir},$prefix/lib,")
    fi
    gcc -std=c99 -O2 examples/board.c examples/kept.c $flags -o "$out/board-installed"
    transcript board-installed
}

# Leaks are not looked for: the library allocates nothing. KEPT is nothing, since a
# section of one's own has no red zones. A stable rustc does not offer its sanitizer
# yet: hence RUSTC_BOOTSTRAP. A seventh of the seeds is played; the shapes of the
# largest stores go by sixths, so all are met.
sanitised() {
    echo "== with AddressSanitizer"
    export ASAN_OPTIONS=detect_leaks=0
    tests/instrumented.sh "$instrumented"
    build board-sanitised "$instrumented" gcc -std=c99 -g -O1 \
        -fsanitize=address,undefined -fno-sanitize-recover=all -DKEPT= examples/board.c examples/kept.c
    transcript board-sanitised
    export HOURLOG_LIB="$instrumented" HOURLOG_SHARE=7
    export RUSTC_BOOTSTRAP=1 RUSTFLAGS=-Zsanitizer=address
    host=x86_64-unknown-linux-gnu
    build_second --target-dir target/second-sanitised --target $host --features heap
    program=target/second-sanitised/$host/release/second
    $program outside
    $program
}

# Side by side, for the two cores.
(sanitised) >"$out/sanitised.txt" 2>&1 &
sanitised=$!
(
    compare
    from_c
    installed
    echo "== the reserve of a page, counted"
    tests/reserve_twice.sh "$HOURLOG_LIB"
) &
status=0
wait $! || status=$?
wait $sanitised || status=$?
cat "$out/sanitised.txt"
if [ $status -ne 0 ]; then
    echo "outside tests: FAILED" >&2
    exit $status
fi
echo "outside tests: all good"
