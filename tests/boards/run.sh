#!/bin/sh
# The proved library on other processors, held to the one on x86-64: on emulated boards with a Cortex-M3, with an M4, with the Cortex-M0+'s
# code (on the M3, made to fault at unaligned addresses as an M0+ does, and on a Cortex-M0 with 16 KiB of memory), with an AArch64 and, where
# qemu-system-riscv32 is there, a RISC-V; as WebAssembly in node. And a board whose power fails. Two to three minutes.
#
# usage: tests/boards/run.sh [tools]
#   tools             only sees to it that the tools are there: what is missing is installed, on Debian as root
#   HOURLOG_BOARDS=0  leaves all of it out
#   HOURLOG_LIB       the folder that holds libhourlog_c.a of x86-64 (else it is built)
#   HOURLOG_CUTS      how often power fails; HOURLOG_SEED repeats a run (tests/boards/power)
#
# What is compared: document 01's session and the lines of crates/hourlog/stdin, by the program that stands in for `hourlog`; the C example;
# some ten thousand calls, answer by answer and byte by byte. The stack of each call is held to include/hourlog.h. The figures that are
# measured on the way are left in target/boards/figures.txt.
set -eu

cd "$(dirname "$0")/../.."
if [ "${HOURLOG_BOARDS:-1}" = 0 ]; then
    echo "boards: left out (HOURLOG_BOARDS=0)"
    exit 0
fi
out=$PWD/target/boards
mkdir -p "$out"

fail() {
    echo "boards: FAILED: $*" >&2
    exit 1
}

# ---- tools

# The Debian packages that are missing.
missing() {
    command -v gcc >/dev/null || printf ' gcc'
    command -v python3 >/dev/null || printf ' python3'
    command -v arm-none-eabi-gcc >/dev/null || printf ' gcc-arm-none-eabi'
    case $(arm-none-eabi-gcc -print-file-name=rdimon.specs 2>/dev/null) in */*) ;; *) printf ' libnewlib-arm-none-eabi' ;; esac
    command -v qemu-system-arm >/dev/null && command -v qemu-system-aarch64 >/dev/null || printf ' qemu-system-arm'
    command -v node >/dev/null || printf ' nodejs'
}

install_missing() {
    packages=$(missing)
    [ -n "$packages" ] || return 0
    echo "boards: installing$packages"
    if [ "$(id -u)" = 0 ] && command -v apt-get >/dev/null; then
        export DEBIAN_FRONTEND=noninteractive
        { apt-get update && apt-get install -y --no-install-recommends $packages; } >"$out/install.txt" 2>&1 || true
    fi
    packages=$(missing)
    [ -z "$packages" ] ||
        fail "these Debian packages are missing and could not be installed here:$packages (HOURLOG_BOARDS=0 leaves the boards out)"
}

# ---- one target

# same WHAT EXPECTED GOT: the two files must be one; else their first difference is told.
same() {
    if ! cmp -s "$2" "$3"; then
        diff "$2" "$3" 2>&1 | head -n 6 >&2
        fail "$target: $1 is not as expected ($3)"
    fi
}

# on_board WHAT EXPECTED SETTINGS SOURCE..: what a program prints on the board; SETTINGS are NAME=VALUE for boards/run, or none.
on_board() {
    what=$1
    expected=$2
    settings=$3
    shift 3
    env $settings timeout 300 boards/run "$target" "$folder" "$@" >"$folder/$what.txt" 2>"$folder/$what.said" || {
        tail -n 5 "$folder/$what.txt" "$folder/$what.said" >&2
        fail "$target: $what did not run to its end"
    }
    same "$what" "$expected" "$folder/$what.txt"
}

# A program that steps outside the lent memory must fault.
faults_outside() {
    for step in "$@"; do
        said=$folder/outside.txt
        if HOURLOG_CFLAGS=-DSTEP_OUTSIDE="$step" timeout 60 boards/run "$target" "$folder" tests/boards/calls.c >"$said" 2>&1; then
            fail "$target: a step outside the lent memory did not fault"
        fi
        grep -q 'the board faulted' "$said" || fail "$target: a step outside the lent memory ended in: $(tail -n 1 "$said")"
    done
}

run_all() {
    on_board session tests/boards/session.out "" tests/boards/session.c "$out/session_document.c"
    on_board lines crates/hourlog/stdout "" tests/boards/session.c "$out/session_lines.c"
    on_board example examples/board.expected "" examples/board.c examples/kept.c -- "$folder/board.image"
    on_board calls "$out/calls.expected" "" tests/boards/calls.c
    case $target in
    cortex-m*)
        same image "$out/board.image" "$folder/board.image"
        faults_outside LENT -1
        ;;
    *) faults_outside LENT ;;
    esac
    case $target in
    cortex-m0plus)
        on_board session-in-16-KiB tests/boards/session.out "HOURLOG_MACHINE=microbit HOURLOG_CFLAGS=-DSTORE_BYTES=2048" \
            tests/boards/session.c "$out/session_document.c"
        ;;
    wasm32) on_board calls-at-4-GiB "$out/calls.expected" HOURLOG_MEMORY=4294967296 tests/boards/calls.c ;;
    esac
}

one_target() {
    target=$1
    folder=$out/$target
    boards/build "$target" "$folder" || exit 1
    runs=1
    [ "$target" != riscv32 ] || command -v qemu-system-riscv32 >/dev/null || runs=0
    [ $runs = 0 ] || run_all
    boards/measure "$target" "$folder" >"$folder/figures.txt" 2>&1 || { cat "$folder/figures.txt" >&2; fail "$target: boards/measure"; }
    code=$(sed -n 's/^code: //p' "$folder/figures.txt")
    if [ $runs = 1 ]; then
        echo "boards: $target, $code bytes of code: session, example and $(wc -l <"$out/calls.expected") calls as on x86-64"
    else
        echo "boards: $target, $code bytes of code: compiled, not run (qemu-system-riscv32, of Debian's qemu-system-misc, is not here)"
    fi
}

# ---- x86-64, which says what is to come out

# A file as C text.
as_c() {
    echo 'const unsigned char session_input[] = {'
    od -An -v -tu1 "$1" | sed 's/\([0-9]\{1,\}\)/\1,/g'
    echo '0};'
    echo 'const unsigned session_length = sizeof session_input - 1;'
}

expect() {
    library=$(tests/library.sh)
    as_c tests/boards/session.in >"$out/session_document.c"
    as_c crates/hourlog/stdin >"$out/session_lines.c"
    gcc -std=c99 -O2 -Iinclude tests/boards/calls.c -L"$library" -lhourlog_c -o "$out/calls"
    "$out/calls" >"$out/calls.expected"
    gcc -std=c99 -O2 -Iinclude examples/board.c examples/kept.c -L"$library" -lhourlog_c -o "$out/board"
    "$out/board" "$out/board.image" >/dev/null
    gcc -shared -Wl,--whole-archive "$library/libhourlog_c.a" -Wl,--no-whole-archive -o "$out/hourlog.so"
    for call in $(nm "$library/libhourlog_c.a" | awk '$2 == "T" { print $3 }'); do
        grep -q "$call(" tests/boards/calls.c || fail "tests/boards/calls.c does not make the call $call"
        grep -q "$call(" tests/stack.c || fail "tests/stack.c does not measure the call $call"
    done
    if grep -n '\<size_t [a-z_]*[,)]' include/hourlog.h >&2; then
        fail "include/hourlog.h: a call takes a size_t, which has 32 bits on a board; it is to take an hourlog_size"
    fi
}

install_missing
[ "${1:-}" != tools ] || exit 0
boards/module >/dev/null
expect
(one_target cortex-m3 && timeout 3600 tests/boards/power "$out/cortex-m3" "$out/hourlog.so" && one_target cortex-m0plus) &
others=$!
status=0
(for each in cortex-m4 aarch64 riscv32 wasm32; do one_target $each; done) || status=$?
wait $others || status=$?
[ $status -eq 0 ] || exit $status
for each in cortex-m0plus cortex-m3 cortex-m4 riscv32 aarch64 wasm32; do
    sed "s/^/$each: /" "$out/$each/figures.txt"
done >"$out/figures.txt"
echo "boards: all good (figures: target/boards/figures.txt)"
