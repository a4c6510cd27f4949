#!/bin/sh
# Sees to it that what the C library rests on is proved as it stands, and lies in crates/NAME/out/rlib.
#
# usage: tests/proved.sh        prints 'kept' where it is what the last gate proved and left there, else 'made'
#        tests/proved.sh sum    prints a checksum of all that a proof reads
#
# rt ci leaves the libraries that it proves, but where an earlier command's lay, it puts those back; rt lib proves anew what rt ci alone has
# proved. So .ci/run notes in target/proved the checksum of what it left. As long as it stands there, and no other command has made a library
# since (rt marks those by a file 'stamp'), nothing is proved here; else rt lib proves what has changed.
set -eu

cd "$(dirname "$0")/.."
command -v rt >/dev/null || { echo "rt, the Rattle kit, is not on the PATH" >&2; exit 1; }

sum() {
    {
        rt version
        cat crates.txt
        find crates -name out -prune -o -type f \( -path '*/src/*' -o -path '*/specs/*' -o -path '*/proofs/*' \) -exec sha256sum {} + | sort
    } | sha256sum
}

# The crates below the C library.
below() {
    awk -F: '
        function walk(crate, used, many, i) {
            many = split(uses[crate], used, " ")
            for (i = 1; i <= many; i++) {
                if ((used[i] in uses) && !seen[used[i]]++) {
                    walk(used[i])
                    print used[i]
                }
            }
        }
        !/^#/ && NF > 1 { split($1, words, " "); uses[words[1]] = $2 }
        END { walk("hourlog_c_c") }' crates.txt
}

is_kept() {
    [ "$(cat target/proved 2>/dev/null)" = "$(sum)" ] || return 1
    for crate in $(below); do
        [ -f "crates/$crate/out/rlib/$crate.rlib/format" ] && [ ! -e "crates/$crate/out/rlib/stamp" ] || return 1
    done
}

if [ "${1:-}" = sum ]; then
    sum
elif is_kept; then
    echo kept
else
    mkdir -p target
    log=$PWD/target/proved.txt
    rm -f target/proved.done
    { (cd crates/hourlog_c_c && rt lib) 2>&1 && : >target/proved.done; } | tee "$log" | sed -un 's/^rt: chose --jobs [0-9]* for /proving /p' >&2
    [ -f target/proved.done ] || { tail -n 20 "$log" >&2; exit 1; }
    echo made
fi
