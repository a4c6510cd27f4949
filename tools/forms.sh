#!/usr/bin/env bash
# Counts in src/ the places that docs/DESIGN-PASS.md speaks of, point by point. With -l it lists them.
set -euo pipefail
cd "$(dirname "$0")/.."
list=${1:-}

# count NAME PATTERN: lines of src/ that match, comments left out.
count() {
    local found
    found=$(grep -nE "$2" crates/*/src/*.rt | grep -vE '^[^:]*:[0-9]+: *//' || true)
    printf '%5d  %s\n' "$(printf '%s' "$found" | grep -c . || true)" "$1"
    [ "$list" != -l ] || printf '%s\n' "$found" | cut -c1-150 | sed 's/^/         /'
}

echo "1 Option, Result and enums"
count "own enums with a variant for 'no' or for a refusal" '^ +(Refused\(u32\)|Wrong|None),$'
count "structs with a flag ok beside the values" '^ +(pub )?ok: bool,$'
count "refusals as numbers" 'refusal::[A-Z_]+[;,) ]|^pub const [A-Z_]+: u32 = [0-9]+;'
count "uses of a number that stands for damage" '\bDAMAGED\b'
count "a flag beside a value that counts only with it" '^ +(pub )?strike: bool,$'
echo "2 twins"
count "functions with a twin of another type or width" 'fn (wide|smaller|larger|get2|get4|put2|put4|put_two|put_four|load4|load8|store4|store8|four_small|clear|clear_bytes|zeros)\b'
count "the buffer test of a call that writes an image" '\(out\.len\(\) as u64\) < n'
count "the soundness test of a live call" '^ +if !check\(s\) \{$'
echo "3 loops"
count "while loops" "^ *('[a-z]+: )?while "
count "for loops" "^ *('[a-z]+: )?for "
count "iterator chains and library methods over a slice" '\.(iter|iter_mut|chunks_exact|chunks|zip|fill|copy_from_slice|rotate_left|rotate_right|position|contains)\('
echo "4 written by hand"
count "least, greatest, excess" '\b(lists::)?(smaller|larger|excess)\('
count "a byte or a count made wide by an own function" '\bwide\('
echo "5 facts and parameters that travel together"
count "contracts with the fact of the table of small sums" 'Sums table\.now'
count "contracts with the fact of the table of small reserves" 'Tabled table\.now'
count "contracts with the fact of an opened image" 'Opened s\.now h'
count "contracts with the facts of an accepted image" 'accepted s\.now ≡ true'
count "contracts with the fact of a sound store" 'sound s\.(now|old) ≡ true'
count "contracts with the place of a tree" 'Lies [a-z]+\.(now|old)'
echo "6 a buffer with a length beside it"
count "functions that take a slice and how much of it counts" 'fn (mark|reach|attempt|put_hours|hours|drop_pages|copy_page|put_block|all_marked|any_carries|list_lost)\('
echo "7 a switch on which step to run"
count "a bool that says which of two steps" '\b(strike|late|up): bool'
