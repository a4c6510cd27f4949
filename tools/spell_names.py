#!/usr/bin/env python3
"""Spells this repository's own names of antt as today's Rattle spells them: words in snake case.

usage: tools/spell_names.py            at the top of the repository, once, right after the kit's port.py

It turns each name of specs/, proofs/ and the clauses of src/ that has a word in lower camel case, as numberFrom to number_from, in every
file alike, and such words in the edits of must-fail/. Names of hypotheses such as lA, one letter before capitals, stay, and so do names of
Rust, types and modules. Where a name would fall together with another one, OTHERWISE says what stands for it; else nothing is written.
"""

import os
import re
import sys

WORD = re.compile(r"""[^\s(){}.;,@"«»`]+""")
CAMEL = re.compile(r"[a-z][a-z0-9_]*[A-Z][a-z]\w*|[a-z][a-z0-9_]+[A-Z]\w*")
# Names that fall together with a name of Rust or of the library if a word is split off plainly, and what stands for each.
OTHERWISE = {
    "allMarked": "every_cell_marked",
    "answerAt": "nth_answer",
    "cellsFrom": "cells_start",
    "chainsFit": "all_chains_fit",
    "digitsIn": "digits_within",
    "entryLength": "entry_size",
    "freeFits": "free_chain_fits",
    "hoursOf": "hours_in",
    "imagePage": "page_of_image",
    "isChange": "is_change_day",
    "isDigit": "is_decimal_digit",
    "leavesAt": "leaving_index",
    "leftSum": "sum_at_left",
    "linkAfter": "nth_link",
    "lookIn": "count_in_page",
    "noRun": "no_such_run",
    "noneBefore": "none_earlier",
    "notSound": "store_not_sound",
    "ofBag": "end_of_bag",
    "ofCheck": "end_of_check",
    "ofImage": "end_of_image",
    "ofStore": "end_of_store",
    "ofStretch": "end_of_stretch",
    "pageCounts": "counts_in_page",
    "pageFits": "page_code_fits",
    "pagesOf": "page_count_of",
    "putBook": "book_put",
    "replyTo": "reply_for",
    "reserveAt": "tabled_reserve",
    "rootOf": "root_at",
    # Names of steps that port.py spelled between two forms.
    "root_Before": "root-before",
    "with_Second": "with-second",
}


def snake(word):
    return re.sub(r"(?<=[a-z0-9])_?([A-Z])", lambda m: "_" + m[1].lower(), word)


def spelled(name):
    """Returns the name with each part between dashes in snake case."""
    if name in OTHERWISE:
        return OTHERWISE[name]
    parts = [OTHERWISE.get(p, snake(p)) if CAMEL.fullmatch(p) else p for p in name.split("-")]
    return "-".join(parts)


def texts():
    for folder, folders, files in os.walk("crates"):
        folders[:] = sorted(f for f in folders if f != "out")
        for f in sorted(files):
            if f.endswith((".antt", ".rt", ".edit")):
                yield os.path.join(folder, f)


def main():
    found, words = {}, set()
    for path in texts():
        with open(path, encoding="utf-8") as f:
            found[path] = f.read()
        if not path.endswith(".edit"):
            words |= set(WORD.findall(found[path]))
    rust = set()
    for path in found:
        if path.endswith(".rt"):
            code = re.sub(r"//[^\n]*|ghost use[^;]*;|(?:requires|ensures)\s*\w*\s*\{[^}]*\}", "", found[path])
            rust |= set(re.findall(r"\w+", code))
    table = {w: spelled(w) for w in words if spelled(w) != w}
    taken = {}
    for old, new in table.items():
        taken.setdefault(new, []).append(old)
    bad = [f"{old} -> {new}" for old, new in sorted(table.items()) if new in words or new in rust or len(taken[new]) > 1]
    if bad and "--force" not in sys.argv:
        print("names that would fall together:\n" + "\n".join(bad))
        return 1
    if "--list" in sys.argv:
        print("\n".join(f"{a}\t{b}" for a, b in sorted(table.items())))
        return 0
    for path, text in found.items():
        if path.endswith(".edit"):
            table = {w: spelled(w) for w in WORD.findall(text) if spelled(w) != w} | table
        new = WORD.sub(lambda m: table.get(m[0], m[0]), text)
        if new != text:
            with open(path, "w", encoding="utf-8") as f:
                f.write(new)
    print(f"{len(table)} names turned")
    return 0


if __name__ == "__main__":
    raise SystemExit(main())
