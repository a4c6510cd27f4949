#!/bin/sh
# Builds the library's archive from the libraries that tests/proved.sh sees to, its LLVM module compiled by another program than the kit's clang.
#
# usage: tests/recompiled.sh CLANG FOLDER
#   CLANG    is called with the kit's clang and FOLDER before what rattle gives clang; 'kit' for the kit's clang itself
#   FOLDER   gets libhourlog_c.a, and build.txt with what rattle said, which is printed if the build fails
#
# rattle hands the module to the clang of the folder that its option --toolchain names, and no environment. Here that folder is the kit's, link
# by link, but for clang. It lies outside the repository, in which rt ci refuses links.
set -eu

usage="usage: tests/recompiled.sh CLANG FOLDER"
clang=${1:?$usage}
folder=${2:?$usage}
[ "$clang" = kit ] || clang=$(readlink -f "$clang")
mkdir -p "$folder"
folder=$(cd "$folder" && pwd)
cd "$(dirname "$0")/.."

kit=$(dirname "$(dirname "$(readlink -f "$(command -v rt)")")")
tools=$kit/toolchain
if [ "$clang" != kit ]; then
    tools=$(mktemp -d)
    trap 'rm -rf "$tools"' EXIT
    mkdir "$tools/bin"
    ln -s "$kit/toolchain/lib" "$tools/lib"
    ln -s "$kit/toolchain/bin/ld.lld" "$kit/toolchain/bin/llvm-ar" "$tools/bin"
    printf '#!/bin/sh\nexec "%s" "%s" "%s" "$@"\n' "$clang" "$kit/toolchain/bin/clang" "$folder" >"$tools/bin/clang"
    chmod +x "$tools/bin/clang"
fi

libraries=
for crate in $(sed -n 's/^hourlog_c_c staticlib: *//p' crates.txt); do
    libraries="$libraries --extern $crate=crates/$crate/out/rlib/$crate.rlib"
done
for each in crates/*/out/rlib; do
    libraries="$libraries -L dependency=$each"
done
say=$folder/build.txt
if ! "$kit/bin/rattle" build --crate-name hourlog_c_c --crate-type staticlib crates/hourlog_c_c/src/lib.rt \
    --extern "std=$kit/rlibs/std.rlib" $libraries -L "dependency=$kit/rlibs" \
    --antt-project "$kit/rattle/logic/antt-project.json" --logic-built "$kit/logic_built" \
    --backend llvm --toolchain "$tools" -o "$folder/libhourlog_c.a" >"$say" 2>&1; then
    cat "$say" >&2
    exit 1
fi
