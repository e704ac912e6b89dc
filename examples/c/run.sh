#!/bin/sh
# Builds case_a.c against the static library, runs it and compares its output with case_a.out.
# The library is in the folder LUCIA_CODEGEN_LIB, else in target/staticlib.
set -e
here=$(cd "$(dirname "$0")" && pwd)
root=$here/../..
library=${LUCIA_CODEGEN_LIB:-$root/target/staticlib}/libcodegen.a
[ -f "$library" ] || { echo "no $library: run tools/staticlib"; exit 1; }
made=$(mktemp -d)
trap 'rm -rf "$made"' EXIT
${CC:-cc} -std=c99 -Wall -Wextra -Werror -pedantic -I "$root/include" "$here/case_a.c" "$library" -o "$made/case_a"
"$made/case_a" >"$made/out"
cmp "$made/out" "$here/case_a.out"
echo "case_a.c: as written"
