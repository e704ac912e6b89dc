#!/bin/sh
# Checks that each program gives the worked cases A to J of document 01, word for word.
# usage: worked.sh [COMMAND ..]   (by default the Rust oracle, built before, and the model)
here=$(cd "$(dirname "$0")" && pwd)
[ $# -gt 0 ] || set -- "$here/target/release/oracle" "python3 $here/model"
bad=0
for command in "$@"; do
    for case in A B C D E F G H I J; do
        if ! $command <"$here/worked/$case.in" | cmp -s - "$here/worked/$case.out"; then
            echo "case $case differs: $command"
            bad=1
        fi
    done
done
[ $bad = 0 ] && echo "worked cases A to J: as written"
exit $bad
