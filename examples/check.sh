#!/bin/sh
# Gives each example's tables to a program and compares what it prints.
# usage: check.sh GENLIST   (a command that reads one text on standard input)
[ $# = 1 ] || { sed -n '2,3s/^# //p' "$0"; exit 2; }
here=$(cd "$(dirname "$0")" && pwd)
count=0
bad=0
for given in "$here"/*.in; do
    count=$((count + 1))
    if ! $1 <"$given" | cmp -s - "${given%.in}.out"; then
        echo "differs: ${given##*/}"
        bad=$((bad + 1))
    fi
done
echo "$((count - bad)) of $count examples alike"
[ $bad = 0 ]
