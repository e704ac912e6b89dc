#!/bin/sh
# Instructions a printed decimal digit, by callgrind, of two builds of genlist (or genlist_test) on one text. usage: digits.sh BEFORE AFTER < TEXT
# BEFORE is from a commit in which `listing::text::digits` writes the digits: its own instructions are counted. Later the compiler puts the function into
# its callers, so AFTER's count is that one and the difference of the whole runs, whose listings must be the same.
dir=$(mktemp -d)
trap 'rm -rf "$dir"' EXIT
cat >"$dir/text"
for which in before after; do
    valgrind --tool=callgrind --main-stacksize=16777216 --callgrind-out-file="$dir/$which" "$1" <"$dir/text" >"$dir/$which.out" 2>/dev/null || exit 1
    shift
done
cmp "$dir/before.out" "$dir/after.out" || exit 1
callgrind_annotate --threshold=100 "$dir/before" >"$dir/functions" 2>/dev/null
python3 - "$dir" <<'END'
import pathlib
import re
import sys

dir = pathlib.Path(sys.argv[1])
listing = re.sub(r'^(\d+ const \d+ Float) \S+', r'\1', (dir / 'after.out').read_text(), flags=re.M)    # a Float has hexadecimal digits
numbers = re.findall(r'\d+', listing)
digits = sum(len(n) for n in numbers)
own = sum(int(n.replace(',', '')) for n in re.findall(r'^ *([\d,]+) .*:listing::text::digits\b', (dir / 'functions').read_text(), re.M))
before, after = (int(re.search(r'^totals: (\d+)', (dir / which).read_text(), re.M)[1]) for which in ('before', 'after'))
print(f'| {len(numbers):,} | {digits:,} | {before:,} | {after:,} | {own / digits:.1f} | {(own + after - before) / digits:.1f} |')
END
