#!/bin/sh
# Counts instructions by callgrind, inside one call, and prints a table. usage: count.sh [SHAPE ..]
here=$(cd "$(dirname "$0")" && pwd)
[ $# -gt 0 ] || set -- flat deep loops functions constants names mix
cargo build --manifest-path "$here/Cargo.toml" --release --offline -q || exit 1
out=$(mktemp)
trap 'rm -f "$out"' EXIT

# The work inside `counted` of one run.
instructions() {
    valgrind --tool=callgrind --toggle-collect='bench::counted' --main-stacksize=16777216 --callgrind-out-file="$out" \
        "$here/target/release/bench" --count "$1" "$2" "$3" >/dev/null 2>&1
    sed -n 's/^totals: //p' "$out"
}

echo "| shape | size | ours | Rust | Rust, tree built | ours / Rust | ours / built |"
echo "|---|---|---|---|---|---|---|"
for shape in "$@"; do
    for size in 64 256 1024 4096; do
        ours=$(instructions ours "$shape" "$size")
        rust=$(instructions rust "$shape" "$size")
        built=$(instructions build "$shape" "$size")
        python3 -c 'import sys; a, b, c = map(int, sys.argv[3:])
print(f"| {sys.argv[1]} | {sys.argv[2]} | {a:,} | {b:,} | {c:,} | {a / b:.2f} | {a / c:.2f} |")' \
            "$shape" "$size" "$ours" "$rust" "$built"
    done
done
