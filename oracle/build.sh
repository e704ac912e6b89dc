#!/bin/sh
# Builds the oracle, offline: copies and edits the Rust sources, then cargo.
# usage: build.sh [PATH]
# PATH holds src/compiler of lucia-lang; else LUCIA_SRC does, else ../shared/docs/src beside the
# repository.
set -e
here=$(cd "$(dirname "$0")" && pwd)
sources=${1:-${LUCIA_SRC:-$here/../../shared/docs/src}}
python3 "$here/prepare.py" "$sources"
cargo build --manifest-path "$here/Cargo.toml" --release --offline -q
echo "$here/target/release/oracle"
