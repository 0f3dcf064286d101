#!/usr/bin/env bash
# Rewrites 300,000 heading fields, in Rattle and in plain Rust, five times each in turn: bench/heading_fields/run.sh [FOLDER]
# The folder, a new one where none is named, keeps the copy of the crates that the program is built from.
set -euo pipefail
here=$(cd "$(dirname "$0")" && pwd)
work=${1:-$(mktemp -d)}
mkdir -p "$work/crates/rewriting_bench/src"
cp -r "$here/../../crates/marc_types" "$here/../../crates/heading_fields" "$work/crates/"
rm -rf "$work"/crates/*/out "$work"/crates/*/must-fail "$work/crates/heading_fields/src/tests.rs"
cp "$here/main.rt.txt" "$work/crates/rewriting_bench/src/main.rt"
printf 'marc_types:\nheading_fields: marc_types\nrewriting_bench: heading_fields marc_types anyhow\n' >"$work/crates.txt"
rustc -O -o "$work/plain" "$here/plain.rs"
cd "$work/crates/rewriting_bench"
for turn in 1 2 3; do
    rt run 2>/dev/null | grep '^rattle'
    "$work/plain"
done
