#!/usr/bin/env bash
# How fast a file is read as records, next to plain Rust. Needs rustc and the kit's rt. It works in a folder of its own.
set -eu
top=$(cd "$(dirname "$0")/../.." && pwd)
work=${1:-$(mktemp -d)}
mkdir -p "$work/crates/read/src"
for crate in outside marc_types naco_form heading_fields iso2709_record marc8_latin marc_stream entry_record reading; do
    rm -rf "$work/crates/$crate"
    cp -r "$top/crates/$crate" "$work/crates/"
    rm -rf "$work/crates/$crate/out" "$work/crates/$crate/must-fail"
done
cp "$top/bench/reading/read.rt.txt" "$work/crates/read/src/main.rt"
cp "$top/HANDLES" "$work/"
grep -E '^(marc_types|outside|naco_form|heading_fields|iso2709_record|marc8_latin|marc_stream|entry_record|reading):' "$top/crates.txt" >"$work/crates.txt"
echo 'read: reading marc_stream marc_types outside' >>"$work/crates.txt"
rustc -O --edition 2024 -o "$work/read_rust" "$top/bench/reading/read.rs"
for kind in small large; do
    [ -f "$work/$kind.mrc" ] || "$work/read_rust" make "$kind" "$work/$kind.mrc"
done
cd "$work/crates/read"
for _ in 1 2 3; do
    for kind in small large; do
        rt run -- "$work/$kind.mrc" 2>/dev/null | grep best
        "$work/read_rust" "$work/$kind.mrc"
    done
done
