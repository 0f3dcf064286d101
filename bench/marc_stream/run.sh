#!/usr/bin/env bash
# How fast a file is cut into pieces, next to plain Rust. Needs rustc and the kit's rt. It works in a folder of its own.
set -eu
top=$(cd "$(dirname "$0")/../.." && pwd)
work=${1:-$(mktemp -d)}
mkdir -p "$work/crates/cut/src"
for crate in outside marc_types marc_stream; do
    rm -rf "$work/crates/$crate"
    cp -r "$top/crates/$crate" "$work/crates/"
    rm -rf "$work/crates/$crate/out" "$work/crates/$crate/must-fail"
done
cp "$top/bench/marc_stream/cut.rt.txt" "$work/crates/cut/src/main.rt"
cp "$top/HANDLES" "$work/"
printf 'marc_types:\noutside:\nmarc_stream: outside marc_types memchr\ncut: marc_stream marc_types outside\n' >"$work/crates.txt"
rustc -O --edition 2024 -o "$work/cut_rust" "$top/bench/marc_stream/cut.rs"
[ -f "$work/records.mrc" ] || "$work/cut_rust" make "$work/records.mrc"
cd "$work/crates/cut"
for _ in 1 2 3; do
    rt run -- "$work/records.mrc" 2>/dev/null | sed -n 's/^best/rattle: best/p'
    "$work/cut_rust" "$work/records.mrc" | grep best
done
