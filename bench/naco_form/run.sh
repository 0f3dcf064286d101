#!/usr/bin/env bash
# Prints comparison texts a second of `naco_form` and of a plain Rust program of the same work, on ASCII headings and on
# headings with accents: the best of five rounds. Works in a folder of its own, which it removes.
set -euo pipefail
here=$(cd "$(dirname "$0")" && pwd)
top=$(cd "$here/../.." && pwd)
work=$(mktemp -d)
trap 'rm -rf "$work"' EXIT

mkdir -p "$work/crates/naco_bench/src"
for crate in marc_types naco_form; do
    mkdir "$work/crates/$crate"
    cp -r "$top/crates/$crate/src" "$top/crates/$crate/specs" "$top/crates/$crate/proofs" "$work/crates/$crate/"
    grep "^$crate:" "$top/crates.txt" >>"$work/crates.txt"
done
cp "$here/program.rt.txt" "$work/crates/naco_bench/src/main.rt"
echo "naco_bench: anyhow $(grep '^naco_form:' "$top/crates.txt" | cut -d: -f2) naco_form" >>"$work/crates.txt"
(cd "$work/crates/naco_bench" && rt run </dev/null >"$work/build.log" 2>&1) || { cat "$work/build.log"; exit 1; }

python3 "$here/tables.py" >"$work/tables.rs"
cp "$here/plain.rs" "$work/"
rustc -O --edition 2024 -o "$work/plain" "$work/plain.rs"

best() {
    "$1" <"$2" | awk 'NR == 1 || $2 < least { least = $2 } { total = $1 } END { print total, least }'
}

printf '%-8s %9s %14s %14s %6s\n' headings count naco_form 'plain Rust' ratio
for case in "ascii 2000000" "accents 300000"; do
    set -- $case
    python3 "$here/headings.py" "$1" "$2" >"$work/headings"
    read -r proved_total proved < <(best "$work/crates/naco_bench/out/naco_bench" "$work/headings")
    read -r plain_total plain < <(best "$work/plain" "$work/headings")
    [ "$proved_total" = "$plain_total" ] || { echo "the two programs differ on $1"; exit 1; }
    awk -v name="$1" -v count="$2" -v proved="$proved" -v plain="$plain" \
        'BEGIN { printf "%-8s %9d %12.0f/s %12.0f/s %6.2f\n", name, count, count / proved * 1e9, count / plain * 1e9, proved / plain }'
done
