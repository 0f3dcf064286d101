#!/usr/bin/env bash
# Times the table of the match report next to plain Rust, with the memory of each: bench/match_report/run.sh [FOLDER [COUNT]]
# The folder, a new one where none is named, keeps the copy of the crates that the program is built from. It needs rustc, the kit's rt and /usr/bin/time.
set -euo pipefail
here=$(cd "$(dirname "$0")" && pwd)
top=$here/../..
work=${1:-$(mktemp -d)}
count=${2:-1000000}
crates='marc_types packed_keys outside outside_mem naco_form heading_fields iso2709_record marc8_latin marc_stream entry_record catalogue_rules reading file_entries match_report'
mkdir -p "$work/crates/match_bench/src"
: >"$work/crates.txt"
for crate in $crates; do
    rm -rf "$work/crates/$crate"
    cp -r "$top/crates/$crate" "$work/crates/"
    rm -rf "$work/crates/$crate/out" "$work/crates/$crate/must-fail"
done
grep -E "^(${crates// /|}):" "$top/crates.txt" >"$work/crates.txt"
cp "$top/HANDLES" "$work/"
cp "$here/main.rt.txt" "$work/crates/match_bench/src/main.rt"
echo "match_bench: match_report file_entries marc_stream reading catalogue_rules entry_record iso2709_record marc8_latin heading_fields naco_form marc_types outside outside_mem itoa" >>"$work/crates.txt"
rustc -O --edition 2024 -o "$work/plain" "$here/plain.rs"
"$work/plain" make "$count" "$work/made.mrc"
(cd "$work/crates/match_bench" && rt run >/dev/null)
uptime
for _ in 1 2 3; do
    for part in read keep; do
        /usr/bin/time -f "rattle $part: %M KB, %U s" "$work/crates/match_bench/out/match_bench" $part "$work/made.mrc"
        /usr/bin/time -f "plain $part: %M KB, %U s" "$work/plain" $part "$work/made.mrc"
    done
done
