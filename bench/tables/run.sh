#!/usr/bin/env bash
# Times the numbering and the tables next to plain Rust, best of five, a part at a time: bench/tables/run.sh [FOLDER]
# The folder, a new one where none is named, keeps the copy of the crates that the program is built from. It needs rustc, the kit's rt and /usr/bin/time.
set -euo pipefail
here=$(cd "$(dirname "$0")" && pwd)
top=$here/../..
work=${1:-$(mktemp -d)}
crates='marc_types numbering postings link_table wait_table form_index'
mkdir -p "$work/crates/table_bench/src"
: >"$work/crates.txt"
for crate in $crates; do
    rm -rf "$work/crates/$crate"
    cp -r "$top/crates/$crate" "$work/crates/"
    rm -rf "$work/crates/$crate/out" "$work/crates/$crate/must-fail"
    grep "^$crate:" "$top/crates.txt" >>"$work/crates.txt"
done
cp "$top/HANDLES" "$work/"
mkdir -p "$work/crates/table_bench/proofs/exchange"
cp "$here/main.rt.txt" "$work/crates/table_bench/src/main.rt"
cp "$here/exchange.antt.txt" "$work/crates/table_bench/proofs/exchange/Answers.antt"
echo 'table_bench: form_index wait_table link_table postings numbering indexmap marc_types anyhow' >>"$work/crates.txt"
rustc -O --edition 2024 -o "$work/plain" "$here/plain.rs"
(cd "$work/crates/table_bench" && rt run >/dev/null)
uptime
# before all other work where that is allowed, so that none breaks into a step
first=(chrt -f 1)
"${first[@]}" true 2>/dev/null || first=()
for _ in 1 2 3 4 5; do
    for part in 'keys 0' 'keys 1000000' 'forms 1000000' 'index 1000000' 'links 1000000' 'waits 1000000' \
        'one_form 20000' 'one_key 100000' 'one_waited 100000'; do
        # shellcheck disable=SC2086 # a part and its count
        "${first[@]}" /usr/bin/time -f "rattle $part in all: %M KB" "$work/crates/table_bench/out/table_bench" $part
        # shellcheck disable=SC2086
        "${first[@]}" /usr/bin/time -f "plain $part in all: %M KB" "$work/plain" $part
    done
    for part in 'one_key 100000 rising' 'one_waited 100000 rising'; do
        # shellcheck disable=SC2086
        "${first[@]}" "$work/crates/table_bench/out/table_bench" $part | sed 's/^rattle /rattle rising /'
    done
done >"$work/times.txt" 2>&1
uptime
# the least number of each line, in the order in which the lines first come
awk -F': ' '{
    match($2, /[0-9]+/); value = substr($2, RSTART, RLENGTH) + 0
    if (!($1 in least)) { order[++count] = $1; least[$1] = value; line[$1] = $2 }
    else if (value < least[$1]) { least[$1] = value; line[$1] = $2 }
} END { for (i = 1; i <= count; i++) print order[i] ": " line[order[i]] }' "$work/times.txt"
