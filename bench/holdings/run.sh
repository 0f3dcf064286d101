#!/usr/bin/env bash
# Times `holdings` next to plain Rust that attaches the same holdings to an export, and compares what both write:
# bench/holdings/run.sh PROGRAM FOLDER RECORDS HOLDINGS. What the program takes for the catalogue is what `export` takes.
# It ends with 1 where the outputs differ. It needs rustc and /usr/bin/time.
set -euo pipefail
here=$(cd "$(dirname "$0")" && pwd)
program=$(realpath "$1")
mkdir -p "$2" && cd "$2"
rustc -O --edition 2024 -o plain "$here/plain.rs"
rm -f journal
"$program" make 7 "$3" file.mrc
"$program" load journal UCAT=file.mrc | tail -1
"$program" export journal exported
./plain make "$4" exported held.mrc
echo "the holdings have $(stat -c %s held.mrc) bytes"
for _ in 1 2 3; do
    /usr/bin/time -f "export: %U + %S s, %M KB" "$program" export journal exported
    /usr/bin/time -f "holdings: %U + %S s, %M KB" "$program" holdings journal out rest UCAT=held.mrc
    /usr/bin/time -f "plain: %U + %S s, %M KB" ./plain attach exported held.mrc plain_out plain_rest
done
cmp out plain_out && cmp rest plain_rest
