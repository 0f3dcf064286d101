#!/usr/bin/env bash
# Commits made workloads of 1,000 to 1,000,000 records to an empty catalogue, each record made as it is needed, and tells the time of
# each and the most memory: bench/catalogue_core/run.sh [FOLDER]. The folder keeps the copy of the crates. It needs the kit's rt and
# /usr/bin/time.
set -euo pipefail
here=$(cd "$(dirname "$0")" && pwd)
work=${1:-$(mktemp -d)}
mkdir -p "$work"
cp -r "$here/../../crates" "$here/../../crates.txt" "$here/../../HANDLES" "$work/"
proofs=$work/crates/commit_bench/proofs
mkdir -p "$work/crates/commit_bench/src" "$proofs/commit_all" "$proofs/count_workload"
cp "$here/main.rt.txt" "$work/crates/commit_bench/src/main.rt"
cp "$here/commit_all.antt.txt" "$proofs/commit_all/Invariants.antt"
cp "$here/count_workload.antt.txt" "$proofs/count_workload/Invariants.antt"
echo "commit_bench: catalogue_core plain_commands catalogue_rules entry_record marc_types" >>"$work/crates.txt"
cd "$work/crates/commit_bench"
rt run >/dev/null
/usr/bin/time -f "%e s, %M KB" ./out/commit_bench
