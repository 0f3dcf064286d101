#!/bin/bash
# Turns a second in 1, 4 and 64 threads, next to std's Mutex, and the processor time while the object is held for 10 ms a turn.
# It copies the lock and main.rt.txt into a throw-away repository, and runs that unproved. It wants `rt` on the PATH.
set -e
top=$(cd "$(dirname "$0")/../.." && pwd)
work=$(mktemp -d)
trap 'rm -rf "$work"' EXIT
mkdir -p "$work/crates/lock_bench/src" "$work/crates/catalogue_lock"
for part in src specs proofs; do
    cp -r "$top/crates/catalogue_lock/$part" "$work/crates/catalogue_lock/"
done
cp "$top/HANDLES" "$work/"
cp "$top/bench/catalogue_lock/main.rt.txt" "$work/crates/lock_bench/src/main.rt"
printf 'catalogue_lock: atomic_table\nlock_bench: catalogue_lock\n' > "$work/crates.txt"
cd "$work/crates/lock_bench"
rt try
