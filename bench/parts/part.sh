#!/usr/bin/env bash
# The job of one part: bench/parts/part.sh PROGRAM PART CODE FILES
# PART counts from 0; FILES is how many files were cut. It leaves part.PART.exp and part.PART.rep. It begins with a fresh copy of none.jnl, so that an engine may
# kill it and begin it again.
set -eu
program=$1 part=$2 code=$3 files=$4
cp none.jnl "part.$part.jnl"
words=()
for file in $(seq 0 $((files - 1))); do words+=("$code=cut.$part.$file.mrc"); done
"$program" large load "part.$part.jnl" "${words[@]}" || [ $? -eq 1 ]
"$program" large export "part.$part.jnl" "part.$part.exp"
"$program" large report "part.$part.jnl" "part.$part.rep"
