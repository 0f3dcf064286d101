#!/usr/bin/env bash
# The first job of a catalogue in parts: bench/parts/first.sh PROGRAM N CODE 'AUTHORITIES ..' FILE ..
# Loads the files of authorities one after the other into none.jnl, the journal that each part begins with, and cuts the others into N parts. docs/SCALE.md says
# why that order is one order for all. Killed and begun again, it begins anew.
set -eu
program=$1 count=$2 code=$3
read -ra authorities <<<"$4"
shift 4
here=$(cd "$(dirname "$0")" && pwd)
rm -f none.jnl cut.*
for file in "${authorities[@]}"; do
    "$program" large load none.jnl "$code=$file" || [ $? -eq 1 ]
done
"$program" large report none.jnl none.rep
words=()
for file in "$@"; do words+=("$code=$file"); done
python3 "$here/parts.py" split "$count" cut "${words[@]}"
