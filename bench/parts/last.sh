#!/usr/bin/env bash
# The last job of a catalogue in N parts: bench/parts/last.sh N
# Joins what the parts came to, as whole.exp, and prints the whole's totals, as whole.totals.
set -eu
count=$1
here=$(cd "$(dirname "$0")" && pwd)
exports=() reports=()
for part in $(seq 0 $((count - 1))); do exports+=("part.$part.exp") reports+=("part.$part.rep"); done
python3 "$here/parts.py" join whole.exp "${exports[@]}"
python3 "$here/parts.py" totals none.rep "${reports[@]}" | tee whole.totals
