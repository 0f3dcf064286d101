#!/usr/bin/env bash
# A catalogue in parts as jobs of GNU parallel: bench/parts/parallel.sh PROGRAM N CODE 'AUTHORITIES ..' FILE ..
# As slurm.sh, on this machine; a part that dies is begun again, at most twice. parts.log has a line for each part.
set -eu
program=$(realpath "$1") count=$2 code=$3
files=$(($# - 4))
here=$(cd "$(dirname "$0")" && pwd)
"$here/first.sh" "$program" "${@:2}"
seq 0 $((count - 1)) | parallel --will-cite --quote --jobs "$count" --retries 3 --joblog parts.log "$here/part.sh" "$program" '{}' "$code" "$files"
"$here/last.sh" "$count"
