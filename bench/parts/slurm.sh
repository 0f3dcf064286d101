#!/usr/bin/env bash
# A catalogue in parts as jobs of Slurm: bench/parts/slurm.sh PROGRAM N CODE 'AUTHORITIES ..' FILE ..
# The files are of the library CODE, those of authorities are loaded in their order, and all jobs see the folder it is started in. docs/SCALE.md says why
# the result, whole.exp, is that of one catalogue. Prints the numbers of its three jobs; the second is an array with a task for each part.
set -eu
program=$(realpath "$1") count=$2 code=$3
files=$(($# - 4))
here=$(cd "$(dirname "$0")" && pwd)
printf -v first '%q ' "$here/first.sh" "$program" "${@:2}"
printf -v part '%q ' "$here/part.sh" "$program"

# 1: all authorities, in one order, into the journal that each part begins with
first=$(sbatch --parsable --wrap "$first")

# 2: a task for each part
each=$(sbatch --parsable --requeue --dependency=afterok:"$first" --array=0-$((count - 1)) --wrap "$part \$SLURM_ARRAY_TASK_ID $code $files")

# 3: the whole, once all parts are there
last=$(sbatch --parsable --dependency=afterok:"$each" --wrap "$here/last.sh $count")
echo "$first $each $last"
