#!/usr/bin/env bash
# A large catalogue: bench/large/run.sh PROGRAM FOLDER [RECORDS ..]
# For each number of records (1,000,000 and 8,000,000) it writes one file of authorities and 64 of books into FOLDER, each with a seed of its own, loads the
# authorities with `large load`, then the 64 files at once, and writes export and report. It prints the time and the memory of each command, in all and a
# record, and beside the first number's. FOLDER gets some 800 bytes a record, and the machine should have 2 KB of memory a record.
# It ends with 1 where a status or a count is wrong, where a journal past the limits is taken without `large`, or where a command takes more than 1.3 times the
# time or the memory a record of the first number. It needs /usr/bin/time.
set -u
here=$(cd "$(dirname "$0")" && pwd)
program=$(realpath "${1:?the built program}")
folder=${2:?a folder}
shift 2
[ $# -gt 0 ] || set -- 1000000 8000000
files=64
most_plain=1048576
mkdir -p "$folder" && cd "$folder" || exit 2
wrong=0
declare -A first

fail() {
    echo "  WRONG: $*"
    wrong=1
}

# make_files RECORDS: an authority for some ten of them, and the counts that are due in due.txt: records, linked, ambiguous, unlinked.
make_files() {
    local names=$(($1 / 8)) authorities books
    python3 "$here/make_seeded.py" authorities $names authorities.mrc >due.txt
    authorities=$(cut -d ' ' -f 1 due.txt)
    books=$(($1 - authorities))
    seq 1 $files | xargs -P "$(nproc)" -I '{}' bash -c '
        seed={}; count=$(('$books' * seed / '$files' - '$books' * (seed - 1) / '$files'))
        python3 '"'$here/make_seeded.py'"' records $seed $count '$names' books.$seed.mrc' >>due.txt
    [ "$(wc -l <due.txt)" -eq $((files + 1)) ] || fail "files weren't written"
}

# beside NAME RECORDS SECONDS KILOBYTES: the figures a record, and next to those of the first number of records.
beside() {
    first[$1]=${first[$1]:-$2 $3 $4}
    python3 - "$@" ${first[$1]} <<'P' || fail "more than 1.3 times those of the first number"
import sys
records, seconds, kilobytes, base, base_seconds, base_kilobytes = (float(word) for word in sys.argv[2:])
time, memory = seconds / records, kilobytes * 1024 / records
print(f"{sys.argv[1]}: {seconds:.1f} s of processor, {time * 1e6:.2f} us a record; {kilobytes / 1024:.0f} MB, {memory:.0f} bytes a record;"
      f" {time / (base_seconds / base):.2f} and {memory / (base_kilobytes * 1024 / base):.2f} of the first")
sys.exit(time > 1.3 * base_seconds / base or memory > 1.3 * base_kilobytes * 1024 / base)
P
}

# timed NAME RECORDS WORD ..: runs the program, which has to end with 0; told.txt has what it tells.
timed() {
    local name=$1 records=$2 status
    shift 2
    /usr/bin/time -o time.txt -f '%U %S %M %e' "$program" "$@" >told.txt 2>errors.txt
    status=$?
    [ $status -eq 0 ] || fail "$name: status $status, $(tail -1 told.txt) $(tail -1 errors.txt)"
    read -r user system kilobytes wall < <(tail -1 time.txt)
    beside "$name" "$records" "$(python3 -c "print($user + $system)")" "$kilobytes"
    echo "  on the clock $wall s"
}

# sums: of all lines of due.txt
due() {
    awk '{ n += $1; l += $2; a += $3; u += $4 } END { print n, l, a, u }' due.txt
}

for records in "$@"; do
    echo "== $records records in $((files + 1)) files"
    rm -f -- *.mrc big.jnl big.exp big.rep due.txt
    make_files "$records"
    words=()
    for seed in $(seq 1 $files); do words+=("UCAT=books.$seed.mrc"); done
    timed authorities "$records" large load big.jnl UCAT=authorities.mrc
    timed load "$records" large load big.jnl "${words[@]}"
    told=$(sed -n 's/.*: accepted \([0-9]*\), refused 0, linked \([0-9]*\), ambiguous \([0-9]*\), unlinked \([0-9]*\),.*/\1 \2 \3 \4/p' told.txt |
        awk '{ n += $1; l += $2; a += $3; u += $4 } END { print n, l, a, u }')
    books=$(($(due | cut -d ' ' -f 1) - $(head -1 due.txt | cut -d ' ' -f 1)))
    [ "$told" = "$books $(due | cut -d ' ' -f 2-)" ] || fail "the load told $told"
    timed export "$records" large export big.jnl big.exp
    timed report "$records" large report big.jnl big.rep
    read -r all linked ambiguous unlinked < <(due)
    total="TOTAL authorities=$((all - books)) bibliographic=$books linked=$linked ambiguous=$ambiguous unlinked=$unlinked"
    [ "$(tail -1 big.rep)" = "$total" ] || fail "the report ends with $(tail -1 big.rep), and not $total"
    [ "$(tr -dc '\035' <big.exp | wc -c)" -eq "$all" ] || fail "the export hasn't $all records"
    "$program" export big.jnl plain.exp >told.txt 2>errors.txt
    status=$?
    if [ "$records" -gt $most_plain ]; then
        [ $status -eq 7 ] || fail "without \`large\` the export ends with $status, and not 7"
    else
        [ $status -eq 0 ] && cmp plain.exp big.exp || fail "without \`large\` the export ends with $status, or differs"
    fi
    rm -f plain.exp
    echo "files $(cat ./*.mrc | wc -c) bytes, journal $(stat -c %s big.jnl), export $(stat -c %s big.exp)"
done
exit $wrong
