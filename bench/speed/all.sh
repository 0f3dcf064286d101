#!/usr/bin/env bash
# Measures what the program's speed is held to, in files in memory: bench/speed/all.sh PROGRAM [STEP ..]
# Each step prints a line for a table: medians of ROUNDS rounds (5) in turn with what stands beside it. `RECORDS=N` takes N records where a million
# is meant. All steps take an hour or two, and measure nothing right while other work runs on the machine.
#   pass      pass of a million and of a tenth, beside yaz-marcdump of the same file (Debian: yaz)
#   real      pass of records of real size, beside yaz
#   load      a million new records from 4 files, beside 1 file
#   files     a tenth of them from 64 files, beside 4
#   replace   a million entries of a quarter as many keys, beside as many new ones
#   looks     load, export, report, matches and holdings of the million, beside its pass
#   holdings  a tenth of the million with as many holdings, beside export, and beside plain Rust that attaches them (needs rustc)
#   change    a heading that records follow: time for each record
#   browse    run while a reader pages, beside run
#   quick     quick with 1,000 entries behind the checkpoint, and checkpoint, beside export; POINT's size; ten checkpoints beside one
#   verify    verify and salvage of the million's journal, beside sha256sum
#   worklist  worklist of the million, beside report, with its lines
#   pages     pass of the million with large pages of memory, where the system gives them on request, beside pass
set -euo pipefail
here=$(cd "$(dirname "$0")" && pwd)
program=$(realpath "${1:?the built program}")
shift
records=${RECORDS:-1000000}
rounds=${ROUNDS:-5}
tenth=$((records / 10))
TMPDIR=$(mktemp -d -p /dev/shm)
export TMPDIR
trap 'rm -rf "$TMPDIR"' EXIT
cd "$TMPDIR"

compare() { python3 "$here/rounds.py" --rounds "$rounds" "$@"; }

# made SEED COUNT, loaded COUNT, exported COUNT: make the file of a workload, its journal, its export, once
made() { [ -f "made.$1.$2" ] || "$program" make "$1" "$2" "made.$1.$2" >/dev/null 2>&1; }
loaded() { made 7 "$1"; [ -f "journal.$1" ] || "$program" load "journal.$1" "UCAT=made.7.$1" >/dev/null 2>&1; }
exported() { loaded "$1"; [ -f "export.$1" ] || "$program" export "journal.$1" "export.$1" >/dev/null 2>&1; }

# held RECORDS HOLDINGS: makes the holdings of an export's records
held() {
    exported "$1"
    [ -f plain ] || rustc -O --edition 2024 -o plain "$here/../holdings/plain.rs"
    [ -f "held.$1.$2" ] || ./plain make "$2" "export.$1" "held.$1.$2"
}

# shares COUNT FILES: the words of a load of the workload's file in so many shares, which it makes
shares() {
    made 7 "$1"
    python3 - "made.7.$1" "$2" <<'END'
import sys
name, files = sys.argv[1], int(sys.argv[2])
pieces = [piece + b"\x1d" for piece in open(name, "rb").read().split(b"\x1d")[:-1]]
for at in range(files):
    with open(f"{name}.{at}of{files}", "wb") as out:
        out.write(b"".join(pieces[len(pieces) * at // files : len(pieces) * (at + 1) // files]))
    print(f"UCAT={name}.{at}of{files}", end=" ")
END
}

step_pass() {
    for count in "$records" "$tenth"; do
        made 7 "$count"
        compare "$count made" "pass=$program pass out UCAT=made.7.$count" "yaz=yaz-marcdump -i marc -o marc made.7.$count >yaz.out"
    done
}

step_real() {
    local count=$((records / 5))
    python3 "$here/../union_cat/real_size.py" "$count" real
    compare "$count of real size" "pass=$program pass out UCAT=real" "yaz=yaz-marcdump -i marc -o marc real >yaz.out"
}

step_load() {
    local four
    four=$(shares "$records" 4)
    compare --records "$records" "$records new, by files" "4=rm -f j;;$program load j $four" "1=rm -f j;;$program load j UCAT=made.7.$records"
}

step_files() {
    local many four
    many=$(shares "$tenth" 64) four=$(shares "$tenth" 4)
    compare "$tenth new, by files" "64=rm -f j;;$program load j $many" "4=rm -f j;;$program load j $four"
}

step_replace() {
    local quarter=$((records / 4)) seed
    rm -f again
    for seed in 1 2 3 4; do made $seed $quarter; cat made.$seed.$quarter >>again; done
    made 7 "$records"
    compare "$records entries, load" "replaced=rm -f j;;$program load j UCAT=again" "new=rm -f j;;$program load j UCAT=made.7.$records"
}

step_looks() {
    local journal=journal.$records
    held "$records" "$tenth"
    compare "$records made" "load=rm -f j;;$program load j UCAT=made.7.$records" "export=$program export $journal out" "report=$program report $journal out" \
        "matches=$program matches $journal out" "holdings=$program holdings $journal out rest UCAT=held.$records.$tenth" \
        "pass=$program pass out UCAT=made.7.$records"
}

step_holdings() {
    held "$tenth" "$tenth"
    local command="holdings=$program holdings journal.$tenth out rest UCAT=held.$tenth.$tenth"
    compare "$tenth records and holdings" "$command" "export=$program export journal.$tenth exp"
    compare "$tenth records and holdings" "$command" "plain=./plain attach export.$tenth held.$tenth.$tenth plain_out plain_rest"
    cmp out plain_out && cmp rest plain_rest
}

step_change() { python3 "$here/../union_cat/changes.py" "$program" "$TMPDIR/changes" heading_changes; }

step_browse() { python3 "$here/../browse/pages.py" "$program" "$tenth" "$rounds" | tail -6; }

step_quick() {
    python3 "$here/../checkpoint/quick.py" "$program" "$records" "$rounds" | tail -3
    python3 "$here/../checkpoint/ten.py" "$program" "$tenth" "$rounds" | tail -2
}

step_verify() {
    loaded "$records"
    compare "journal of $records" "verify=$program verify journal.$records" "salvage=rm -f new;;$program salvage journal.$records new" "sha256=sha256sum journal.$records"
}

step_worklist() {
    loaded "$records"
    compare "journal of $records" "worklist=$program worklist journal.$records list page" "report=$program report journal.$records out"
    echo "the list has $(wc -l <list) lines"
}

step_pages() {
    made 7 "$records"
    compare "$records made" "large=GLIBC_TUNABLES=glibc.malloc.hugetlb=1 $program pass out UCAT=made.7.$records" "pass=$program pass out UCAT=made.7.$records"
}

[ $# -gt 0 ] || set -- pass real load files replace looks holdings change browse quick verify worklist pages
python3 "$here/rounds.py" --header
for step in "$@"; do
    echo "# $step"
    "step_$step"
    # the next begins with nothing in memory but the files that steps share
    find . -mindepth 1 -maxdepth 1 ! -name 'made.7.*' ! -name 'journal.*' ! -name 'export.*' ! -name 'held.*' ! -name plain -exec rm -rf {} +
done
