#!/usr/bin/env bash
# Four readers read exports of union_cat and write them back, and yaz converts MARC-8 next to it.
# bench/interop/run.sh [PROGRAM [FOLDER [RECORDS]]]
# It ends with 1 where a reader writes another file. A reader that isn't there is left out.
# Debian packages: yaz libmarc-record-perl libcatmandu-marc-perl libmarc4j-java, and a JDK.
set -u
here=$(cd "$(dirname "$0")" && pwd)
top=$(cd "$here/../.." && pwd)
program=$(realpath "${1:-$top/crates/union_cat/out/union_cat}")
work=${2:-$(mktemp -d)}
records=${3:-1000}
mkdir -p "$work"
jars=$(printf '%s:' /usr/share/java/marc4j*.jar)
differ=0

# compare NAME READER THEIRS OURS
compare() {
    if cmp -s "$4" "$3"; then echo "$1, $2: same"; return; fi
    differ=1
    if [ ! -s "$3" ]; then echo "$1, $2: nothing was written"; return; fi
    echo "$1, $2: $(python3 "$here/differ.py" "$4" "$3")"
}

# Each reader that is there writes one export back.
readers() {
    local name=$1 ours=$2
    rm -f "$ours".*
    if command -v yaz-marcdump >/dev/null; then
        yaz-marcdump -i marc -o marc "$ours" >"$ours.yaz" 2>"$ours.yaz.log"
        compare "$name" yaz-marcdump "$ours.yaz" "$ours"
    fi
    if perl -MMARC::Record -e1 2>/dev/null; then
        perl "$here/write_back.pl" "$ours" "$ours.perl" >"$ours.perl.log" 2>&1
        compare "$name" MARC::Record "$ours.perl" "$ours"
    fi
    if command -v catmandu >/dev/null; then
        for type in ISO RAW; do
            catmandu convert MARC --type $type to MARC --type ISO <"$ours" >"$ours.catmandu_$type" 2>"$ours.catmandu_$type.log"
            compare "$name" "Catmandu $type" "$ours.catmandu_$type" "$ours"
        done
    fi
    if command -v java >/dev/null && ls /usr/share/java/marc4j*.jar >/dev/null 2>&1; then
        java -cp "$jars" "$here/WriteBack.java" "$ours" "$ours.marc4j" >"$ours.marc4j.log" 2>&1
        compare "$name" marc4j "$ours.marc4j" "$ours"
    fi
}

"$program" make 7 "$records" "$work/made.mrc" >"$work/make.log" || { echo "no workload"; exit 2; }
python3 "$here/marc8.py" "$work/marc8.mrc"
for file in "$top"/crates/union_cat/data/*.mrc "$work/made.mrc" "$work/marc8.mrc"; do
    name=$(basename "$file" .mrc)
    "$program" pass "$work/$name.out" "ULIB=$file" >"$work/$name.console"
    [ $? -le 1 ] || { echo "$name: union_cat failed"; exit 2; }
    tail -n 1 "$work/$name.console"
    readers "$name" "$work/$name.out"
done

# Through a journal the same comes out.
rm -f "$work/made.jnl"
"$program" load "$work/made.jnl" "ULIB=$work/made.mrc" >"$work/load.log" && "$program" export "$work/made.jnl" "$work/made.exp"
compare "made, from a journal" export "$work/made.exp" "$work/made.out"

# MARC-8: yaz converts the same records, and sets leader byte 9.
if command -v yaz-marcdump >/dev/null; then
    yaz-marcdump -i marc -o marc -f marc-8 -t utf-8 -l 9=97 "$work/marc8.mrc" >"$work/marc8.yaz" 2>"$work/marc8.yaz.log"
    grep -v accepted "$work/marc8.console"
    echo "marc8, converted by yaz: $(python3 "$here/differ.py" "$work/marc8.out" "$work/marc8.yaz")"
fi
exit $differ
