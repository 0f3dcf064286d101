#!/bin/bash
# sizes.sh PROGRAM FOLDER COUNT..: made workloads of these sizes through pass, load, export and report, each with its time and its
# largest memory, and next to them yaz-marcdump, which reads the same records and writes them again.
# It ends with 1 where the exports of pass and export differ, or where yaz writes other bytes.
set -u
program=$(realpath "$1")
folder=$2
shift 2
mkdir -p "$folder" && cd "$folder" || exit 1
status=0

timed() {
    local name=$1
    shift
    /usr/bin/time -f "$name %e s, processor %U + %S s, %M KB" "$@" 2>&1 >told | tail -1
}

for count in "$@"; do
    echo "== $count records"
    rm -f journal passed exported reported
    timed "make" "$program" make 7 "$count" file.mrc
    echo "the file has $(stat -c %s file.mrc) bytes"
    timed "pass" "$program" pass passed ULIB=file.mrc
    tail -1 told
    timed "load" "$program" load journal ULIB=file.mrc
    timed "export" "$program" export journal exported
    timed "report" "$program" report journal reported
    tail -1 reported
    cmp passed exported || status=1
    timed "yaz, of the file" yaz-marcdump -i marc -o marc file.mrc
    timed "yaz, of the export" yaz-marcdump -i marc -o marc passed
    cmp told passed || status=1
done
exit $status
