#!/usr/bin/env bash
# Makes the slips that a tired hand makes, over real files, and compares what comes: bench/slips/walk.sh PROGRAM [FOLDER]
# Each slip has to end with its status, tell its line on standard error, and leave every file that was there as it was.
set -u
program=$(realpath "${1:?the program}")
work=${2:-$(mktemp -d)}
mkdir -p "$work" && cd "$work" || exit 2
rm -rf -- ./*
union_cat() { "$program" "$@"; }
wrong=0

# slip STATUS TEXT WORD ..: the status that is due, a part of what standard error tells, and the words.
slip() {
    local due=$1 text=$2 before after status
    shift 2
    before=$(find . -type f ! -name err ! -name out -exec sha256sum {} + | sort)
    union_cat "$@" >out 2>err
    status=$?
    after=$(find . -type f ! -name err ! -name out -exec sha256sum {} + | sort)
    [ $status -eq "$due" ] || { echo "$*: status $status, not $due"; wrong=1; }
    [ -z "$text" ] || grep -qF -- "$text" err || { echo "$*: standard error lacks: $text"; sed 's/^/    /' err; wrong=1; }
    [ "$before" = "$after" ] || { echo "$*: a file changed"; diff <(echo "$before") <(echo "$after"); wrong=1; }
}

union_cat make 7 100 made.mrc >/dev/null || exit 2
union_cat load u.jnl A=made.mrc >/dev/null 2>&1
union_cat export u.jnl all.out 2>/dev/null || exit 2

echo '# an output over a journal'
cp u.jnl copy.jnl
slip 4 'u.jnl is a journal; no output is written over it' export copy.jnl u.jnl
slip 6 '' export all.out u.jnl
slip 4 'u.jnl is a journal; no output is written over it' pass u.jnl A=made.mrc
slip 4 'u.jnl is a journal; no output is written over it' make 1 10 u.jnl
slip 4 'copy.jnl is a journal' report u.jnl copy.jnl
slip 5 'copy.jnl is a journal' run u.jnl copy.jnl r B=made.mrc
slip 5 'copy.jnl is a journal' run u.jnl o copy.jnl B=made.mrc
slip 5 'copy.jnl is a journal' holdings u.jnl o copy.jnl B=made.mrc

echo '# a word too few'
slip 5 'A=made.mrc looks like CODE=FILE' load A=made.mrc B=made.mrc
slip 5 'A=a looks like CODE=FILE' run u.jnl out.new A=a B=made.mrc

echo '# a journal that is not there'
union_cat export typo.jnl typo.out 2>err || { echo 'export of a journal that is not there failed'; wrong=1; }
grep -qF "typo.jnl wasn't there: an empty catalogue" err || { echo 'no warning of a journal that is not there'; wrong=1; }
union_cat checkpoint u.jnl u.pnt >/dev/null 2>err; grep -qF "wasn't there" err && { echo 'a new point is told as an empty catalogue'; wrong=1; }
union_cat checkpoint typo2.jnl typo2.pnt >/dev/null 2>err; grep -qF "typo2.jnl wasn't there: an empty catalogue" err || { echo 'no warning of a journal that is not there (checkpoint)'; wrong=1; }

echo '# names and causes'
slip 3 'nofile.mrc: no such file' load u.jnl A=nofile.mrc
slip 4 'nofolder/x.out: no such folder' export u.jnl nofolder/x.out
mkdir folder
slip 4 'folder: is a folder' export u.jnl folder
if [ "$(id -u)" != 0 ]; then
    cp all.out locked.out && chmod 400 locked.out
    slip 4 'locked.out: permission denied' export u.jnl locked.out
fi
slip 4 '/dev/full: no space left' export u.jnl /dev/full

echo '# parts'
slip 2 'a word is missing' totals all.out
slip 2 'all.out is named twice' join all.out all.out
slip 2 '1 is no such number: N from 2 to 1024' split 1 p A=made.mrc
slip 2 "made.mrc isn't CODE=FILE" split 2 p made.mrc
slip 3 'nofile.exp: no such file' join joined.out all.out nofile.exp
slip 11 '' join joined.out all.out made.mrc
slip 11 '' totals all.out all.out
if [ -e /dev/fd/0 ]; then
    # what gives its bytes once can't be read twice
    slip 3 '/dev/fd/0: is read more than once, and is no regular file' split 2 piped A=/dev/fd/0 < <(cat made.mrc)
    [ ! -e piped.parts ] || { echo 'a split of a pipe was written'; wrong=1; }
    slip 3 '/dev/fd/0: is read more than once, and is no regular file' join joined.out /dev/fd/0 all.out < <(cat all.out)
    union_cat split 2 regular A=/dev/fd/0 <made.mrc >/dev/null 2>err || { echo 'a split of a file at /dev/fd/0 failed'; wrong=1; }
fi

echo '# in use'
( exec 9<u.jnl; flock -x 9; union_cat export u.jnl held.out >out 2>err; [ $? -eq 5 ] && grep -qF 'u.jnl: in use by another command' err ) || { echo 'a held journal is not told'; wrong=1; }
( exec 9<u.jnl; flock -x 9; union_cat checkpoint u.jnl held.pnt >out 2>err; ! grep -qF 'with `reading`' err ) || { echo 'reading is told where it cannot stand'; wrong=1; }

( exec 9<u.jnl; flock -x 9; union_cat export u.jnl held.out >out 2>err; grep -qF 'with `reading` before export' err ) || { echo 'the word reading is not told'; wrong=1; }

# A sync that fails: what to do is told, and nothing of it where another call failed.
if strace -o /dev/null -e inject=fdatasync:error=EIO true 2>/dev/null; then
    strace -f -o /dev/null -e inject=fdatasync:error=EIO:when=1 "$program" load unsynced.jnl A=made.mrc >out 2>err
    [ $? -eq 5 ] && grep -qF 'unsynced.jnl: mount its disk anew, or restart, before the next command' err ||
        { echo 'a failed sync does not tell what to do'; sed 's/^/    /' err; wrong=1; }
    strace -f -o /dev/null -e inject=pwrite64:error=EIO:when=1 "$program" load unwritten.jnl A=made.mrc >out 2>err
    [ $? -eq 5 ] && ! grep -qF 'mount its disk anew' err || { echo 'a failed write tells of a sync'; sed 's/^/    /' err; wrong=1; }
fi

echo '# reading'
( exec 9<u.jnl; flock -x 9; union_cat reading export u.jnl read.out >out 2>err ) && cmp -s read.out all.out || { echo 'reading export of a held journal is another'; wrong=1; }
( exec 9<u.jnl; flock -x 9; union_cat verify u.jnl >out 2>err ) || { echo 'verify of a held journal failed'; wrong=1; }
printf '' >none.mrc
for code in '' A; do
    union_cat holdings u.jnl plain.out plain.rest A=none.mrc $code >plain.told 2>/dev/null; due=$?
    ( exec 9<u.jnl; flock -x 9; union_cat reading holdings u.jnl read.out read.rest A=none.mrc $code >read.told 2>/dev/null )
    [ $? -eq $due ] && cmp -s plain.out read.out && cmp -s plain.rest read.rest && cmp -s plain.told read.told ||
        { echo "reading holdings ($code) is another"; wrong=1; }
done
slip 3 'none.jnl: no such file' reading holdings none.jnl read.out read.rest A=none.mrc
slip 3 'nofile.mrc: no such file' reading holdings u.jnl read.out read.rest A=nofile.mrc
slip 6 '' reading holdings all.out read.out read.rest A=none.mrc
for look in report matches; do
    union_cat $look u.jnl plain.out 2>/dev/null && union_cat reading $look u.jnl read.out 2>/dev/null && cmp -s plain.out read.out ||
        { echo "reading $look is another"; wrong=1; }
done
cp u.jnl sealed.jnl && chmod 400 sealed.jnl
union_cat reading export sealed.jnl read.out 2>/dev/null && cmp -s read.out all.out || { echo 'reading of a file without the right to write failed'; wrong=1; }
slip 3 'none.jnl: no such file' reading export none.jnl read.out
slip 6 '' reading export all.out read.out
slip 2 'reading stands before export, report, matches, holdings, headings or worklist' reading load u.jnl A=made.mrc
slip 2 'a word is missing' reading export u.jnl
slip 2 'u.jnl is named twice' reading report u.jnl u.jnl

echo '# large'
union_cat large load large.jnl A=made.mrc >/dev/null 2>&1; cmp -s large.jnl u.jnl || { echo 'a journal of large load is another'; wrong=1; }
union_cat large export u.jnl large.out 2>/dev/null && cmp -s large.out all.out || { echo 'large export is another'; wrong=1; }
slip 2 'a word is missing' large
for words in 'make 1 10 o' help version 'large export u.jnl o'; do
    slip 2 'large stands before every command but make, help and version' large $words
done
slip 2 'there is no command exprot: did you mean export?' large exprot u.jnl o
slip 2 'a word is missing' large export u.jnl

echo '# what is refused'
{ head -c 500 made.mrc | tr -d '\035'; printf '\035'; cat made.mrc; printf 'an end'; } >bad.mrc
union_cat refused back.mrc A=bad.mrc >out 2>err
[ $? -eq 1 ] || { echo 'refused does not end with 1'; wrong=1; }
{ head -c 500 made.mrc | tr -d '\035'; printf '\035'; printf 'an end'; } | cmp -s - back.mrc || { echo 'what is refused is not as it stands'; wrong=1; }
cat bad.mrc | union_cat refused back2.mrc A=/dev/stdin >/dev/null 2>err; cmp -s back.mrc back2.mrc || { echo 'refused from a pipe is another'; wrong=1; }
union_cat pass x.out A=bad.mrc >passed 2>/dev/null; cmp -s passed out || { echo 'refused tells another than pass'; wrong=1; }

echo '# what is known of what is refused'
{ printf '00030nam a2200025   4500\036\035'; printf '00026n\011m a2200025   4500\036\035'; printf '00026nam a22000x5   4500\036\035'; head -c 40 made.mrc; } >faults.mrc
union_cat load faults.jnl A=faults.mrc >out 2>err
[ $? -eq 1 ] || { echo 'a load of what is refused does not end with 1'; wrong=1; }
for text in 'faults.mrc: piece 1 at byte 0: bad length: 30 bytes are claimed, 26 are there' "faults.mrc: piece 2 at byte 26: bad leader: byte 6 is 09" \
        "faults.mrc: piece 3 at byte 52: bad leader: byte 15 is 'x' (78)" 'faults.mrc: piece 4 at byte 78: unfinished: '; do
    grep -qF -- "$text" err || { echo "standard error lacks: $text"; sed 's/^/    /' err; wrong=1; }
done
for n in $(seq 120); do printf '00030nam a2200025   4500\036\035'; done >many.mrc
union_cat load faults.jnl A=many.mrc >/dev/null 2>err
[ $(grep -c 'many.mrc: piece' err) -eq 100 ] && grep -qF 'many.mrc: 20 more pieces refused' err || { echo 'not the first hundred refused pieces are told'; wrong=1; }

# The commands that end with their file tell the same of it, behind the console's lines; from a pipe too, without its bytes.
union_cat load same.jnl A=faults.mrc >/dev/null 2>err; grep -F 'faults.mrc: piece' err >loaded.err
for words in 'pass x.out A=faults.mrc' 'refused x.out A=faults.mrc' 'holdings same.jnl x.out x.rest A=faults.mrc' \
        'reading holdings same.jnl x.out x.rest A=faults.mrc'; do
    union_cat $words >out 2>err
    [ $? -eq 1 ] && grep -F 'faults.mrc: piece' err | cmp -s - loaded.err || { echo "$words: another is told of refused pieces"; sed 's/^/    /' err; wrong=1; }
done
for words in 'pass x.out A=many.mrc' 'refused x.out A=many.mrc' 'holdings same.jnl x.out x.rest A=many.mrc'; do
    union_cat $words >out 2>err
    [ $(grep -c 'many.mrc: piece' err) -eq 100 ] && grep -qF 'many.mrc: 20 more pieces refused' err ||
        { echo "$words: not the first hundred refused pieces are told"; sed 's/^/    /' err; wrong=1; }
done
cat faults.mrc | union_cat pass x.out A=/dev/stdin >/dev/null 2>err
[ $(grep -c '/dev/stdin: piece' err) -eq 4 ] && grep -qF '/dev/stdin: piece 2 at byte 26: bad leader' err ||
    { echo 'nothing is told of pieces from a pipe'; sed 's/^/    /' err; wrong=1; }
printf '00054cx  a2200037   45000010000500000\036h1   \036\035' >target.mrc
union_cat holdings same.jnl x.out x.rest A=target.mrc >out 2>err
grep -qF 'target.mrc: piece 1 at byte 0: ' err || { echo 'no word of a holding that is refused'; sed 's/^/    /' err; wrong=1; }

echo '# what records did'
union_cat load did.jnl A=made.mrc >/dev/null 2>err; grep -q '^union_cat: made.mrc: [1-9][0-9]* new, [0-9]* replaced, [0-9]* deleted, [0-9]* deletions of no record$' err || { echo 'no counts of a load'; sed 's/^/    /' err; wrong=1; }
union_cat load did.jnl A=made.mrc >/dev/null 2>err; grep -q '^union_cat: made.mrc: [0-9]* new, [1-9][0-9]* replaced, ' err || { echo 'a second load does not replace'; sed 's/^/    /' err; wrong=1; }
# each record as a deletion (leader 05 d), under its own code and under another
python3 -c 'import sys; d=open("made.mrc","rb").read(); sys.stdout.buffer.write(b"".join(p[:5]+b"d"+p[6:]+b"\x1d" for p in d.split(b"\x1d") if p))' >gone.mrc
union_cat load did.jnl A=gone.mrc >/dev/null 2>err; grep -q '^union_cat: gone.mrc: 0 new, 0 replaced, [1-9][0-9]* deleted' err || { echo 'no deletions are told'; sed 's/^/    /' err; wrong=1; }
union_cat load did.jnl A=gone.mrc >/dev/null 2>err; grep -q '^union_cat: gone.mrc: 0 new, 0 replaced, 0 deleted, [1-9][0-9]* deletions of no record$' err || { echo 'deletions of no record are not told'; sed 's/^/    /' err; wrong=1; }

echo '# progress'
head -c 210000 /dev/zero | tr '\0' '\035' >long.mrc
union_cat load long.jnl A=long.mrc >/dev/null 2>err
[ $(grep -cE '^long.mrc: [0-9]+ pieces, [0-9]+ of [0-9]+ bytes, [0-9]+ pieces a second$' err) -eq 2 ] || { echo 'no two lines of progress'; sed 's/^/    /' err; wrong=1; }
cat long.mrc | union_cat pass /dev/null A=/dev/stdin >/dev/null 2>err
grep -qE '^/dev/stdin: [0-9]+ pieces, [0-9]+ bytes, [0-9]+ pieces a second$' err || { echo 'no progress of a pipe'; sed 's/^/    /' err; wrong=1; }
rm -f long.mrc long.jnl

echo '# no MARC'
printf '<?xml version="1.0"?><collection/>\n' >x.xml
slip 1 'x.xml: this looks like no MARC file (MARCXML)' pass /dev/null A=x.xml
printf '{"leader": "00000nam"}  ' >x.json
slip 1 'x.json: this looks like no MARC file (JSON)' pass /dev/null A=x.json
{ printf '\357\273\277'; cat made.mrc; } >bom.mrc
slip 1 'bom.mrc: this looks like no MARC file (a byte order mark)' pass /dev/null A=bom.mrc

slip 1 'x.xml: this looks like no MARC file (MARCXML)' refused /dev/null A=x.xml
for words in 'holdings u.jnl' 'reading holdings u.jnl'; do
    union_cat $words x.out x.rest A=x.xml >out 2>err
    [ $? -eq 1 ] && grep -qF 'x.xml: this looks like no MARC file (MARCXML)' err || { echo "$words: XML is not told"; sed 's/^/    /' err; wrong=1; }
done
printf '\377\376a\000b\000c\000d\000e\000f\000g\000h\000' >x.utf16
slip 1 'x.utf16: this looks like no MARC file (UTF-16)' pass /dev/null A=x.utf16
printf '\377\330\377\340 and what else is in one' >x.jpg
slip 1 'x.jpg: this looks like no MARC file (JPEG)' pass /dev/null A=x.jpg
head -c 1200 /dev/zero | tr '\0' '\035' >row.mrc
{ head -c 999 row.mrc; cat made.mrc; head -c 1 row.mrc; } >short_row.mrc
{ printf '\357\273\277'; cat row.mrc; } >bom_row.mrc
for words in 'load row.jnl A=' 'pass /dev/null A=' 'refused /dev/null A=' 'holdings u.jnl /dev/null x.rest A='; do
    union_cat ${words}row.mrc >out 2>err
    [ $? -eq 1 ] && grep -qF 'row.mrc: this looks like no MARC file (its first 1000 pieces are refused)' err &&
        grep -qF 'row.mrc: 1100 more pieces refused' err || { echo "$words: a row of refused pieces is not told"; wrong=1; }
    union_cat ${words}short_row.mrc >out 2>err
    # records are no holdings, so all its pieces are refused there
    case $words in holdings*) ;; *)
        ! grep -qF 'looks like no MARC' err || { echo "$words: a file with a record among its first pieces is told as none"; wrong=1; } ;; esac
    union_cat ${words}bom_row.mrc >out 2>err
    [ $(grep -c 'looks like no MARC' err) -eq 1 ] || { echo "$words: not one line of a file that looks like no MARC"; wrong=1; }
done

echo '# counts'
union_cat export u.jnl x.out 2>err; grep -q 'x.out: [0-9]* records' err || { echo 'no count of records'; wrong=1; }
union_cat export u.jnl x.out NONE 2>err; grep -qF 'x.out: no records' err || { echo 'no warning of a code without records'; wrong=1; }

echo '# one file under two names'
cp u.jnl before.jnl; ln u.jnl linked.jnl
slip 5 'under another name' salvage u.jnl linked.jnl
cmp -s u.jnl before.jnl || { echo 'salvage changed its journal'; wrong=1; }
rm -f linked.jnl before.jnl

echo '# words'
slip 2 'did you mean load?' laod u.jnl A=made.mrc
slip 2 'a word is missing' load u.jnl
slip 2 'union_cat load JOURNAL CODE=FILE' load u.jnl
slip 2 'one word too many: more' report u.jnl x more
slip 2 "made.mrc isn't CODE=FILE" load u.jnl made.mrc
slip 2 'a code that is far too long is no code' load u.jnl 'a code that is far too long=made.mrc'
slip 2 'u.jnl is named twice' export u.jnl u.jnl
slip 2 'made.mrc is named twice' load made.mrc A=made.mrc
slip 2 '2000000 is no such number' make 1 2000000 x
slip 2 '99999999999999999999 is no such number' make 99999999999999999999 5 x
slip 2 'two is no such number: N below 2^64' verify u.jnl two ffff
slip 2 'ffff is no SHA-256: 64 hexadecimal digits' verify u.jnl 2 ffff
slip 0 '' load --help
slip 0 '' help --version
slip 0 '' -V
slip 0 '' help statuses
slip 3 '' verify --help
slip 2 'no command is given'
[ $wrong -eq 0 ] && echo 'all slips as they are due'
exit $wrong
