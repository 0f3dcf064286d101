#!/usr/bin/env bash
# Runs the commands of docs/GUIDE.md over made files and shows what they print: bench/guide/walk.sh [PROGRAM [FOLDER]]
# It ends with 1 where a command ends with another status than the guide tells.
set -u
here=$(cd "$(dirname "$0")" && pwd)
program=$(realpath "${1:-$here/../../crates/union_cat/out/union_cat}")
work=${2:-$(mktemp -d)}
mkdir -p "$work/bin"
cp "$program" "$work/bin/union_cat"
PATH=$work/bin:$PATH
cd "$work" || exit 2
rm -f -- *.mrc *.jnl *.out *.rep *.copy
wrong=0

# The status that is due, and the command as the guide has it.
run() {
    local due=$1 status
    echo "\$ $2"
    bash -c "$2"
    status=$?
    [ $status -eq "$due" ] || { echo "  status $status, not $due"; wrong=1; }
}

union_cat make 7 1000 made.mrc >made.log && python3 "$here/night.py" made.mrc || exit 2

echo '# A nightly load'
run 1 'union_cat load union.jnl ALIB=a.mrc BLIB=b.mrc DLC=names.mrc'
run 0 'union_cat verify union.jnl'
run 0 'union_cat export union.jnl a.out ALIB'
run 0 'union_cat export union.jnl b.out BLIB'
run 0 'union_cat export union.jnl all.out'
run 0 'union_cat report union.jnl union.rep'
run 0 'tail -n 1 union.rep'
run 1 'union_cat run other.jnl all.out union.rep ALIB=a.mrc BLIB=b.mrc DLC=names.mrc'
run 0 'union_cat load names_first.jnl DLC=names.mrc'
run 1 'union_cat load names_first.jnl ALIB=a.mrc BLIB=b.mrc'

echo '# Records that may be the same'
cp "$here/../../crates/union_cat/data/everything.mrc" .
run 1 'union_cat load sample.jnl ULIB=everything.mrc'
run 0 'union_cat matches sample.jnl same.txt && cat same.txt'

echo '# Which library holds a record'
cp "$here/../../crates/union_cat/data/holdings.mrc" .
run 1 'union_cat holdings sample.jnl all.out late.mrc ULIB=holdings.mrc'
run 0 'union_cat holdings sample.jnl late.out later.mrc ULIB=late.mrc'
run 0 'cmp late.mrc later.mrc'

echo '# A copy'
run 0 'flock --shared --nonblock union.jnl cp union.jnl union.copy && sync union.copy'
run 0 'cmp union.jnl union.copy && union_cat verify union.copy'
run 5 'flock --shared union.jnl union_cat load union.jnl ALIB=a.mrc'
run 0 'union_cat make 7 30000 many.mrc'
run 1 'union_cat load held.jnl ALIB=many.mrc & timeout 60 bash -c "until test -s held.jnl; do sleep 0.01; done"; flock --shared --nonblock held.jnl cp held.jnl held.copy; status=$?; wait; exit $status'
run 0 'test ! -e held.copy'
run 0 'flock --shared --nonblock missing.jnl true && test -e missing.jnl'
run 3 'union_cat verify nothing.jnl'
run 0 'test ! -e nothing.jnl'
run 0 'cp union.jnl torn.jnl && printf 0123456789 >>torn.jnl && union_cat verify torn.jnl'

echo '# An export each hour'
run 0 'union_cat make 1 1200 night.mrc && union_cat make 2 34 more.mrc'
run 0 'union_cat load hourly.jnl ALIB=night.mrc'
run 0 'rm -f hourly.new; union_cat checkpoint hourly.jnl hourly.new && union_cat verify hourly.jnl hourly.new && mv hourly.new hourly.pnt'
run 0 'union_cat load hourly.jnl ALIB=more.mrc'
run 0 'union_cat quick hourly.jnl hourly.pnt hourly.out hourly.rpt | tee told && grep -qx "resumed 1200 of 1234" told'
run 0 'union_cat export hourly.jnl whole.out && cmp hourly.out whole.out'
run 0 'union_cat report hourly.jnl whole.rpt && cmp hourly.rpt whole.rpt'
run 0 'union_cat verify hourly.jnl hourly.pnt | tee told && grep -qx "resumed 1200 of 1234" told'
run 10 'union_cat load another.jnl ALIB=more.mrc && union_cat verify another.jnl hourly.pnt'

echo '# Joined files with a 1A'
run 1 'union_cat pass dos.out ALIB=dos.mrc'
run 0 "perl -0035 -pe 's/^[\\x1a\\r\\n]+//' dos.mrc >clean.mrc"
run 0 'union_cat pass dos.out ALIB=clean.mrc'

echo '# A $0 that is a URI'
run 0 'union_cat pass uri.out ULIB=uri.mrc'
run 0 "tr '\\035\\036\\037' '\\n|\$' <uri.out"
if perl -MMARC::Record -e1 2>/dev/null; then
    run 0 "perl $here/uri_numbers.pl uri.mrc >numbers.mrc && union_cat pass uri.out ULIB=numbers.mrc"
    run 0 "tr '\\035\\036\\037' '\\n|\$' <uri.out"
fi
exit $wrong
