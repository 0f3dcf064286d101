#!/usr/bin/env bash
# Walks the guide's chapter 'From the list to a clean catalogue' over made files: bench/worklist/chapter.sh [PROGRAM [FOLDER]]
# It ends with 1 where a command ends with another status than is due, or where lines are left in the last list.
set -u
here=$(cd "$(dirname "$0")" && pwd)
program=$(realpath "${1:-$here/../../crates/union_cat/out/union_cat}")
work=${2:-$(mktemp -d)}
mkdir -p "$work/bin"
cp "$program" "$work/bin/union_cat"
PATH=$work/bin:$PATH
cd "$work" || exit 2
rm -f -- *.mrc *.jnl *.csv *.html
wrong=0

# The status that is due, and the command.
run() {
    local due=$1 status
    echo "\$ $2"
    bash -c "$2"
    status=$?
    [ $status -eq "$due" ] || { echo "  status $status, not $due"; wrong=1; }
}

python3 "$here/chapter.py" make || exit 2
run 0 'union_cat load union.jnl DLC=names.mrc'
run 0 'union_cat load union.jnl ALIB=books.mrc'
run 0 'union_cat worklist union.jnl work.csv work.html'
run 0 "python3 '$here/chapter.py' sort work.csv"
run 1 "python3 '$here/chapter.py' clean work.csv"
run 0 "python3 '$here/chapter.py' mend work.csv"
run 0 'union_cat load union.jnl DLC=names2.mrc'
run 0 'union_cat load union.jnl ALIB=books2.mrc'
run 0 'union_cat worklist union.jnl work2.csv work2.html'
run 0 "python3 '$here/chapter.py' clean work2.csv"
exit $wrong
