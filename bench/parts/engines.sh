#!/usr/bin/env bash
# A catalogue in parts by an engine next to the same one whole: bench/parts/engines.sh PROGRAM FOLDER [RECORDS [FILES [ENGINE ..]]]
# RECORDS (8,000,000) of bench/large/make_seeded.py in FILES (4) files, with two files of authorities. It loads them whole: the authorities one file after the
# other, then all others at once; then in 1, 2 and 4 parts by each ENGINE, `parallel` (GNU parallel) and `slurm`: by both where none is named and a Slurm runs
# (slurm_here.sh). In 4 parts it does so once more, where a part is killed amid its load. Each joined export has to be that of the whole, and the joined totals
# its report's. Prints the time on the clock of each. Ends with 1 where one differs. FOLDER gets some 5 KB a record.
set -u
here=$(cd "$(dirname "$0")" && pwd)
program=$(realpath "${1:?the built program}")
folder=${2:?a folder}
records=${3:-8000000}
files=${4:-4}
mkdir -p "$folder" && cd "$folder" || exit 2
folder=$PWD
wrong=0

fail() {
    echo "  WRONG: $*"
    wrong=1
}

# make_files: two files of authorities, and the others.
make_files() {
    local names=$((records / 8)) make="$here/../large/make_seeded.py" file
    python3 "$make" authorities $names all.mrc >/dev/null
    # the second half of the authorities is a file of its own
    python3 - <<'P'
pieces = open("all.mrc", "rb").read().split(b"\x1d")[:-1]
for name, some in (("a0.mrc", pieces[: len(pieces) // 2]), ("a1.mrc", pieces[len(pieces) // 2 :])):
    open(name, "wb").write(b"".join(piece + b"\x1d" for piece in some))
P
    rm all.mrc
    for file in $(seq 1 "$files"); do
        python3 "$make" records "$file" $(((records - names * 3 / 4) / files)) $names "b$file.mrc" >/dev/null &
    done
    wait
}

authorities="$folder/a0.mrc $folder/a1.mrc"
others=()
for file in $(seq 1 "$files"); do others+=("$folder/b$file.mrc"); done

# whole: the catalogue in one journal.
whole() {
    local words=() file
    for file in $authorities; do "$program" large load whole.jnl "UCAT=$file" >told.txt || fail "load of $file"; done
    for file in "${others[@]}"; do words+=("UCAT=$file"); done
    "$program" large load whole.jnl "${words[@]}" >told.txt || fail "load of the whole"
    "$program" large export whole.jnl whole.exp || fail "export of the whole"
    "$program" large report whole.jnl whole.rep || fail "report of the whole"
}

# dying: a program whose first load of part 1 is killed once it has written something.
dying() {
    cat >dying.sh <<P
#!/usr/bin/env bash
case "\$*" in
"large load part.1.jnl "*)
    if mkdir died 2>/dev/null; then
        '$program' "\$@" &
        until [ "\$(stat -c %s part.1.jnl)" -gt "\$(stat -c %s none.jnl)" ] || ! kill -0 \$!; do sleep 0.01; done
        kill -KILL \$!
        exit 9
    fi
    ;;
esac
exec '$program' "\$@"
P
    chmod +x dying.sh
}

by_parallel() {
    "$here/parallel.sh" "$1" "$2" UCAT "$authorities" "${others[@]}" >parallel.txt 2>&1 || fail "parallel: $(tail -1 parallel.txt)"
}

by_slurm() {
    local first each last left
    read -r first each last < <("$here/slurm.sh" "$1" "$2" UCAT "$authorities" "${others[@]}")
    [ -n "$last" ] || fail "sbatch"
    if [ "${3:-}" = killed ]; then
        # amid its load: the journal of the part has grown beyond its copy
        until [ -e part.1.jnl ] && [ "$(stat -c %s part.1.jnl)" -gt "$(stat -c %s none.jnl)" ]; do sleep 0.1; done
        scontrol requeue "${each}_1" || fail "requeue"
        touch died
    fi
    # a controller that doesn't answer is asked again
    until left=$(squeue -h -j "$first,$each,$last" -o '%i %r') && [ -z "$left" ]; do
        # what can't begin any more isn't waited for
        [[ $left != *NeverSatisfied* ]] || scancel "$last"
        sleep 0.2
    done
}

# compared ENGINE N [killed]
compared() {
    local name="$1.$2${3:+.$3}" begun
    rm -rf "$name" && mkdir "$name" && cd "$name" || exit 2
    local run=$program
    if [ -n "${3:-}" ] && [ "$1" = parallel ]; then
        dying
        run=$PWD/dying.sh
    fi
    begun=$(date +%s.%N)
    "by_$1" "$run" "$2" "${3:-}"
    echo "$name: $(python3 -c "print(f'{$(date +%s.%N) - $begun:.1f}')") s"
    cmp whole.exp ../whole.exp || fail "$name: the export differs"
    [ "$(tail -1 ../whole.rep)" = "$(cat whole.totals)" ] || fail "$name: the totals are $(cat whole.totals)"
    [ -z "${3:-}" ] || [ -e died ] || fail "$name: no part was killed"
    cd .. && rm -rf "$name"
}

make_files
begun=$(date +%s.%N)
whole
echo "whole: $(python3 -c "print(f'{$(date +%s.%N) - $begun:.1f}')") s"
engines=("${@:5}")
if [ ${#engines[@]} -eq 0 ]; then
    engines=(parallel)
    ! sinfo >/dev/null 2>&1 || engines+=(slurm)
fi
for engine in "${engines[@]}"; do
    for count in 1 2 4; do compared "$engine" $count; done
    compared "$engine" 4 killed
done
exit $wrong
