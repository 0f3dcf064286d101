#!/usr/bin/env bash
# Sees what outputs leave of their files where something fails: bench/outputs/walk.sh PROGRAM [FOLDER]
# A full disk (a small tmpfs, where one may be mounted), a limit on a file's length, a kill amid the writing, and what can't be replaced.
set -u
program=$(realpath "${1:?the program}")
work=${2:-$(mktemp -d)}
mkdir -p "$work" && cd "$work" || exit 2
rm -rf -- ./* ./.[!.]*
union_cat() { "$program" "$@"; }
wrong=0

bad() { echo "$*"; wrong=1; }
# same FILE: it is still the good one of yesterday.
same() { cmp -s "$1" "$work/yesterday" || bad "$1 is not what it was"; }
# none FOLDER: no new file was left there.
none() { [ -z "$(find "$1" -maxdepth 1 -name '.*.union_cat.*')" ] || bad "a new file was left in $1: $(find "$1" -maxdepth 1 -name '.*.union_cat.*')"; }
# told TEXT: standard error had it.
told() { grep -qF -- "$1" err || { bad "standard error lacks: $1"; sed 's/^/    /' err; }; }

echo 'the good one of yesterday' >yesterday
union_cat make 7 2000 made.mrc >/dev/null || exit 2
union_cat load u.jnl A=made.mrc >/dev/null 2>&1
union_cat export u.jnl whole 2>err || exit 2
none .

echo '# a full disk'
mkdir disk
if mount -t tmpfs -o size=64k none disk 2>/dev/null; then
    cp yesterday disk/out
    union_cat export u.jnl disk/out 2>err; [ $? -eq 4 ] || bad 'a full disk has another status than 4'
    told 'disk/out: no space left'; same disk/out; none disk
    union_cat make 7 2000 disk/out >/dev/null 2>err; [ $? -eq 4 ] || bad 'a full disk has another status than 4 in make'
    same disk/out; none disk
    union_cat export u.jnl disk/new 2>err; [ ! -e disk/new ] || bad 'a new output was left on a full disk'
    umount disk
else
    echo '  (no tmpfs can be mounted here)'
fi

echo '# a file that may not grow'
cp yesterday out
( trap '' XFSZ; ulimit -f 100; union_cat export u.jnl out 2>err; [ $? -eq 4 ] ) || bad 'a limit has another status than 4'
same out; none .

# amid FILE: exports the large journal to it in the background, and stops that once its new file is there; its number is in pid then.
amid() {
    "$program" export many.jnl "$1" 2>err-amid & pid=$!
    for _ in $(seq 1 6000); do
        if [ -n "$(find . -maxdepth 1 -name ".$1.union_cat.$pid")" ]; then kill -STOP $pid; return 0; fi
        kill -0 $pid 2>/dev/null || break
        sleep 0.01
    done
    bad 'no new file was seen: take a larger workload'; return 1
}
union_cat make 7 100000 many.mrc >/dev/null || exit 2
union_cat load many.jnl A=many.mrc >/dev/null 2>&1
union_cat export many.jnl many 2>/dev/null || exit 2

echo '# a kill'
cp yesterday out
for _ in 1 2 3; do
    amid out || continue
    kill -CONT $pid; sleep 0.0$((RANDOM % 10)); kill -9 $pid 2>/dev/null; wait $pid 2>/dev/null
    cmp -s out yesterday || cmp -s out many || bad 'a kill left an output in part'
    cp yesterday out
done
amid out && { kill -9 $pid; wait $pid 2>/dev/null; same out; }
[ -n "$(find . -maxdepth 1 -name '.out.union_cat.*')" ] || bad 'a kill left no new file to be removed'
union_cat export u.jnl out 2>err || bad 'export behind a kill failed'
cmp -s out whole || bad 'the output behind a kill is not whole'
none .

echo '# two commands with one output'
cp yesterday out
if amid out; then
    union_cat export u.jnl out 2>err; [ $? -eq 4 ] || bad 'an output in use has another status than 4'
    told 'out: in use'; same out
    [ -n "$(find . -maxdepth 1 -name ".out.union_cat.$pid")" ] || bad 'the new file of a living program was removed'
    kill -CONT $pid; wait $pid || bad 'the first of two commands failed'
    cmp -s out many || bad 'the first of two commands has no whole output'
fi
none .

echo '# links'
cp yesterday out; ln -s out link
union_cat export u.jnl link 2>err || bad 'export to a link failed'
[ -L link ] && cmp -s out whole || bad 'a link or its file is not what it should be'
cp yesterday out; ln out second
union_cat export u.jnl out 2>err || bad 'export to a file with two names failed'
told 'out has several links'; cmp -s second whole || bad 'the second name has not the output'
rm second link

echo '# rights'
cp yesterday out; chmod 640 out
union_cat export u.jnl out 2>err; [ "$(stat -c %a out)" = 640 ] || bad 'the rights were not kept'
if [ "$(id -u)" != 0 ]; then
    mkdir shut; cp yesterday shut/out; chmod 555 shut
    union_cat export u.jnl shut/out 2>err || bad 'export into a folder without rights failed'
    told 'no file can take its place'; cmp -s shut/out whole || bad 'the output in a shut folder is not whole'
    chmod 755 shut
else
    chown nobody out && union_cat export u.jnl out 2>err; [ "$(stat -c %U out)" = nobody ] || bad 'the owner was not kept'
fi

echo '# a file that is mounted'
cp yesterday out; cp yesterday behind
if mount --bind behind out 2>/dev/null; then
    union_cat export u.jnl out 2>err || bad 'export to a mounted file failed'
    told 'out is mounted'; cmp -s behind whole || bad 'the mounted file has not the output'
    umount out
else
    echo '  (nothing can be mounted here)'
fi

echo '# pipes, devices and what the shell holds'
union_cat export u.jnl /dev/stdout 2>err | cmp -s - whole || bad 'a pipe got something else'
union_cat export u.jnl /dev/stdout 2>err >held; cmp -s held whole || bad 'a file that the shell holds got something else'
[ "$(cat err)" = "union_cat: /dev/stdout: $(tr -dc '\035' <whole | wc -c) records" ] || { bad 'something else than the count was told of /dev/stdout'; sed 's/^/    /' err; }
mkfifo pipe; union_cat export u.jnl pipe 2>err & cmp -s pipe whole || bad 'a named pipe got something else'
wait
none .; none /dev

[ $wrong -eq 0 ] && echo 'all outputs were whole, or as they were'
exit $wrong
