#!/bin/sh
# Times the built programs from outside, in a temporary folder. The launcher builds `mp` first where that is needed;
# `mp_bench` is built by `rt run` in crates/mp_bench.
set -eu
root=$(cd "$(dirname "$0")/.." && pwd)
mp=$root/crates/mp_app/out/mp_app
bench=$root/crates/mp_bench/out/mp_bench
folder=$(mktemp -d)
trap 'rm -rf "$folder"' EXIT
cd "$folder"

"$root/mp" init
if [ ! -x "$bench" ]; then
    echo "mp_bench isn't built: rt run in crates/mp_bench builds it" >&2
    exit 1
fi

# one transaction that puts 9,998 keys, in an order that isn't ascending
{
    printf 'primaries 1\nsession s1 on 1\ns1 begin\n'
    awk 'BEGIN { for (i = 1; i <= 9998; i++) print "s1 put", (i * 7919) % 1000003, "value" i }'
    printf 's1 commit\n'
} > puts.mps

# as long as a script may be: 10,000 statements, and comments up to 1,048,576 bytes
{
    printf 'primaries 1\nsession s1 on 1\n'
    awk 'BEGIN { for (i = 0; i < 5000; i++) print "s1 begin\ns1 commit" }'
    yes '# a comment of thirty-two bytes  '
} | head -c 1048576 > longest.mps

# what a run prints goes into `out`, and its wall-clock time is printed behind the words
timed() {
    words=$1
    shift
    start=$(date +%s%N)
    "$@" > out
    end=$(date +%s%N)
    echo "$words: $(( (end - start) / 1000000 )) ms"
    tail -n 1 out
}

# over a store made anew, whose making isn't timed
step_from() { "$mp" step < "$1"; }
anew() { "$mp" init > made; }

count_bytes() { cat store.mp log?.mp | wc -c; }

# 3,333 transactions that each put a key and commit, on one primary, and then by turns on four
{
    printf 'primaries 1\nsession s1 on 1\n'
    awk 'BEGIN { for (i = 1; i <= 3333; i++) print "s1 begin\ns1 put", i % 500, "value" i "\ns1 commit" }'
} > commits.mps
{
    printf 'primaries 4\nsession s1 on 1\nsession s2 on 2\nsession s3 on 3\nsession s4 on 4\n'
    awk 'BEGIN { for (i = 1; i <= 3333; i++) { s = "s" i % 4 + 1; print s " begin\n" s " put", i % 500, "value" i "\n" s " commit" } }'
} > four.mps
printf 'primaries 1\n' > nothing.mps

# a write of a key forces the log once, and so does a commit, each by two syncs
syncs() { dd if=/dev/zero of=syncs bs=1024 count="$1" oflag=dsync status=none; }

anew; timed "step, no statement: opening a store and its logs" step_from nothing.mps
anew; timed "step, 10,000 statements in one transaction, 9,998 puts of distinct keys" step_from puts.mps
timed "19,998 syncs of a file, each behind a write of 1 KB" syncs 19998
anew; timed "step, 3,333 transactions that put and commit, on one primary" step_from commits.mps
timed "13,332 syncs of a file, each behind a write of 1 KB" syncs 13332
anew; timed "step, 3,333 transactions that put and commit, by turns on four primaries" step_from four.mps
anew; timed "step, a script of 1,048,576 bytes with 10,000 statements, 5,000 transactions without a write" step_from longest.mps
# one primary over files in memory: what a statement costs beside its syncs, which is the time of 9,000 statements less
# that of the script without them
memory=$(mktemp -d -p /dev/shm)
trap 'rm -rf "$folder" "$memory"' EXIT
cd "$memory"
head_of() { printf 'primaries 1\nsession s1 on 1\nsession s2 on 1\n'; }
# s1's view is older than N versions of key 7, each of a transaction of its own
versions() { awk -v n="$1" 'BEGIN { print "s2 begin\ns2 put 7 first\ns2 commit\ns1 begin"; for (i = 1; i < n; i++) print "s2 begin\ns2 put 7 value" i "\ns2 commit" }'; }
rows() { awk 'BEGIN { print "s1 begin"; for (i = 1; i <= 100; i++) print "s1 put", i, "value" i; print "s1 commit\ns1 begin" }'; }
repeat() { awk -v line="$1" 'BEGIN { for (i = 1; i <= 9000; i++) { l = line; gsub("KEY", (i * 7919) % 1000003, l); print l } }'; }
for chain in 1 10 100; do
    { head_of; versions "$chain"; } > chain.mps
    anew; timed "step over memory, a chain of $chain versions" step_from chain.mps
    { cat chain.mps; repeat 's1 get 7'; } > gets.mps
    anew; timed "the same and 9,000 gets at its end" step_from gets.mps
done
{ head_of; rows; } > rows.mps
anew; timed "step over memory, 100 rows" step_from rows.mps
{ cat rows.mps; repeat 's1 scan 0 100'; } > scans.mps
anew; timed "the same and 9,000 scans of 100 rows" step_from scans.mps
{ cat rows.mps; repeat 's1 put 50 again'; } > overwrites.mps
anew; timed "the same and 9,000 overwrites of a row" step_from overwrites.mps
{ cat rows.mps; repeat 's1 put KEY new'; } > news.mps
anew; timed "the same and 9,000 puts of new keys" step_from news.mps
cd "$folder"

# the logs that a crash leaves of four primaries, over a fresh store; the bound is 50 ms for the first, 300 ms for the second
for commits in 752 10000; do
    "$mp" init > out
    python3 "$root/bench/logs.py" "$commits"
    timed "the same bytes, read by cat" count_bytes
    timed "recover, $commits commits in four logs over a fresh store, 512 rows" "$mp" recover
done
# a recovery syncs its files about so often
timed "41 syncs of a file, each behind a write of 1 KB" dd if=/dev/zero of=syncs bs=1024 count=41 oflag=dsync status=none

timed "mp_bench, 40,960 full leaves filled, written and read" "$bench" pages 40960
timed "mp_bench, 100,000 mtrs of four records made, written and read" "$bench" mtrs 100000
timed "mp_bench, 100 times 200 transactions over a shared table, by one thread" "$bench" commits 100
timed "mp_bench, 100 times 800 transactions over a shared table, by four threads" "$bench" threads 100
timed "mp_bench, 100 times a table of 4,096 pages opened and closed" "$bench" tables 100
timed "mp_bench, 100 times one page taken in turn 10,000 times, by one thread" "$bench" turns 100
timed "mp_bench, 100 times one page taken in turn 10,000 times each, by four threads" "$bench" contend 100
timed "mp_bench, 100 times one page changed in turn 5,000 times, by one thread" "$bench" changes 100
timed "mp_bench, 100 times one page changed in turn 5,000 times each, by four threads" "$bench" rivals 100
