#!/usr/bin/env bash
# Prints how long 10,000 appends to a file take, each committed before the next, beside the same inserts by sqlite3 with
# journal_mode=WAL and synchronous=FULL on the same disk; and how long it takes to open and load a file of 10,000 and of
# 100,000 bodies. A body has 100 bytes. The appends go in ten turns of 1,000, each followed by the same inserts, so that
# both meet the disk as it is at that time. A turn is timed from before its first insert to after its last: neither the
# start nor the end of a program counts. sqlite3 also reads 10,000 texts, and how long that and the inserts take in memory
# is printed. Each time is the least of five rounds, or of as many as ROUNDS says; the ratio is that of all rounds
# together. The files lie in a folder of TMPDIR: set it to one on a disk.
set -u
here=$(cd "$(dirname "$0")" && pwd)
program=$(dirname "$here")/crates/bosh_keep_bench/out/bosh_keep_bench
rounds=${ROUNDS:-5}
folder=$(mktemp -d)
trap 'rm -rf "$folder"' EXIT
cd "$folder" || exit 1

# The inserts of 1,000 bodies from a place on, as sqlite3 reads them, between two lines that print the time in
# milliseconds.
inserts() {
    local told="SELECT CAST((julianday('now') - 2440587.5) * 86400000 AS INTEGER);"
    echo "PRAGMA journal_mode=WAL; PRAGMA synchronous=FULL;"
    echo "CREATE TABLE IF NOT EXISTS bodies (position INTEGER PRIMARY KEY, body BLOB NOT NULL) STRICT;"
    echo "$told"
    seq "$1" $(($1 + 999)) | awk '{
        text = sprintf("%0100d", $1); bytes = ""
        for (at = 1; at <= 100; at++) bytes = bytes "3" substr(text, at, 1)
        printf "INSERT INTO bodies (position, body) VALUES (%d, x\"%s\");\n", $1, bytes
    }' | tr '"' "'"
    echo "$told"
}

# How long the inserts of a file of texts took, in microseconds.
time_of_inserts() {
    sqlite3 "$1" < "$2" | grep -E '^[0-9]+$' | {
        read -r begun && read -r ended && echo $(((ended - begun) * 1000))
    }
}

# The sum of the numbers read.
sum() {
    awk '{ sum += $1 } END { print sum }'
}

# One round of ten turns: how long the appends took, and the inserts, each in a line of its own file.
measure() {
    local first
    rm -f ours.db* theirs.db* ours theirs
    for first in 0000 1000 2000 3000 4000 5000 6000 7000 8000 9000; do
        "$program" append ours.db 1000 >> ours || return 1
        time_of_inserts theirs.db "inserts.$first" >> theirs || return 1
    done
    sum < ours >> all_ours
    sum < theirs >> all_theirs
}

# The least of the numbers read.
least() {
    sort -n | head -n 1
}

# One line, with a ratio: size, unit, time, the two times of the ratio, the name of the second.
line() {
    awk -v size="$1" -v unit="$2" -v time="$3" -v one="$4" -v other="$5" -v name="$6" \
        'BEGIN { printf "%6d %-32s %9.2f ms  %6.2f times %s\n", size, unit, time / 1000, one / other, name }'
}

echo "on $(stat -f -c %T .), with a load of $(cut -d ' ' -f 1 /proc/loadavg) on $(nproc) processors"
if command -v sqlite3 > /dev/null; then
    for first in 0000 1000 2000 3000 4000 5000 6000 7000 8000 9000; do
        inserts $((10#$first)) > "inserts.$first"
        time_of_inserts :memory: "inserts.$first" >> memory
    done
    for _ in $(seq "$rounds"); do
        measure || exit 1
    done
    line 10000 "appends to a file" "$(least < all_ours)" "$(sum < all_ours)" "$(sum < all_theirs)" "sqlite3's, in all rounds"
    line 10000 "inserts by sqlite3" "$(least < all_theirs)" 1 1 "its own"
    line 10000 "inserts by sqlite3 in memory" "$(sum < memory)" "$(sum < memory)" "$(least < all_theirs)" "those in a file"
else
    time=$("$program" append ours.db 10000) || exit 1
    line 10000 "appends to a file" "$time" 1 1 "its own, since sqlite3 is not here"
fi
first=
for size in 10000 100000; do
    rm -f bodies.db*
    "$program" replace bodies.db "$size" > /dev/null || exit 1
    for _ in $(seq "$rounds"); do
        "$program" load bodies.db || exit 1
    done > loads
    time=$(least < loads)
    line "$size" "bodies loaded" "$time" "$time" "${first:=$time}" "the first"
done
