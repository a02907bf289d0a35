#!/usr/bin/env bash
# Prints how long sessions take that make 64, 256 and 512 instances, in memory and on disk, with the time a call and how
# it grows; beside those on disk the same bodies appended by sqlite3, one transaction each, with journal_mode=WAL and
# synchronous=FULL. And how much memory the largest session takes, in memory and on disk. Each time is the least of five
# runs, or of as many as ROUNDS says, from the start of a program to its end. The files lie in a folder of TMPDIR: set it
# to one on a disk.
set -u
top=$(dirname "$(cd "$(dirname "$0")" && pwd)")
program=$top/crates/boshd/out/boshd
memory=$top/crates/bosh_session_bench/out/bosh_session_bench
rounds=${ROUNDS:-5}
folder=$(mktemp -d)
trap 'rm -rf "$folder"' EXIT
cd "$folder" || exit 1

# The time of a session by a program in a folder without stores, in microseconds.
time_of() {
    local begun ended
    rm -f director.db* cloud.db*
    begun=$(date +%s%N)
    "$1" < session > answers || exit 1
    ended=$(date +%s%N)
    echo $(((ended - begun) / 1000))
}

# The inserts of the bodies of a store, as sqlite3 reads them.
inserts_of() {
    echo "PRAGMA journal_mode=WAL; PRAGMA synchronous=FULL;"
    echo "CREATE TABLE bodies (position INTEGER PRIMARY KEY, body BLOB NOT NULL) STRICT;"
    sqlite3 "$1" "SELECT 'INSERT INTO bodies (position, body) VALUES (' || position || ', ' || quote(body) || ');' FROM bodies"
}

# How long sqlite3 takes for the bodies of both stores.
time_of_inserts() {
    local begun ended
    rm -f theirs.db*
    begun=$(date +%s%N)
    sqlite3 theirs.db < inserts.director > /dev/null || exit 1
    rm -f theirs.db*
    sqlite3 theirs.db < inserts.cloud > /dev/null || exit 1
    ended=$(date +%s%N)
    echo $(((ended - begun) / 1000))
}

# The least of as many times as there are rounds.
least() {
    for _ in $(seq "$rounds"); do
        "$@" || exit 1
    done | sort -n | head -n 1
}

# One line for a session: size, where, its time and that of a call, and how that is to the first size's.
line() {
    awk -v size="$1" -v where="$2" -v time="$3" -v calls="$4" -v first="$5" 'BEGIN {
        printf "%4d instances %-10s %9.2f ms, %5d calls, %7.3f ms a call, %5.2f times the first\n",
            size, where, time / 1000, calls, time / 1000 / calls, time / calls / first }'
}

# The calls that a session says that it made.
calls_of() {
    sed -n 's/^generated .* with \([0-9]*\) calls$/\1/p' answers
}

# The largest resident memory of a session, in MiB.
memory_of() {
    rm -f director.db* cloud.db*
    /usr/bin/time -f %M "$1" < session 2>&1 > /dev/null | awk '{ printf "%.0f", $1 / 1024 }'
}

first_memory=
first_disk=
for size in 64 256 512; do
    echo "!generate $size" > session
    time=$(least time_of "$memory") || exit 1
    calls=$(calls_of)
    line "$size" "in memory" "$time" "$calls" "${first_memory:=$(awk -v t="$time" -v c="$calls" 'BEGIN { print t / c }')}"
    time=$(least time_of "$program") || exit 1
    line "$size" "on disk" "$time" "$calls" "${first_disk:=$(awk -v t="$time" -v c="$calls" 'BEGIN { print t / c }')}"
    if command -v sqlite3 > /dev/null; then
        inserts_of director.db > inserts.director
        inserts_of cloud.db > inserts.cloud
        other=$(least time_of_inserts) || exit 1
        awk -v time="$time" -v other="$other" 'BEGIN {
            printf "     its bodies by sqlite3 %9.2f ms, on disk %5.2f times that\n", other / 1000, time / other }'
    fi
done
if [ -x /usr/bin/time ]; then
    echo "512 instances take $(memory_of "$memory") MiB in memory, and $(memory_of "$program") MiB with files"
fi
