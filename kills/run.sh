#!/usr/bin/env bash
# Kills a program that appends bodies to a file, 100 times or as often as KILLS says, each time by `kill -9` after a
# random number of appends, and reads the file again: by the keeper, and a copy of it by sqlite3, where that is here.
# All bodies whose append was answered have to be there, and at most one more. Every fifth kill begins a new file, and
# comes early, perhaps before the first append was answered, where there may be no table yet; the others go on with the
# last file. Then files that sqlite3 made and that no keeper may take are given to it: each has to be refused with
# nothing changed in the database file. The counts are printed; what was lost, or taken, fails.
set -u
here=$(cd "$(dirname "$0")" && pwd)
program=$(dirname "$here")/crates/bosh_keep_bench/out/bosh_keep_bench
kills=${KILLS:-100}
folder=$(mktemp -d)
trap 'rm -rf "$folder"' EXIT
cd "$folder" || exit 1
table='CREATE TABLE bodies (position INTEGER PRIMARY KEY, body BLOB NOT NULL) STRICT'
has_sqlite3=
command -v sqlite3 > /dev/null && has_sqlite3=yes
failed=0
answered_in_all=0
one_more=0
read_alike=0

fail() {
    echo "$*"
    failed=1
}

# Appends to the file until so many appends were answered, and kills. The number that was answered last stays in `last`.
kill_after() {
    local stop=$1 lines
    : > answered
    "$program" each bodies.db 1000000 > answered 2> errors &
    local writer=$!
    while [ "$(wc -l < answered)" -lt "$stop" ] && kill -0 "$writer" 2> /dev/null; do :; done
    [ "$stop" -gt 0 ] || sleep "0.0$((RANDOM % 90 + 10))"
    kill -9 "$writer"
    wait "$writer" 2> /dev/null
    local status=$?
    [ "$status" -eq 137 ] || fail "the program ended by itself with $status: $(cat errors)"
    lines=$(wc -l < answered)
    if [ "$lines" -gt 0 ]; then
        last=$(head -n "$lines" answered | tail -n 1)
        answered_in_all=$((answered_in_all + lines))
    fi
}

# How many bodies a copy of the file has, as sqlite3 reads it, where each is what was written at its place.
count_by_sqlite3() {
    rm -rf copy
    mkdir copy
    cp bodies.db* copy 2> /dev/null
    if [ "$(sqlite3 copy/bodies.db 'SELECT count(*) FROM sqlite_schema' 2>&1)" = 0 ]; then
        echo 0
        return
    fi
    sqlite3 copy/bodies.db "SELECT CASE WHEN count(*) = count(CASE WHEN body = CAST(printf('%0100d', position) AS BLOB)
        THEN 1 END) AND count(*) = coalesce(max(position) + 1, 0) THEN count(*) ELSE 'changed' END FROM bodies;
        PRAGMA integrity_check" | paste -sd ' ' | sed 's/ ok$//'
}

# Whether a number of bodies is all that was answered, or one more.
is_whole() {
    [ "$1" = "$last" ] || [ "$1" = $((last + 1)) ]
}

# One kill, and what is read after it.
kill_once() {
    local stop=$1 theirs=
    kill_after "$stop"
    [ -n "$has_sqlite3" ] && theirs=$(count_by_sqlite3)
    local ours
    ours=$("$program" count bodies.db 2>&1)
    if ! is_whole "$ours"; then
        fail "$last answered, and the keeper reads: $ours"
        return
    fi
    [ "$ours" = "$last" ] || one_more=$((one_more + 1))
    if [ -n "$has_sqlite3" ]; then
        is_whole "$theirs" || fail "$last answered, and sqlite3 reads: $theirs"
        [ "$ours" != "$theirs" ] || read_alike=$((read_alike + 1))
    fi
    last=$ours
}

# What sqlite3 reads in a copy of a file.
dump_of() {
    rm -rf copy
    mkdir copy
    cp "$1" copy
    if [ -e "$1-wal" ]; then cp "$1-wal" copy; fi
    sqlite3 "copy/$1" .dump
}

# A file that a keeper may not take. The words are what is wrong with it, the mode of its journal, and what makes it; in
# the mode LOG it is left in the log. The database file has to stay as it is, the log to begin as it did, and sqlite3 to
# read the same.
refuse() {
    local wrong=$1 mode=$2 read_before size
    rm -f other.db* before*
    { [ "$mode" != LOG ] || echo '.dbconfig no_ckpt_on_close on'
        echo "PRAGMA journal_mode=${mode/LOG/WAL}; $3"; } | sqlite3 other.db > made || fail "not made: $wrong"
    cp other.db before
    if [ -e other.db-wal ]; then cp other.db-wal before-wal; else : > before-wal; fi
    size=$(stat -c %s before-wal)
    read_before=$(dump_of other.db)
    if "$program" load other.db > taken 2> refusal; then
        fail "taken: $wrong, $mode"
    fi
    cmp -s before other.db || fail "the file was changed: $wrong, $mode"
    cmp -s -n "$size" before-wal other.db-wal || fail "the log was changed: $wrong, $mode"
    [ "$read_before" = "$(dump_of other.db)" ] || fail "sqlite3 reads something else: $wrong, $mode"
    printf '%-34s %-6s %s; its log had %d bytes and has %d\n' "$wrong" "$mode" "$(cat refusal)" \
        "$size" "$(stat -c %s other.db-wal)"
}

refuse_all() {
    local mode=$1
    refuse "another program's table" "$mode" "CREATE TABLE notes (id INTEGER PRIMARY KEY, title TEXT)"
    refuse "a table beside it" "$mode" "$table; CREATE TABLE notes (id INTEGER PRIMARY KEY)"
    refuse "an index beside it" "$mode" "$table; CREATE INDEX by_body ON bodies (body)"
    refuse "a view beside it" "$mode" "$table; CREATE VIEW firsts AS SELECT body FROM bodies"
    refuse "another definition of the table" "$mode" "CREATE TABLE bodies (position INTEGER PRIMARY KEY, body BLOB)"
    refuse "a gap" "$mode" "$table; INSERT INTO bodies VALUES (0, x'30'), (1, x'31'), (3, x'33')"
    refuse "positions from 1" "$mode" "$table; INSERT INTO bodies VALUES (1, x'30'), (2, x'31')"
    refuse "a position below 0" "$mode" "$table; INSERT INTO bodies VALUES (-1, x'30'), (0, x'31')"
    refuse "a row that is no body" "$mode" "CREATE TABLE bodies (position INTEGER PRIMARY KEY, body BLOB NOT NULL);
        INSERT INTO bodies VALUES (0, 'a text'); PRAGMA writable_schema=ON; UPDATE sqlite_schema SET sql = '$table'"
}

echo "on $(stat -f -c %T .)"
last=0
for turn in $(seq "$kills"); do
    if [ $((turn % 5)) -ne 1 ]; then
        kill_once $((RANDOM % 200))
    else
        rm -f bodies.db*
        last=0
        kill_once $((RANDOM % 3))
    fi
done
echo "$kills kills: $answered_in_all appends were answered; $one_more times one more body is there"
if [ -n "$has_sqlite3" ]; then
    echo "sqlite3 read the same number in $read_alike of them"
    refuse_all WAL
    refuse_all LOG
    refuse_all DELETE
else
    echo "nothing is read or made by sqlite3, since it is not here"
fi
exit "$failed"
