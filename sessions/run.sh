#!/usr/bin/env bash
# Runs every session of the given folders, or of this one, through the program, which is built anew where it is older
# than a source, and compares its output and status. PROGRAM may name another program, which is taken as it is.
# A session is a file NAME with NAME.stdout and, where the status is not 0, NAME.status. A folder NAME.shelf
# holds the files that lie where it runs. Two sessions NAME.first and NAME.second are two runs in one folder: the second
# finds the stores that the first one left. After each session the database files alone, without their logs, have to be the
# stores that it left: a few questions are answered over copies of them as over copies of all files.
set -u
here=$(cd "$(dirname "$0")" && pwd)
top=$(dirname "$here")
[ "$#" -gt 0 ] || set -- "$here"

# Builds the program where it is older than a source.
build() {
    local newer=()
    [ -x "$program" ] && newer=(-newer "$program")
    if [ -n "$(find "$top/crates" -name out -prune -o \( -name '*.rt' -o -name '*.antt' \) "${newer[@]}" -print -quit)" ]; then
        make --no-print-directory -C "$top" build || exit 1
    fi
}

if [ -n "${PROGRAM:-}" ]; then
    program=$(realpath "$PROGRAM")
elif [ -d "$top/crates/boshd" ]; then
    program=$top/crates/boshd/out/boshd
    build
else
    echo "there is no program yet: sessions are skipped"
    exit 0
fi
passed=0
failed=0

# Runs a session in a folder.
run() {
    local session=$1 folder=$2 status=0 ended
    [ -d "$session.shelf" ] && cp -R "$session.shelf/." "$folder"
    [ -e "$session.status" ] && status=$(cat "$session.status")
    (cd "$folder" && timeout 120 "$program" < "$session" > "$folder.out" 2> "$folder.err")
    ended=$?
    if [ "$ended" = "$status" ] && cmp -s "$folder.out" "$session.stdout" && [ ! -s "$folder.err" ]; then
        passed=$((passed + 1))
    else
        failed=$((failed + 1))
        echo "FAILED $(basename "$session"): status $ended, wanted $status"
        diff "$session.stdout" "$folder.out" | head -20
    fi
}

# Asks what stands in the stores of a folder.
ask() {
    (cd "$1" && printf '%s\n' tasks releases 'disks --orphaned' '!cloud' | timeout 120 "$program" > "$1.out" 2>&1)
    echo "status $?" >> "$1.out"
}

# Tries whether the database files of a folder are whole without their logs.
try_alone() {
    local session=$1 folder=$2 whole=$2.whole alone=$2.alone
    [ -e "$folder/director.db" ] || return 0
    mkdir "$whole" "$alone"
    cp "$folder"/*.db* "$whole"
    cp "$folder"/*.db "$alone"
    ask "$whole"
    ask "$alone"
    if cmp -s "$whole.out" "$alone.out"; then
        passed=$((passed + 1))
    else
        failed=$((failed + 1))
        echo "FAILED $(basename "$session"): its database files are not whole without their logs"
        diff "$whole.out" "$alone.out" | head -20
    fi
    rm -rf "$whole" "$alone" "$whole.out" "$alone.out"
}

for sessions in "$@"; do
    sessions=$(cd "$sessions" && pwd)
    for wanted in "$sessions"/*.stdout; do
        [ -e "$wanted" ] || continue
        session=${wanted%.stdout}
        folder=$(mktemp -d)
        case $session in
            *.second) ;;
            *.first)
                run "$session" "$folder"
                try_alone "$session" "$folder"
                run "${session%.first}.second" "$folder"
                try_alone "${session%.first}.second" "$folder"
                ;;
            *)
                run "$session" "$folder"
                try_alone "$session" "$folder"
                ;;
        esac
        rm -rf "$folder" "$folder.out" "$folder.err"
    done
done
echo "$passed passed, $failed failed"
[ "$failed" = 0 ]
