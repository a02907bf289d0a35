#!/usr/bin/env bash
# Stops the director at each call of some sessions, before it and after it, where no other open call takes effect and
# where all do, starts it anew and gives the interrupted commands again. These have to end done, and what `instances`
# and `!read` print then has to be what they print without the stop, but for the numbers of machines and disks. The
# counts are printed; what differs fails. PROGRAM may name another program.
set -u
top=$(cd "$(dirname "$0")/.." && pwd)
program=$(realpath "${PROGRAM:-$top/crates/boshd/out/boshd}")
sessions=$top/sessions
# The methods of the sessions' calls. Those that ask how things are come only after a stop.
methods='create_vm delete_vm create_disk delete_disk attach_disk detach_disk apply start drain stop mount_disk
    unmount_disk migrate_disk compile_package'
folder=$(mktemp -d)
trap 'rm -rf "$folder"' EXIT
cd "$folder" || exit 1
failed=0

fail() {
    echo "FAILED $*"
    failed=$((failed + 1))
}

# Runs the session of standard input in an empty folder, then what is to be looked at, after a line that marks it.
# What is printed before the mark stays in `replies`, and what comes after it, without numbers, in `shown`.
run_session() {
    rm -rf run
    mkdir run
    { cat && echo 'task 1000000' && cat look; } | (cd run && timeout 120 "$program") > printed 2>&1
    sed '/NoTask 1000000/,$d' printed > replies
    sed '1,/NoTask 1000000/d; s/vm-[0-9]*/vm/; s/disk-[0-9]*/disk/' printed > shown
}

# The session in `lines`, in which a stop comes before so many commands from a line on, which are given again.
with_stop() {
    local at=$1 count=$2 stop=$3
    printf '%s\n' "${lines[@]:0:at}" "!stop $stop" "${lines[@]:at:count}" '!restart' "${lines[@]:at}"
}

# Whether a stop came in these commands. One that waits longer comes in later ones.
stop_once() {
    local session=$1 at=$2 count=$3 stop=$4 again
    with_stop "$at" "$count" "$stop" | run_session
    sed '/^restarted$/,$d' replies | grep -q '^error: book Stopped$' || return 1
    again=$(sed '1,/^restarted$/d' replies | head -n $((count > 1 ? count - 1 : 1)))
    if grep -qv '^task [0-9]* done$' <<< "$again"; then
        fail "$session: $stop: ${lines[at]}: $again"
    elif ! diff wanted shown; then
        fail "$session: $stop: ${lines[at]}"
    fi
}

# Stops at each call of so many commands from a line on, method by method, until there is no further call.
stop_each() {
    local session=$1 at=$2 count=$3 method place
    for method in $methods; do
        place=1
        while stop_once "$session" "$at" "$count" "before $method * $place none"; do
            stop_once "$session" "$at" "$count" "before $method * $place all" || fail "$session: no stop before, all"
            stop_once "$session" "$at" "$count" "after $method * $place none" || fail "$session: no stop after"
            stop_once "$session" "$at" "$count" "after $method * $place all" || fail "$session: no stop after, all"
            place=$((place + 1))
        done
        calls=$((calls + place - 1))
    done
}

# Stops at each call of a session, and looks at its end by the commands that follow.
stop_all() {
    local session=$1 at count
    printf '%s\n' "${@:2}" > look
    mapfile -t lines < <(grep -v '^!stop\|^!restart' "$sessions/$session")
    printf '%s\n' "${lines[@]}" | run_session
    cp shown wanted
    calls=0
    for ((at = 0; at < ${#lines[@]}; at += count)); do
        count=1
        case ${lines[at]} in
            '!together '*) count=$((1 + ${lines[at]#* })) ;;
            -d*deploy* | clean-up*) ;;
            *) continue ;;
        esac
        stop_each "$session" "$at" "$count"
    done
    echo "$session: $calls calls, $((4 * calls)) stops"
}

stop_all disk_grown_stopped_after '-d dep instances' '!read dep/web/0'
stop_all package_compiled_once '-d a instances' '-d b instances'
stop_all disks_cleaned_up '-d dep instances'
stop_all shop '-d shop instances' '!read shop/db/0'
echo "$failed failed"
[ "$failed" = 0 ]
