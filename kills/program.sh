#!/usr/bin/env bash
# Kills the program 200 times, or as often as KILLS says, each time by `kill -9` at a random moment of a deploy with
# disks and compilation in an empty folder, and gives the same session to a second run there. It has to end done, a task
# that was cut off has to stand as an error, and the machines and disks have to be one of each instance: none is left
# over, and none is lost. The counts are printed; what is otherwise fails. PROGRAM may name another program.
set -u
program=$(realpath "${PROGRAM:-$(dirname "$0")/../crates/boshd/out/boshd}")
kills=${KILLS:-200}
folder=$(mktemp -d)
trap 'rm -rf "$folder"' EXIT
cd "$folder" || exit 1
failed=0

fail() {
    echo "FAILED $*"
    failed=$((failed + 1))
}

cat > session << 'END'
file c.yml
|azs: [{name: z1}, {name: z2}]
|networks:
|- {name: net, subnets: [{range: 10.0.0.0/24, gateway: 10.0.0.1}]}
|vm_types: [{name: small}]
|compilation: {workers: 3, az: z1, vm_type: small, network: net}
file r/config/final.yml
|name: r
file r/jobs/j/spec
|name: j
|packages: [a, b, c]
file r/jobs/j/monit
file r/packages/a/spec
|name: a
|dependencies: [b]
file r/packages/a/packaging
file r/packages/b/spec
|name: b
file r/packages/b/packaging
file r/packages/c/spec
|name: c
file r/packages/c/packaging
file m.yml
|name: dep
|releases: [{name: r, version: latest}]
|stemcells: [{alias: s, os: jammy, version: latest}]
|update: {canaries: 1, max_in_flight: 2, canary_watch_time: 1000, update_watch_time: 1000}
|instance_groups:
|- name: web
|  instances: 5
|  azs: [z1, z2]
|  vm_type: small
|  stemcell: s
|  networks: [{name: net}]
|  persistent_disk: 10
|  jobs: [{name: j, release: r}]
upload-stemcell jammy 1.1
upload-release r --version=1
update-cloud-config c.yml
-d dep deploy m.yml
END
{ cat session && printf '%s\n' tasks '-d dep instances' '!cloud' 'disks --orphaned'; } > again

# How far a run has come: the bytes of the log of the director's store.
written() {
    stat -c %s run/director.db-wal 2> /dev/null || echo 0
}

# Runs the session to its end. How far it came stays in `whole`.
run_whole() {
    rm -rf run
    mkdir run
    (cd run && "$program" < ../session > ../printed) || fail "the session itself: $(cat printed)"
    whole=$(written)
}

# Kills a run once it has come to a random place, a moment later, unless it has ended by then.
kill_run() {
    local place=$(((RANDOM * 32768 + RANDOM) % whole)) runner
    rm -rf run
    mkdir run
    (cd run && exec "$program" < ../session > ../killed 2>&1) &
    runner=$!
    while [ "$(written)" -lt "$place" ] && kill -0 "$runner" 2> /dev/null; do :; done
    sleep "0.00$((RANDOM % 10))"
    kill -9 "$runner" 2> /dev/null
    wait "$runner" 2> /dev/null
    [ "$?" = 137 ]
}

# The tasks that are to be listed after a second run, by what the first one came to.
tasks_of() {
    case $1 in
        unopened) echo '1 done deploy dep' ;;
        interrupted) printf '1 error deploy dep: interrupted\n2 done deploy dep\n' ;;
        done) printf '1 done deploy dep\n2 done deploy dep\n' ;;
    esac
}

# The machines and disks that are to be there, by what is listed of the instances.
machines_of() {
    awk '{ print $5, "dep/" $1, $3, $4, "running", $6 ":mounted"; print $6, "dep/" $1, 10, $5 }' <<< "$1" | sort
}

# Runs the session again where a run was killed, and looks at what it prints.
run_again() {
    local lists instances came=interrupted
    (cd run && timeout 120 "$program" < ../again) > printed 2>&1 || fail "the second run ended with $?"
    lists=$(sed '1,/^task [12] done$/d' printed)
    instances=$(grep '^web/' <<< "$lists")
    grep -q '^task 1 done$' printed && came=unopened
    grep -q '^1 done' <<< "$lists" && [ "$came" = interrupted ] && came=done
    [ "$(grep 'deploy' <<< "$lists")" = "$(tasks_of "$came")" ] &&
        [ "$(grep -c '^web/[0-4] running .* vm-[0-9]* disk-[0-9]*$' <<< "$instances")" = 5 ] &&
        [ "$(grep '^vm\|^disk' <<< "$lists" | sort)" = "$(machines_of "$instances")" ] ||
        fail "the second run printed: $(cat printed)"
    count[$came]=$((${count[$came]} + 1))
}

declare -A count=([unopened]=0 [interrupted]=0 [done]=0)
run_whole
turn=0
while [ "$turn" -lt "$kills" ]; do
    kill_run || continue
    turn=$((turn + 1))
    run_again
done
echo "$kills kills: ${count[unopened]} before the task, ${count[interrupted]} in it, ${count[done]} after it; $failed failed"
[ "$failed" = 0 ]
