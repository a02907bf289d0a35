#!/usr/bin/env bash
# Prints how long sessions of 1, 4 and 8 MiB of comment lines take, and how the times grow. And how long it takes to
# put 64, 128 and 256 works in order of compilation, where each needs the one before it and where each needs all
# before it. And how long it takes to read texts of 64 KiB, 256 KiB and 1 MiB of one form, and to look up each key of
# a mapping; and to read a MiB of each form, beside other readers. Then how fast the body of a large entry is written
# and read, beside a plain copy of its bytes; and how long it takes to collect releases of 64, 128 and 256 packages,
# each of which needs all before it. And how long it takes to check cloud configs of 8 and 16 networks, and to assign
# 512 addresses of which none, 4,096 and 8,192 are held; and the goals of 64, 256 and 512 instances, each of one
# job, and of 64 jobs with 200 properties each. And how long ten calls take on each of 5,000 and 10,000 machines of a
# cloud, and a load of what they leave; and to enter a lock and leave it 1,000,000 times, in one thread alone and in
# each of two, beside a mutex. And how long a deploy of 64, 256 and 512 instances takes by claims and ends of calls on a
# book, and the fold of its entries; and how long it takes on a site. Each time is the least of five runs; only the ratios within one run say
# something. What the works are given is made by inputs.py.
set -u
here=$(cd "$(dirname "$0")" && pwd)
top=$(dirname "$here")
program=$top/crates/boshd/out/boshd
texts=$top/crates/cases_texts/out/cases_texts
goals=$top/crates/cases_goals/out/cases_goals
book=$top/crates/bosh_book_bench/out/bosh_book_bench
crew=$top/crates/bosh_crew_bench/out/bosh_crew_bench
crowds=$top/crates/cases_crowds/out/cases_crowds
folder=$(mktemp -d)
trap 'rm -rf "$folder"' EXIT
mkdir "$folder/given"
python3 "$here/inputs.py" "$folder/given" || exit 1

# So many MiB of comment lines, each of 64 bytes.
comments() {
    yes "# $(printf 'x%.0s' {1..61})" | head -c $(($1 * 1048576))
}

# The least time of five runs of a command in an empty folder, in microseconds. The first word is the file that it reads.
least() {
    local best= input=$1
    shift
    for _ in 1 2 3 4 5; do
        local begun ended took
        rm -rf "$folder/here"
        mkdir "$folder/here"
        begun=$(date +%s%N)
        (cd "$folder/here" && "$@" < "$input" > /dev/null)
        ended=$(date +%s%N)
        took=$(((ended - begun) / 1000))
        if [ -z "$best" ] || [ "$took" -lt "$best" ]; then
            best=$took
        fi
    done
    echo "$best"
}

# The least of five times that a program tells of itself, in microseconds. The words are the program and its own.
least_told() {
    for _ in 1 2 3 4 5; do
        "$@"
    done | sort -n | head -n 1
}

# One line, with the ratio to another time: size, unit, time, the other time, its name.
line() {
    awk -v size="$1" -v unit="$2" -v time="$3" -v other="$4" -v name="$5" \
        'BEGIN { printf "%4d %-32s %9.2f ms  %6.2f times %s\n", size, unit, time / 1000, time / other, name }'
}

# One line for each size of a session.
table() {
    local unit=$1 make=$2 first=
    shift 2
    for size in "$@"; do
        "$make" "$size" > "$folder/session"
        local time
        time=$(least "$folder/session" "$program")
        [ -n "$first" ] || first=$time
        line "$size" "$unit" "$time" "$first" "the first"
    done
}

# One line for each size that a work is done on, with the ratio to the time of `the first` or of `the one before`. The
# words are the program, the work, its file without the size and with `%` in its place, the unit, and the sizes.
table_of() {
    local program=$1 work=$2 file=$3 unit=$4 against=$5 other=
    shift 5
    for size in "$@"; do
        local time
        time=$(least_told "$program" bench "$work" "$folder/given/${file/\%/$size}")
        line "$size" "$unit" "$time" "${other:-$time}" "$against"
        if [ -z "$other" ] || [ "$against" = "the one before" ]; then
            other=$time
        fi
    done
}

# One line for deploys of 64, 256 and 512 instances. The words are the program, the work and the unit.
deploys_of() {
    local program=$1 work=$2 unit=$3 first=
    for size in 64 256 512; do
        local time
        time=$(least_told "$program" "$work" "$size")
        line "$size" "$unit" "$time" "${first:=$time}" "the first"
    done
}

# How long the reader takes for a MiB of each form, beside the loader of libyaml, where that is installed with its header;
# and for a MiB of JSON beside the JSON reader that it stands on.
readers() {
    local loader=$folder/load form text
    if cc -O2 -o "$loader" "$here/load.c" -lyaml 2> /dev/null; then
        for form in manifest mappings sequences literals quoted plain integers comments blanks; do
            text=$folder/given/$form.1024
            line 1024 "KiB of YAML, $form" "$(least_told "$texts" bench yaml.read "$text")" \
                "$(least_told "$loader" "$text")" "libyaml's"
        done
    else
        echo "no times beside libyaml, since cc or the library with its header is not here"
    fi
    text=$folder/given/json.1024
    line 1024 "KiB of JSON" "$(least_told "$texts" bench yaml.read "$text")" \
        "$(least_told "$texts" bench yaml.parse "$text")" "serde_json's"
}

# How long a work on the opening of a task of 512 instances takes, and how many times as long as a copy of its bytes.
entries() {
    local copied work
    copied=$(least_told "$texts" bench entry.copy "$folder/given/entry.cases" 20000)
    for work in write read; do
        line 100 "times $work of an entry" "$(least_told "$texts" bench "entry.$work" "$folder/given/entry.cases" 100)" \
            "$((copied / 200 > 0 ? copied / 200 : 1))" "a copy's"
    done
}

# How long it takes to enter a lock and leave it so many thousand times, beside a mutex of the standard library.
doors() {
    local crowd
    for crowd in alone beside; do
        line "$1" "thousand times in and out, $crowd" "$(least_told "$crowds" bench "lock.$crowd" "${1}000")" \
            "$(least_told "$crowds" bench "mutex.$crowd" "${1}000")" "a mutex's"
    done
}

table "MiB of comment lines" comments 1 4 8
table_of "$texts" compile.levels chain.%.cases "works, each on the one before" "the first" 64 128 256
table_of "$texts" compile.levels all.%.cases "works, each on all before" "the first" 64 128 256
for form in mappings sequences literals; do
    table_of "$texts" yaml.read "$form.%" "KiB of $form" "the one before" 64 256 1024
done
table_of "$texts" yaml.find mappings.% "KiB of a mapping, each key found" "the one before" 64 256 1024
readers
entries
table_of "$texts" cloud.calls cloud.%.cases "machines with ten calls each" "the first" 5000 10000
table_of "$texts" cloud.load cloud.%.cases "machines with ten calls, loaded" "the first" 5000 10000
table_of "$goals" release.collect release.%.cases "packages of a release" "the first" 64 128 256
table_of "$goals" config.check config.% "networks of 16 subnets, checked" "the first" 8 16
table_of "$goals" pool.assign pool.%.cases "held, 512 addresses assigned" "the first" 0
table_of "$goals" pool.assign pool.%.cases "held, 512 addresses assigned" "the first" 4096 8192
table_of "$goals" goal.of plain.%.cases "instances of one job, their goal" "the first" 64 256 512
table_of "$goals" goal.of full.%.cases "instances of 64 jobs, their goal" "the first" 64 256 512
doors 1000
deploys_of "$book" drive "instances, by claims and ends of calls"
deploys_of "$book" fold "instances, their entries folded"
deploys_of "$crew" drive "instances, driven on a site"
