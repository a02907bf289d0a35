#!/usr/bin/env bash
# Tries wrong bodies that the prover has to refuse: those of the crates that the words name, or of every folder here.
# A trial is an edit like those of a crate's must-fail/, but the gate does not try it: a crate with edits in the gate is
# proved once more for them. Run the trials of a crate when one of its contracts changes. They are tried in this
# checkout, over the libraries that earlier checks and trials built here; what was let through, and what is no edit of
# this tree, is printed and fails. (rules/ has trials of another form: rules.py tries them.)
set -u
here=$(cd "$(dirname "$0")" && pwd)
top=$(dirname "$here")
edits=

put_back() {
    if [ -n "$edits" ]; then
        find "$edits" -name 'trial_*.edit' -delete
        rmdir "$edits" 2>/dev/null
        edits=
    fi
}

trap put_back EXIT
trap 'exit 1' INT TERM
cd "$top" || exit 1
if [ $# -eq 0 ]; then
    for trials in "$here"/*/; do
        [ "$(basename "$trials")" = rules ] || set -- "$@" "$(basename "$trials")"
    done
fi
failed=0
for crate in "$@"; do
    if [ ! -d "$here/$crate" ]; then
        echo "$crate has no trials"
        failed=1
        continue
    fi
    edits=$top/crates/$crate/must-fail
    mkdir -p "$edits"
    for trial in "$here/$crate"/*.edit; do
        cp "$trial" "$edits/trial_$(basename "$trial")"
    done
    echo "$crate: $(ls "$here/$crate" | wc -l) trials"
    rt must-fail "$crate" || failed=1
    put_back
done
exit "$failed"
