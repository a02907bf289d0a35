#!/usr/bin/env bash
# Carries out the commands of TUTORIAL.md, the lines that begin with `    $ `, one after another from an empty folder
# on, and compares what they print with what follows them there. With --write what they print is written there. BOSHD
# may name another program.
set -u
if ! command -v sqlite3 > /dev/null; then
    echo "sqlite3 is missing: the tutorial is skipped"
    exit 0
fi
here=$(cd "$(dirname "$0")" && pwd)
folder=$(mktemp -d)
trap 'rm -rf "$folder"' EXIT
export TREE=${here%/*}
BOSHD=$(realpath "${BOSHD:-$TREE/crates/boshd/out/boshd}")
export BOSHD PATH=$TREE/bin:${BOSHD%/*}:$PATH
cd "$folder" || exit 1
is_output=no
while IFS= read -r line <&3; do
    case $line in
        '    $ '*)
            printf '%s\n' "$line"
            eval "${line#    \$ }" > "$folder.printed" 2>&1 < /dev/null
            sed 's/^/    /; s/ *$//' "$folder.printed"
            is_output=yes
            ;;
        '    '*) [ "$is_output" = yes ] || printf '%s\n' "$line" ;;
        *)
            printf '%s\n' "$line"
            is_output=no
            ;;
    esac
done 3< "$here/TUTORIAL.md" > "$folder.page"
rm -f "$folder.printed"
[ "${1:-}" != --write ] || cp "$folder.page" "$here/TUTORIAL.md"
diff "$here/TUTORIAL.md" "$folder.page"
status=$?
rm -f "$folder.page"
[ "$status" = 0 ] && echo "tutorial: $(grep -c '^    \$ ' "$here/TUTORIAL.md") commands passed"
exit "$status"
