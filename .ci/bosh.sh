#!/usr/bin/env bash
# Runs each command line of bosh.lines, which begins with `$ `, and compares what is printed, and `status N` where that
# is not 0, with what follows it there. A stand-in takes the place of the program: it prints the session that it is
# given, or REPLY where that is set, and then ends with status 1. With --write what is printed is written there.
set -u
if ! command -v sqlite3 > /dev/null; then
    echo "sqlite3 is missing: the command lines of the wrapper are skipped"
    exit 0
fi
here=$(cd "$(dirname "$0")" && pwd)
folder=$(mktemp -d)
trap 'rm -rf "$folder"' EXIT
mkdir "$folder/bin" "$folder/shop" "$folder/outside"
cat > "$folder/bin/boshd" <<'END'
#!/bin/sh
[ -n "${REPLY:-}" ] || exec cat
cat > /dev/null
printf '%s\n' "$REPLY"
exit 1
END
chmod +x "$folder/bin/boshd"
cp -R "$here/../examples/shop/." "$folder/shop"
printf 'name: shop\nlast: line' > "$folder/outside/my shop.yml"
printf 'instances: 3 # as many\ngreeting: "Hello"\n' > "$folder/shop/vars.yml"
printf 'greeting: Come in\n' > "$folder/shop/spaces.yml"
printf 'azs: [z1, z2]\n' > "$folder/shop/lists.yml"
printf 'port: "80"\n' > "$folder/shop/quoted.yml"
export PATH=$here/../bin:$PATH BOSHD=$folder/bin/boshd
cd "$folder/shop" || exit 1
while IFS= read -r line; do
    [ "${line#\$ }" != "$line" ] || continue
    echo "$line"
    (eval "${line#\$ }") 2>&1 < /dev/null
    status=$?
    [ "$status" = 0 ] || echo "status $status"
done < "$here/bosh.lines" > "$folder/printed"
if [ "${1:-}" = --write ]; then
    cp "$folder/printed" "$here/bosh.lines"
fi
diff "$here/bosh.lines" "$folder/printed" || exit 1
echo "bosh: $(grep -c '^\$ ' "$folder/printed") command lines passed"
