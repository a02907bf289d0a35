#!/usr/bin/env bash
# Deploys the shop, changes it and takes it down, each time by a new run of the program in one folder, which keeps its
# two stores there. PROGRAM may name another program.
set -eu
here=$(cd "$(dirname "$0")" && pwd)
program=$(realpath "${PROGRAM:-$here/../../crates/boshd/out/boshd}")
folder=$(mktemp -d)
trap 'rm -rf "$folder"' EXIT
cp -R "$here/cloud.yml" "$here/shop.yml" "$here/release" "$folder"
cd "$folder"

# Shows some commands, and runs the program on them.
boshd() {
    printf '$ %s\n' "$@"
    printf '%s\n' "$@" | "$program"
}

boshd 'upload-stemcell jammy 1.1' 'upload-release release --version=1' 'update-cloud-config cloud.yml'
boshd '-d shop deploy shop.yml' '-d shop instances' '!show shop/web/1 jobs/web/web.conf'
sed -i 's/instances: 2/instances: 3/; s/Welcome/Come in/' shop.yml
boshd '-d shop deploy shop.yml' '-d shop instances' '!show shop/web/1 jobs/web/web.conf'
boshd '-d shop recreate db/0' '-d shop instances'
boshd '-d shop stop web/2 --hard' '-d shop instances'
boshd '-d shop delete-deployment' 'disks --orphaned'
boshd 'clean-up --all' '!cloud' 'tasks'
