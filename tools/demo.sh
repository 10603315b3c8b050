#!/bin/sh
# Builds the program and shows it on the example data, in a folder of its own: an archive is created and laid, two of its disks are lost,
# the table is printed all the same, and fresh disks are swept.
set -eu
here=$(cd "$(dirname "$0")/.." && pwd)
(cd "$here/crates/raskold" && rt run -- help > /dev/null)
room=$(mktemp -d)
cp "$here"/crates/raskold/data/* "$room"
cd "$room"
run() {
    echo "> raskold $*"
    "$here/crates/raskold/out/raskold" "$@"
}
run create counts.txt
run lay counts.txt counts.csv
echo "> rm north-0.img south-1.img"
rm north-0.img south-1.img
run status counts.txt
run print counts.txt
run exchange counts.txt 0
run exchange counts.txt 3
run sweep counts.txt
run verify counts.txt
run status counts.txt
rm -r "$room"
