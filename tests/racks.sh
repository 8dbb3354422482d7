#!/usr/bin/env bash
# Runs rackmap on every example rack and compares what it prints and how it ends with the map beside the rack.
# A rack in racks/ is granted: status 0 and nothing on standard error. One in racks/refused/ is refused: status 1,
# and one sentence on standard error. The program is proved and built first, where that has not been done.
set -u
cd "$(dirname "${BASH_SOURCE[0]}")/.." || exit 2
program=crates/rackmap/out/rackmap
passed=0
failed=0
out=$(mktemp) && err=$(mktemp) || exit 2
trap 'rm -f "$out" "$err"' EXIT

try() { # rack, status, lines on standard error
    "$program" <"$1" >"$out" 2>"$err"
    local status=$? said
    said=$(wc -l <"$err")
    if [ "$status" -eq "$2" ] && [ "$said" -eq "$3" ] && cmp -s "$out" "${1%.rack}.map"; then
        passed=$((passed + 1))
    else
        failed=$((failed + 1))
        echo "$1: status $status, $said lines on standard error, and on standard output:"
        cat "$out"
    fi
}

if ! (cd crates/rackmap && rt run <../../racks/smallest.rack) >"$out" 2>"$err"; then
    tail -n 20 "$err"
    echo '0 passed, 1 failed'
    exit 1
fi
for rack in racks/*.rack; do try "$rack" 0 0; done
for rack in racks/refused/*.rack; do try "$rack" 1 1; done
echo "$passed passed, $failed failed"
[ "$failed" -eq 0 ]
