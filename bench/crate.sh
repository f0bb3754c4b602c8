#!/usr/bin/env bash
# Measures what one crate after the other costs the gate, all of them or those that are named: the processor's seconds of a check
# from nothing, those that its tests take beyond it, each with one job, and how many must-fail edits it has. It works in a copy,
# over libraries that it builds first. Run nothing beside it.
set -euo pipefail
root=$(dirname "$(dirname "$(readlink -f "${BASH_SOURCE[0]}")")")
room=$(mktemp -d)
trap 'rm -rf "$room"' EXIT
cp "$root/crates.txt" "$root/HANDLES" "$room"
# (what is built of the crates, but no work of their checks)
tar -C "$root" --exclude='crates/*/out/incremental' -cf - crates | tar -C "$room" -xf -
git init -q "$room"
mapfile -t crates < <(sed -n 's/^\([a-z_]*\)[ a-z]*:.*/\1/p' "$room/crates.txt")
[ $# = 0 ] || crates=("$@")

# The processor's seconds of a command in the crate's folder.
spent() {
    local TIMEFORMAT='%U %S'
    { time "$@" >"$room/said" 2>&1 </dev/null || echo "failed" >"$room/failed"; } 2>&1 | awk '{ printf "%.0f", $1 + $2 }'
    if [ -e "$room/failed" ]; then
        tail -n 20 "$room/said" >&2
        exit 1
    fi
}

printf '%-24s %8s %8s %8s\n' crate check tests edits
for name in "${crates[@]}"; do
    cd "$room/crates/$name"
    # what stands below is built before the clock starts
    rt check --jobs 1 --only 'no function' >"$room/said" 2>&1 </dev/null || true
    rm -rf out/incremental
    check=$(spent rt check --jobs 1)
    rm -rf out/incremental
    whole=$(spent rt check --test --jobs 1)
    edits=$(find . -path './must-fail/*.edit' | wc -l)
    printf '%-24s %8d %8d %8d\n' "$name" "$check" $((whole - check)) "$edits"
done
