#!/usr/bin/env bash
# Runs the gate from nothing, on a clone of the last commit, and prints what it cost: its last line, its time, and of each crate
# the processor's seconds of its check, of its tests (which the kit proves with the crate once more) and of its must-fail edits,
# with their number. It takes as long as the gate: run nothing beside it, for whatever the prover does is counted.
#
#     bench/run gate [--write]    --write puts what each crate cost into tools/seconds, if everything passed
set -euo pipefail
root=$(dirname "$(dirname "$(readlink -f "${BASH_SOURCE[0]}")")")
room=$(mktemp -d)
trap 'rm -rf "$room"' EXIT
git clone -q "$root" "$room/clone"
cd "$room/clone"
kept=()
[ "${1:-}" != --write ] || kept=("$root/tools/seconds")
CHECK_ANEW=yes python3 "$root/bench/gate.py" "$room/said" "${kept[@]}"
