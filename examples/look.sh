#!/usr/bin/env bash
# A look at the main job of labdesk, in two to five minutes, with the Rattle kit and nothing else: two persons sign a result, one's own
# work is refused, the version is released, and a copy of it is checked.
#
#     examples/look.sh
#
# The program is built without its proof (`rt try`), and serves a laboratory over HTTP. Each reply has to be, byte for byte, that of a
# model in Python; if not, the look ends with status 1. The laboratory's file is made by the model, and its passwords are kept with 10,000
# rounds in place of 100,000 (examples/look.py says why). The first line says how long it will take, by the pace of this machine.
set -euo pipefail
unset CDPATH
case ${1:-} in
'') exec python3 "$(dirname "$(readlink -f "${BASH_SOURCE[0]}")")/look.py" --play ;;
-h | --help) sed -n '2,/^[^#]/s/^# \{0,1\}//p' "${BASH_SOURCE[0]}" ;;
*)
    echo "look.sh: it takes no arguments; '--help' says more" >&2
    exit 2
    ;;
esac
