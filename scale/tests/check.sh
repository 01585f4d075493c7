#!/usr/bin/env bash
# The tests of the split, beside a built program: MILLWHEEL=PROGRAM scale/tests/check.sh [unittest's words]
# Debian's python3-distributed has to be there. It is no part of the gate.
cd "$(dirname "$0")/.." || exit 1
[ -x "${MILLWHEEL:-}" ] || { echo "MILLWHEEL=PROGRAM has to name the program that tools/build.sh makes" >&2; exit 2; }
MILLWHEEL="$(realpath "$MILLWHEEL")" exec /usr/bin/python3 -W ignore -m unittest "$@"
