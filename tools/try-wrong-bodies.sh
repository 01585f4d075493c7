#!/usr/bin/env bash
# Tries the wrong bodies that the gate leaves out, of the crates named or of all: tools/try-wrong-bodies.sh [CRATE ..]
# It works on a clone of what is committed, and begins with the libraries that were built here for the same sources
# (tools/kept-libraries.py build .). Each crate is a run of its own, which says of each body by what it was refused; the
# status is 1 where one was not.
cd "$(dirname "$0")/.." || exit 1
top="$PWD"
room="$(mktemp -d)"
trap 'rm -rf "$room"' EXIT
git clone -q . "$room/copy" && cd "$room/copy" || exit 1
[ "$#" -gt 0 ] || set -- $(ls -d crates/*/wrong | cut -d/ -f2)
for crate in "$@"; do
    [ -d "crates/$crate/wrong" ] || { echo "no wrong bodies are left out of $crate"; exit 1; }
done
"$top/tools/kept-libraries.py" give "$top" . "$@" || exit 1
rm -rf crates/*/must-fail
passed=0
for crate in "$@"; do
    cp -r "crates/$crate/wrong" "crates/$crate/must-fail"
    rt must-fail "$crate" || passed=1
    rm -rf "crates/$crate/must-fail"
done
exit "$passed"
