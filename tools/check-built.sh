#!/usr/bin/env bash
# Tries on a built program what the gate can't, since a program that is proved may start no other: tools/check-built.sh PROGRAM ..
# Before that it looks up what the pages name. Where all is as the pages say, it says nothing; else what is not, and a
# last line as that of `rt ci`.
[ "$#" -gt 0 ] || { echo "name a program, as tools/build.sh or rt ci makes it: crates/millwheel/out/millwheel" >&2; exit 2; }
tools="$(dirname "$0")"
failed=0

# Runs a check with these words, and tells what it said where it failed.
check() {
    local said
    said="$("$tools/$@" 2>&1)" && return
    printf '%s:\n%s\n' "$*" "$said"
    failed=$((failed + 1))
}

check check-pages.py
for program in "$@"; do
    for script in check-examples.sh check-statuses.sh check-pictures.sh check-words.py check-tools.py; do
        check "$script" "$program"
    done
done
[ "$failed" = 0 ] || { echo "0 passed, $failed failed"; exit 1; }
