#!/usr/bin/env bash
# Runs the program named once for each status, and compares what it says and how it ends: tools/check-statuses.sh PROGRAM
# It is no part of `rt ci`, since a program that is proved may not start another.
set -u
root="$(cd "$(dirname "$0")/.." && pwd)"
program="$(realpath -e "${1:?a program}")" || exit 1
room="$(mktemp -d)"
trap 'rm -rf "$room"' EXIT
cd "$room" || exit 1
failed=0

# The wanted status, the wanted text on standard error, and the words.
expect() {
    local number="$1" text="$2" said status
    shift 2
    said="$("$program" "$@" 2>&1 > "${out:-/dev/null}")"
    status=$?
    if [ "$status" != "$number" ] || [ "$said" != "$text" ]; then
        echo "wanted $number '$text', got $status '$said': $*"
        failed=1
    fi
}

cp "$root/examples/t.json" t.json
cp "$root/examples/e" e
sed 's/"reads":\[{"stream":"raw"/"reads":[{"stream":"later"/' t.json > later.json
sed 's/\],"computations"/,{"name":"taps","stream":"more"}],"computations"/' t.json > taps.json
sed 's/"by":"key"/"by":"head"/' t.json > head.json
sed 's/"stream":"mid","by"/"stream":"raw","by"/' "$root/examples/relay.json" > unheard.json
printf '{"key":"a","ts":10}\n{"key":"a","ts":1' > cut
head -c 1048577 /dev/zero | tr '\0' ' ' > long.json
mkdir folder

expect 0 '' solo t.json e
expect 0 '' solo --history t.json e
expect 0 '' solo head.json e
expect 2 'millwheel: usage: millwheel MODE ARGS'
expect 2 'millwheel: usage: millwheel MODE ARGS' sing t.json e
expect 2 'millwheel: usage: millwheel MODE ARGS' solo t.json -e
expect 2 'millwheel: usage: millwheel MODE ARGS' solo --live --history t.json e
expect 0 '' load 7 3
expect 0 '' solo taps.json e e
expect 0 '' solo --keep rows.db t.json e
expect 3 'millwheel: no file missing' solo t.json missing
expect 4 'millwheel: topology refused: UnknownStream' solo later.json e
expect 4 'millwheel: topology refused: BadWeak' solo unheard.json e
expect 5 'millwheel: events refused: file 0 line 2: NotJson' solo t.json cut
expect 5 'millwheel: events refused: file 1 line 2: NotJson' solo taps.json e cut
expect 6 'millwheel: plan refused: line 1' replay --plan e t.json e
expect 6 'millwheel: plan refused: line 2' run --workers 1 --rounds 4 --plan "$root/examples/rounds.plan" t.json e
expect 2 'millwheel: usage: millwheel MODE ARGS' run --workers 17 --rounds 4 t.json e
expect 2 'millwheel: usage: millwheel MODE ARGS' run --workers 2 --rounds 4 --keep rows.db t.json e
expect 0 '' run --workers 16 --rounds 2 t.json e
expect 7 'millwheel: the keeper failed' solo --keep folder t.json e
expect 10 'millwheel: the keeper is not empty: part 0 key ' solo --keep rows.db t.json e
out=/dev/full expect 8 'millwheel: the output failed' solo t.json e
out=/dev/full expect 8 'millwheel: the output failed' solo --live t.json e
expect 13 "millwheel: can't read folder" solo t.json folder
expect 14 'millwheel: too long: long.json' solo long.json e
expect 15 'millwheel: 1 event files for 2 injectors' solo taps.json e
expect 15 'millwheel: 2 event files for 1 injectors' solo t.json e e

# 12 can't come of a keeper whose rows the program wrote, 9 not at will, and 11 not in a shell's time.
[ "$failed" = 0 ] && echo "each status that a shell can bring about has its text and its number"
exit "$failed"
