#!/usr/bin/env bash
# Tries all there is to try: tools/test.sh [--unproved]
# Without a word that is the gate, .ci/run: each crate is proved from nothing, with each wrong body, test and program, and
# then what starts the program is tried. That takes forty to eighty minutes on four processors that do nothing else.
# With --unproved NOTHING IS PROVED: each #[test] runs as `rt try` runs it, with checks in the place of proofs; each
# program is built without a proof, run and held to its text; and tools/check-built.sh tries it. That takes some ten
# minutes, and shows what the code does, and nothing of what its clauses say.
cd "$(dirname "$0")/.." || exit 1
case "${1:-}" in
'') exec bash .ci/run ;;
--unproved) ;;
*) echo "tools/test.sh takes no word, or --unproved" >&2; exit 2 ;;
esac
room="$(mktemp -d)" || exit 1
trap 'kill $(jobs -p) 2> /dev/null; rm -rf "$room"' EXIT
passed=0 failed=0

# Counts a thing that passed or failed, and says which.
count() {
    local how="$1"
    shift
    if [ "$how" = 0 ]; then passed=$((passed + 1)); else failed=$((failed + 1)); fi
    echo "$([ "$how" = 0 ] && echo passed || echo FAILED) after $SECONDS s: $*"
}

# The tests of a crate as their run told them, which ended with this status; where it failed, what it said last.
tell_tests() {
    local told
    told="$(grep '^test result: ' "$room/$1")"
    [ "$2" = 0 ] && [ -n "$told" ]
    count "$?" "tests of $1: ${told#test result: ok. }"
    [ "$2" = 0 ] || grep -v ' \.\.\. ok$' "$room/$1" | tail -n 40
}

# Runs a program with what lies beside its source, and compares its text and its status.
try_program() {
    local folder="$PWD/crates/$1" words=() input=/dev/null status=0 wanted=0
    [ -f "$folder/args" ] && mapfile -t words < "$folder/args"
    [ -f "$folder/stdin" ] && input="$folder/stdin"
    [ -f "$folder/status" ] && wanted="$(cat "$folder/status")"
    mkdir "$room/data" && { [ ! -d "$folder/data" ] || cp -r "$folder/data/." "$room/data"; }
    (cd "$room/data" && "$2" "${words[@]}" < "$input" > "$room/text") || status=$?
    rm -r "$room/data"
    [ "$status" = "$wanted" ] && cmp "$room/text" "$folder/stdout"
    count "$?" "the program $1, with its words"
}

echo "NOTHING IS PROVED HERE: tests, programs and checks run over code that is compiled without a proof"
tested="$(grep -rl '^#\[test\]' crates/*/src | cut -d/ -f2 | sort -u)"
programs="$(ls crates/*/src/main.rt | cut -d/ -f2)"
declare -A running
for crate in $tested; do
    (cd "crates/$crate" && exec rt try --test --seconds 3600) > "$room/$crate" 2>&1 &
    running[$crate]=$!
done
for crate in $programs; do
    program="$(tools/unproved-program.sh --fast "$crate")" || { count 1 "building $crate"; continue; }
    try_program "$crate" "$program"
    tools/check-built.sh "$program"
    count "$?" "what tools/check-built.sh tries"
done
for crate in $tested; do
    wait "${running[$crate]}"
    tell_tests "$crate" "$?"
done
echo "$passed passed, $failed failed, and nothing was proved"
[ "$failed" = 0 ]
