#!/usr/bin/env bash
# Runs each example of the pages by the program named, and compares its text: tools/check-examples.sh PROGRAM
set -o pipefail
program="$(realpath -e "${1:?a program}")" || exit 1
cd "$(dirname "$0")/../examples" || exit 1
failed=0

# The file that has the wanted text, and the words.
expect() {
    local wanted="$1"
    shift
    "$program" "$@" | cmp - "$wanted" || { echo "another text: $*"; failed=1; }
}

expect expected.jsonl solo t.json e
expect expected.jsonl plain t.json e
expect expected.jsonl replay --plan old_owner.plan t.json e
expect expected.jsonl replay --plan crash.plan t.json e
expect expected.jsonl replay --plan lost_relay.plan relay.json e
for mode in solo plain; do
    expect expected.jsonl $mode relay.json e
done
expect expected.jsonl run --workers 2 --rounds 4 relay.json e
expect expected.jsonl run --workers 2 --rounds 4 t.json e
expect expected.jsonl run --workers 2 --rounds 4 --plan rounds.plan t.json e
for mode in solo plain; do
    expect requests/expected.jsonl $mode requests/{topology.json,front1.jsonl,front2.jsonl}
done
expect live.jsonl solo --live t.json e
expect <(head -n 2 live.jsonl; echo '{"lines":2,"other":1}') collect live.jsonl
expect twice.jsonl replay --plan twice.plan --live t.json e
expect expected.jsonl replay --plan twice.plan t.json e
expect <(echo '{"fired":3,"handled":3,"injected":3,"late":0}') load 7 3

[ "$failed" = 0 ] && echo "each example has its text"
exit "$failed"
