#!/usr/bin/env bash
# Draws the pictures of docs/pictures again, by the program named, and tells which differ: tools/check-pictures.sh PROGRAM [--write]
set -o pipefail
program="$(realpath -e "${1:?a program}")" || exit 1
tools="$(cd "$(dirname "$0")" && pwd)" || exit 1
cd "$tools/../examples" || exit 1
write="${2:-}"
failed=0

# Compares what is drawn on standard input with the picture of this name, or puts it in its place.
picture() {
    local kept="../docs/pictures/$1.svg" drawn
    drawn="$(cat)"
    [ "$write" = --write ] && echo "$drawn" > "$kept"
    [ -n "$drawn" ] && [ "$drawn" = "$(cat "$kept")" ] || { echo "another picture: $1"; failed=1; }
}

for drawn in old_owner:t.json crash:t.json lost_relay:relay.json; do
    name="${drawn%:*}" topology="${drawn#*:}"
    picture "$name" < <("$program" replay --history --plan $name.plan $topology e | "$tools/draw-history.py" --topology $topology)
done
picture requests < <("$tools/draw-result.py" requests_per_minute spikes < requests/expected.jsonl)
job=(requests/topology.json requests/front1.jsonl requests/front2.jsonl)
picture progress < <("$program" solo --history "${job[@]}" | "$tools/draw-history.py" --progress --topology "${job[0]}")

[ "$failed" = 0 ] && echo "the pictures are those of the runs"
exit "$failed"
