#!/usr/bin/env bash
# Does the steps of docs/EXAMPLE.md by the program named: ./check.sh PROGRAM
# It says whether the event lines are those that stand here, with no line of the logs left out, and the text is
# expected.jsonl; and whether time zones, lines of another form and files in the order of time go as that page says.
# It wants jq.
set -eo pipefail
program="$(realpath -e "${1:?a program}")"
cd "$(dirname "$0")"
room="$(mktemp -d)"
trap 'rm -rf "$room"' EXIT

./make-logs.py
for front in front1 front2; do
    jq -cR -f to-events.jq $front.log 2> "$room/left-out" | cmp - $front.jsonl
    cmp /dev/null "$room/left-out"
done
"$program" solo topology.json front1.jsonl front2.jsonl | cmp - expected.jsonl
echo "the text is expected.jsonl"

# One moment in three time zones, behind two lines that are left out: one of another form, and one without a date.
cat > "$room/zones.log" <<'END'
no request
api - - - [99/Nov/2026:10:00:05 +0000] "GET / HTTP/1.1" 200 2 "-" "-"
api - - - [28/Nov/2026:10:00:05 +0000] "GET / HTTP/1.1" 200 2 "-" "-"
api - - - [28/Nov/2026:12:00:05 +0200] "GET / HTTP/1.1" 200 2 "-" "-"
api - - - [28/Nov/2026:04:30:05 -0530] "GET / HTTP/1.1" 200 2 "-" "-"
END
event='{"key":"api","ts":1795860005000000}'
jq -cR -f to-events.jq "$room/zones.log" 2> "$room/left-out" | cmp - <(printf '%s\n' "$event" "$event" "$event")
[ "$(wc -l < "$room/left-out")" = 2 ]
echo "time zones count, and two lines are told to be left out"

# In the order of time no line is late, so the minute of 10:01 has all 17 of shop.
./by-time.sh front1.jsonl front2.jsonl > "$room/sorted.jsonl"
"$program" solo topology.json "$room/sorted.jsonl" /dev/null |
    cmp - <(sed 's/\("key":"shop".*"ts":1795860120000000,"value":\)15/\117/; s/"late":2/"late":0/' expected.jsonl)
echo "in the order of time no line is late"
