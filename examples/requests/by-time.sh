#!/usr/bin/env bash
# Makes one event file of several, in the order of time: ./by-time.sh FILE.. > sorted.jsonl
# Their watermark lines are left out, and behind every 1,000th event stands a new one. No event is late then. It wants jq.
set -o pipefail
jq -c 'select(has("watermark") | not) | {ts} + .' "$@" |
    LC_ALL=C sort -s -t: -k2,2n |
    jq -c '., (select(input_line_number % 1000 == 0) | {watermark: .ts})'
