#!/usr/bin/env bash
# Shows a run of the small example, with the word `relay` of the same behind a weak pass, or with the word `requests` of
# the event lines of two web logs (docs/EXAMPLE.md):
#     tools/run-example.sh [--fast | --hard] [relay | requests] [--history] [--plan old_owner.plan]
#     tools/run-example.sh [--fast | --hard] relay [--history] --plan lost_relay.plan
#     tools/run-example.sh [--fast | --hard] [relay | requests] [--history] --workers=2 --rounds=4 [--plan=rounds.plan]
# The program is built first, once, without a proof, so this shows a run and proves nothing: tools/build.sh does.
# tools/unproved-program.sh says what --fast and --hard are; without either the first run builds the fast one.
cd "$(dirname "$0")/.." || exit 1
how='' mode=solo folder=examples
options=() files=(t.json e)
for word in "$@"; do
    case "$word" in
    --fast | --hard) how="$word" ;;
    relay) files=(relay.json e) ;;
    requests) folder=examples/requests files=(topology.json front1.jsonl front2.jsonl) ;;
    --workers=* | --rounds=*) mode=run options+=("$word") ;;
    --plan | --plan=*) [ "$mode" = run ] || mode=replay; options+=("$word") ;;
    *) options+=("$word") ;;
    esac
done
program="$(tools/unproved-program.sh $how millwheel)" || exit 1
cd "$folder" || exit 1
exec "$program" "$mode" "${options[@]}" "${files[@]}"
