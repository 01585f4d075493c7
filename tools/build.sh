#!/usr/bin/env bash
# Proves the program with every crate below it, builds it, and says where it lies. The first time on a machine
# that takes half an hour to an hour on four processors; later only what changed is proved again.
cd "$(dirname "$0")/../crates/millwheel" || exit 1
echo "proving what is not proved on this machine yet: the first time that takes half an hour to an hour on four processors ..." >&2
begun=$SECONDS
rt run -- solo ../../examples/t.json ../../examples/e || exit 1
echo "proved and built in $((SECONDS - begun)) seconds: $PWD/out/millwheel"
echo "what that proves, and what it does not: docs/PROVED.md. The tests and the wrong bodies are the gate's: tools/test.sh"
echo "try: $PWD/out/millwheel solo examples/t.json examples/e"
