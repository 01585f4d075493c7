#!/usr/bin/env bash
# Builds a program without a proof where it is not there yet, of the sources as they are, and prints where it lies:
#     tools/unproved-program.sh [--fast | --hard] CRATE
# --fast builds it in two to three minutes by a compiler that makes nothing quicker: fit to see what it does. --hard
# takes four to five, as a proved program is compiled: fit to measure. Without either word it is the hard one where
# that is there, else the fast one. Nothing of it is proved: tools/build.sh does that.
cd "$(dirname "$0")/.." || exit 1
how=''
case "$1" in --fast | --hard) how="$1"; shift ;; esac
crate="${1:?a crate with a program}"
folder="$PWD/target/unproved"

# Whether a program is there, and of the sources as they are.
is_built() {
    [ -x "$1" ] && [ -z "$(find crates.txt crates/*/src -newer "$1" -print -quit)" ]
}

# Builds a program, and tells how long that takes and how far it is. It takes its name once it is whole.
build() {
    local begun
    begun="$(date +%s)"
    echo "building $crate without a proof, once: $3 (measured on four processors with other work); later runs begin at once" >&2
    mkdir -p "$folder"
    tools/build-unproved.py $2 "$crate" "$1.part" > /dev/null && mv "$1.part" "$1" || exit 1
    # What changed while it was built is newer.
    touch -d "@$begun" "$1"
}

fast="$folder/$crate-fast" hard="$folder/$crate"
[ -n "$how" ] || { is_built "$hard" && how=--hard; }
if [ "$how" = --hard ]; then
    program="$hard"
    is_built "$program" || build "$program" '' "some five minutes"
else
    program="$fast"
    is_built "$program" || build "$program" --fast "some two and a half minutes"
fi
echo "$program"
