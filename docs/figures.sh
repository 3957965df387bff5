#!/usr/bin/env bash
# Makes the figures of the pages again, all by this one command, since requests change them. With no argument those that are computed:
#   stored listings (tests/listing/, examples/), what the C examples should print (tests/*.expected), and both where pages quote them;
#   the slips, and what pages tell of figures in sentences of their own (docs/figures.txt lists these);
#   the pictures (docs/pictures/), drawn from all of this;
#   the lines of each definition in docs/READING.md, and their sums.
# Listings and sentences come from the second solver alone. Each file that has changed is named. With --check nothing is written, and the exit status is
# 1 where something would change: so the gate. Measured figures: --gate LOG puts those of a gate (bash .ci/run >LOG 2>&1) into docs/STATUS.md;
# bench/run.sh and bench/growth.sh print the tables of docs/SPEED.md. Figures of method/proofs/Examples are for the prover.
set -eu
from=$PWD
cd "$(dirname "$0")/.."
check=
case $#,${1-} in
0,) ;;
1,--check) check=1 ;;
2,--gate)
    case $2 in /*) log=$2 ;; *) log=$from/$2 ;; esac
    page=$(docs/status.sh "$log") && printf '%s\n' "$page" >docs/STATUS.md
    exit
    ;;
*) echo "usage: docs/figures.sh, docs/figures.sh --check, or docs/figures.sh --gate LOG" >&2 && exit 2 ;;
esac
made=target/second
mkdir -p "$made" docs/pictures
for program in tests/second/{listings,expected,slips,pages}.rs docs/draw/draw.rs; do
    rustc --edition 2021 -O -C overflow-checks=on -o "$made/$(basename "$program" .rs)" "$program"
done
old=$(mktemp -d)
trap 'rm -rf "$old"' EXIT
changes=0

# store FILE: what comes in, unless that is what it holds
store() {
    cat >"$old/new"
    if cmp -s "$old/new" "$1"; then return; fi
    changes=$((changes + 1))
    if [ "$check" ]; then
        echo "figures: $1 would change"
    else
        cp "$old/new" "$1"
        echo "figures: $1 has changed"
    fi
}

# requote PAGE INDENT OLD NEW: the lines of OLD, indented so, are those of NEW in the page
requote() {
    local page was is
    page=$(cat "$1" && echo .) was=$(tr -d '\r' <"$3" | sed "s/^/$2/") is=$(tr -d '\r' <"$4" | sed "s/^/$2/")
    if [[ $page != *"$was"* ]]; then
        echo "figures: $1 does not quote $4 as it was"
        exit 1
    fi
    page=${page/"$was"/"$is"}
    store "$1" < <(printf '%s' "${page%.}")
}

cp examples/*.csv tests/listing/page.csv tests/*.expected "$old"
# the lines between two fences, of which the last tells of the slips
awk '/^```$/ { block = ""; next } { block = block $0 "\n" } /^slips: / { printf "%s", block }' docs/GUARANTEE.md >"$old/slips"

for floor in tests/listing/*.max examples/*.max; do
    store "${floor%.max}.csv" < <("$made/listings" --list <"$floor")
done
for program in examples/*.c; do
    name=$(basename "$program" .c)
    store "tests/$name.expected" < <("$made/expected" "$name")
done
"$made/slips" >"$old/slips.new"

requote README.md '    ' "$old/two_docks.csv" examples/two_docks.csv
for name in floor reversible lift levels offices whole site; do
    requote README.md '    ' "$old/$name.expected" "tests/$name.expected"
done
requote docs/METHOD.md '    ' tests/listing/page.max tests/listing/page.max
requote docs/METHOD.md '    ' "$old/page.csv" tests/listing/page.csv
requote docs/COURSE.md '' "$old/one_by_one.expected" tests/one_by_one.expected
requote docs/GUARANTEE.md '' "$old/slips" "$old/slips.new"

by_hand=
"$made/pages" ${check:+--check} || by_hand=1
for picture in two_docks stuck one_by_one levels sides; do
    store "docs/pictures/$picture.svg" < <("$made/draw" "$picture")
done
store docs/READING.md < <(docs/reading.sh)

if [ "$check" ]; then
    echo "figures: all compared, $changes files would change"
    [ "$changes" -eq 0 ] && [ -z "$by_hand" ]
else
    echo "figures: all made again, $changes files changed${by_hand:+; the sentences named above are for a hand}"
    [ -z "$by_hand" ]
fi
