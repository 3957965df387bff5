#!/usr/bin/env bash
# Every .rt and .antt file is laid out as the formatter lays it out. rt fmt writes, and knows one crate at a time: so it lays out a copy, in which
# all files are those of one crate, and names what it changed.
set -u
cd "$(dirname "$0")/.." || exit 2
work=$(mktemp -d) || exit 2
trap 'rm -rf "$work"' EXIT
mkdir "$work/src"
find crates -name out -prune -o \( -name '*.rt' -o -name '*.antt' \) -print0 | tar -c --null -T - | tar -x -C "$work/src" || exit 1
(cd "$work" && rt fmt) >"$work/said" 2>&1 && ended=0 || ended=$?
[ "$ended" -eq 0 ] || cat "$work/said"
changed=$(sed -n 's/^rt: formatted src\///p' "$work/said" | sort)
[ -z "$changed" ] || printf 'format: %s is not in the layout\n' $changed
[ "$ended" -eq 0 ] && [ -z "$changed" ]
