#!/usr/bin/env bash
# Builds the archive of a revision and copies it to a file, to time later ones
# against: bench/archive.sh HEAD~2 before.a && bench/run.sh --against before.a
# rt does not prove again what checks on this machine have proved of the same files.
# A revision that is written for another Rattle than the kit here is not built.
set -eu
if [ $# -ne 2 ]; then
    echo "usage: bench/archive.sh REVISION FILE" >&2
    exit 2
fi
file=$(realpath -- "$2")
cd "$(dirname "$0")/.."
if ! git rev-parse --quiet --verify "$1^{commit}" >/dev/null; then
    echo "archive: there is no revision $1" >&2
    exit 2
fi
work=$(mktemp -d)
trap 'rm -rf "$work"' EXIT
git archive "$1" | tar -x -C "$work"

# the crate of the C call had another name once, and was not told from other libraries
crate=vithmork
if [ ! -d "$work/crates/$crate" ]; then crate=host; fi
sed -i "s/^$crate *:/$crate staticlib:/" "$work/crates.txt"
if ! (cd "$work/crates/$crate" && rt lib) >"$work/log" 2>&1; then
    tail -n 20 "$work/log"
    echo "archive: rt lib built no $crate at $1"
    exit 1
fi
cp "$work/crates/$crate/out/lib$crate.a" "$file"
