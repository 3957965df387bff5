#!/usr/bin/env bash
# Times the static library against the second solver, and sees that it cannot
# allocate; prints the least V / B of each precision, too; three to five minutes, most
# of them the plain form's at q 16. Arguments go to the program: --q 4, --fast (without
# the plain form), --seed 7, --marked (every belt reversible, and without the plain
# form), --limited (every station limited, 64 belts fewer, and without the plain form).
#
# --against ARCHIVE times it against another archive instead, in one process and in
# turn, and prints the ratio of each floor and their geometric mean; two minutes.
# With it go --q 4, --seed 7, --rounds 20 (5 otherwise; more where the machine is
# busy), --marked, --limited and --layout base, marks or limits, for an archive with
# that call where this tree's is another (bench/layouts.rs): base has no marks, base
# and marks have no limits, and none has offices; called by another layout than its
# own, an archive may crash. One to compare with is a copy of
# target/staticlib/libvithmork.a, made before a change, or what bench/archive.sh
# REVISION FILE builds.
set -eu
from=$PWD
cd "$(dirname "$0")/.."

other= words=()
while [ $# -gt 0 ]; do
    case $1 in
    --against)
        if [ -z "${2-}" ]; then echo "bench: --against asks for the path of an archive" >&2 && exit 2; fi
        case $2 in /*) other=$2 ;; *) other=$from/$2 ;; esac
        shift
        ;;
    *) words+=("$1") ;;
    esac
    shift
done
if [ -n "$other" ]; then exec bench/against.sh "$other" "${words[@]}"; fi

tests/second/archive.sh
archive=target/staticlib/libvithmork.a

# To allocate, code must name a function that it lacks or make a system call:
# the archive may name only those that move and compare bytes.
nm --defined-only "$archive" | awk 'NF == 3 { print $3 }' | sort -u >target/second/defined
nm --undefined-only "$archive" | awk '$1 == "U" { print $2 }' | sort -u >target/second/named
lacking=$(comm -13 target/second/defined target/second/named | tr '\n' ' ')
for name in $lacking; do
    case $name in
    memcpy | memmove | memset | memcmp | bcmp) ;;
    *) echo "bench: the archive calls $name, and might allocate" && exit 1 ;;
    esac
done
if objdump -d "$archive" | grep -qw syscall; then
    echo "bench: the archive makes a system call, and might allocate" && exit 1
fi
echo "allocates nothing: outside itself the archive calls ${lacking:-nothing}"

rustc --edition 2021 -O -L native=target/staticlib -o target/second/bench bench/bench.rs
target/second/bench "${words[@]}"
