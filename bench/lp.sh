#!/usr/bin/env bash
# Times linear programs of the floors of bench/run.sh, by CLP (Debian's coinor-clp) and by
# GLPK (glpk-utils), start-up included, beside the library at q 4, 8 and 16: milliseconds,
# the geometric mean of each tool's time over the library's, and how often the library was
# the faster. Their optimum lies between the library's total and bound up to their own
# rounding. A tool that is absent has no column; without both it says so and exits with 77.
set -eu
cd "$(dirname "$0")/.."
tools=()
for tool in clp glpsol; do
    if command -v "$tool" >/dev/null; then tools+=("$tool"); fi
done
if [ ${#tools[@]} -eq 0 ]; then
    echo "lp: neither clp nor glpsol is installed here, so there is nothing to time"
    exit 77
fi
work=$(mktemp -d)
trap 'rm -rf "$work"' EXIT
tests/second/archive.sh
rustc --edition 2021 -O -L native=target/staticlib -o target/second/bench bench/bench.rs
rustc --edition 2021 -O -o target/second/models bench/models.rs
target/second/models "$work"
target/second/bench --fast >"$work/library"

run() {
    case $1 in
    clp) clp "$2" -dualsimplex -quit ;;
    glpsol) glpsol --freemps "$2" -o "$work/solution" ;;
    esac
}
optimum() {
    case $1 in
    clp) sed -n 's/^Optimal objective -*\([0-9.e+]*\).*/\1/p' "$work/log" ;;
    glpsol) sed -n 's/^Objective: .* = -*\([0-9.e+]*\) .*/\1/p' "$work/solution" ;;
    esac | tail -n 1
}

# milliseconds of the library on a floor, by precision
library() { awk -v floor="$1" -F ' *[|] *' '$2 == floor { printf " %s", $4 }' "$work/library"; }

heads="| floor | q = 4 | q = 8 | q = 16 |"
rules="|---|---|---|---|"
for tool in "${tools[@]}"; do heads+=" $tool |" rules+="---|"; done
echo "$heads carries |"
echo "$rules---|"
while read -r floor; do
    read -r q4 q8 q16 <<<"$(library "$floor")"
    row="$q4 $q8 $q16"
    for tool in "${tools[@]}"; do
        began=$(date +%s%N)
        run "$tool" "$work/$floor.mps" >"$work/log" 2>&1
        row+=" $((($(date +%s%N) - began) / 1000000))"
        most=$(optimum "$tool")
    done
    echo "$row" >>"$work/rows"
    echo "| $floor | ${row// / | } | ${most:-no optimum} |"
done < <(awk -F ' *[|] *' '$2 ~ /^[A-Z]/ { print $2 }' "$work/library" | awk '!seen[$1]++')

# a line for each tool: its time over the library's in the geometric mean, and the floors on which it is the slower
awk -v names="${tools[*]}" '
    BEGIN { count = split(names, tool, " "); split("4 8 16", q, " ") }
    { for (t = 1; t <= count; t++) for (i = 1; i <= 3; i++) { sum[t, i] += log($(3 + t) / $i); won[t, i] += $(3 + t) > $i } }
    END {
        for (t = 1; t <= count; t++) {
            printf "%s / library, geometric mean:", tool[t]
            for (i = 1; i <= 3; i++) printf "%s %.2f at q = %s (the library faster on %d of %d floors)", (i > 1 ? "," : ""), exp(sum[t, i] / NR), q[i], won[t, i], NR
            print ""
        }
    }' "$work/rows"
