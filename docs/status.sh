#!/usr/bin/env bash
# Prints docs/STATUS.md from the log of a gate run: docs/status.sh LOG. bash docs/figures.sh --gate LOG puts it in its place.
set -eu
if [ $# -ne 1 ] || [ ! -r "$1" ]; then
    echo "usage: docs/status.sh LOG, a file with all that a gate printed (bash .ci/run >LOG 2>&1)" >&2
    exit 2
fi
log=$(readlink -f "$1")
cd "$(dirname "$0")/.."

# lines DIR SUFFIX COMMENT
lines() { find "$1" -name "*.$2" -exec cat {} + 2>/dev/null | grep -cv -e '^[[:space:]]*$' -e "^[[:space:]]*$3" || true; }
# refused CRATE: how many of its edits the log says were refused
refused() { grep -c "^rt: must-fail $1/.*: refused, as it must be" "$log" || true; }
# proved CRATE: after how many seconds of the gate it was proved, or that an earlier run's proof was kept
proved() {
    if grep -q "^rt: $1 is kept: " "$log"; then echo kept; else sed -n "s|^gate: $1 was proved after \([0-9][0-9]*\) s\$|\1|p" "$log"; fi
}
# took WORDS: what the gate says of its time in these words
took() { sed -n "s|^gate: \([0-9][0-9]*\) s $1\$|\1|p" "$log"; }
grouped() { sed -E ':a; s/([0-9])([0-9]{3})($|,)/\1,\2\3/; ta'; }

crates() {
    echo "| crate | code | definitions | proofs | must-fail edits | refused | proved after, s |"
    echo "|---|---|---|---|---|---|---|"
    local crate edits row i total=(0 0 0 0 0)
    for crate in $(sed -nE 's/^([a-z_]+)( staticlib)?:.*/\1/p' crates.txt); do
        edits=$(find "crates/$crate/must-fail" -name '*.edit' 2>/dev/null | wc -l)
        row=("$(lines "crates/$crate/src" rt //)" "$(lines "crates/$crate/specs" antt --)" "$(lines "crates/$crate/proofs" antt --)"
            "$edits" "$(refused "$crate")")
        printf '| `%s`' "$crate"
        for i in "${!total[@]}"; do
            printf ' | %s' "${row[$i]}"
            total[i]=$((total[i] + row[i]))
        done
        echo " | $(proved "$crate") |"
    done
    printf '| in all'
    printf ' | %s' "${total[@]}"
    echo ' | |'
}

# a row for each script of tests/, with the last line that it printed, if any
tests() {
    awk '
        function row(test, time, says) { sub(/^tests\//, "", test); gsub(/\|/, "\\|", says); print "| `" test "` | " time " | " says " |" }
        /^gate: tests\/.* skipped:/ { row($2, "", "skipped: a tool is absent") }
        /^gate: tests\/.* (passed|FAILED) \([0-9]+ s\)$/ { time = $(NF - 1); sub(/\(/, "", time); all += time; row($2, time, $3 == "passed" ? last : "FAILED") }
        { last = /^gate: (tests\/|rt ci)/ ? "" : $0 }
        END { print "| in all | " all + 0 " | |" }' "$log"
}

cat <<END
# Status

Made by \`bash docs/figures.sh --gate LOG\` from the log of one whole gate, \`bash .ci/run\` in a fresh clone on a machine with $(sed -n 's/^gate: \([0-9]*\) processors here$/\1/p' "$log") processors:
$(tail -n 1 "$log"), $(took "in all" | grouped) s in all, $(took "of processor time" | grouped) s of processor time. Lines are counted without comments and blank ones, imports included; of \`length\`'s code $(grep -cE '^ *[0-9]+, ' crates/length/src/table.rt) are the table.
\`rt ci\` proves crates and tries their edits side by side. So the last column has the seconds of the gate after which a crate was proved, or \`kept\` where an earlier
run on the same machine had proved the same files. What a request moved of the times, by an older kit that told those of each crate, is in its note, [changes/](changes).

$(crates)

Then each script of tests/, with its time and the last line that it prints. Where glpsol is absent its test is skipped, and one fewer passes.

| test | s | says |
|---|---|---|
$(tests)
END
