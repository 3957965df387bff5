#!/usr/bin/env bash
# Prints docs/READING.md with the lines of each definition file that it lists counted anew, without comments, imports and blank ones, and with
# their sums in its first paragraph: those that each call adds, and of those for vithmork_solve how many only give a bound its name or say what fits.
set -eu
cd "$(dirname "$0")/.."
page=docs/READING.md
row='^\| `([a-z_]+/specs/[A-Za-z]+\.antt)` \| [0-9]+ \|'
lines() { grep -vcE '^[[:space:]]*(--|use |$)' "crates/$1"; }

# Two such lines stand in Guarantee, all of Bounds and Fits are.
named=2 sum=0 sums=()
while read -r file; do
    count=$(lines "$file") sum=$((sum + count))
    case $file in bounds/specs/Bounds.antt | method/specs/Fits.antt) named=$((named + count)) ;; esac
    case $file in call/specs/Host.antt | whole/specs/Whole.antt | site/specs/Site.antt) sums+=("$sum") sum=0 ;; esac
done < <(sed -nE "s#$row.*#\1#p" "$page")
solve=${sums[0]} whole=${sums[1]} site=${sums[2]}

while IFS= read -r line; do
    if [[ $line =~ $row ]]; then
        file=${BASH_REMATCH[1]}
        line="| \`$file\` | $(lines "$file") |${line#"${BASH_REMATCH[0]}"}"
    fi
    printf '%s\n' "$line"
done <"$page" | sed -zE "s/[0-9]+( lines for .vithmork_solve. \(sections 1 to 5\), )[0-9]+( more for.)/$solve\1$whole\2/
    s/[0-9]+( more for .vithmork_site. \(7\), and )[0-9]+( more)/$site\1$sum\2/
    s/Of the [0-9]+, [0-9]+( are what .* the other )[0-9]+( give)/Of the $solve, $((solve - named))\1$named\2/"
