#!/usr/bin/env bash
# The pages agree with the tree: links lead to files and headings; a name with its file in brackets stands in that
# file; what pages and the comments of crates/ cite, a page, a heading of it, a numbered step or a file of the tree,
# is there; docs/METHOD.md has every section of document 01 that is cited, every request that has landed and every
# refusal; and docs/READING.md has every definition file that the contracts rest on, after those that it uses. What
# pages say of figures is for tests/figures.sh. The notes of docs/changes say what was so when they were written:
# README leads to each.
set -u
cd "$(dirname "$0")/.." || exit 2
faults=0
fault() { echo "docs: $*"; faults=$((faults + 1)); }

# the crates as a pattern: what begins with the name of another library is the kit's
ours=$(sed -nE 's/^([a-z_]+)( staticlib)?:.*/\1/p' crates.txt | paste -sd '|')

# the kit's words that a definition file imports, without the places of their arguments
kit() { sed -nE "/^use Rattle\.($ours)\./d"'; s/^use [^{]+\.\{(.*)\}.*/\1/p' "$1" | tr ',' '\n' | sed 's/^ *//; s/◌//g'; }

# definition files that a file uses, but for the types declared in code
uses() { sed -nE '/\.declared\./d; s/^(pub )?use Rattle\.('"$ours"')\.(specs|proofs)\.([A-Za-z]+)\..*/\2\/\3\/\4.antt/p' "$1"; }

# "FILE NAME" for each name in `name` (crate/proofs/File), `name`, `name` and `name` (all crate/proofs/File), and with
# a comma for the bracket
mentions() {
    tr '\n' ' ' <"$1" | sed 's/  */ /g' |
        grep -oE '(`[A-Za-z][A-Za-z0-9_-]*`(,| and| \(|;)? ?)+(both |all )?[a-z_]+/(specs|proofs)/[A-Za-z]+' |
        while read -r mention; do
            for name in $(grep -oE '`[A-Za-z][A-Za-z0-9_-]*`' <<<"$mention" | tr -d '`'); do
                echo "crates/${mention##*[ (]}.antt $name"
            done
        done
}

# "FILE NAME" for each name of the code in `name` (crate/src/file.rt), and in crate/src/file.rt (`name`, `name`)
coded() {
    tr '\n' ' ' <"$1" | sed 's/  */ /g' |
        grep -oE '(`[A-Za-z_]+`(,| and| \(|;)? ?)+`?[a-z_]+/src/[a-z_]+\.rt|[a-z_]+/src/[a-z_]+\.rt`? \((`[A-Za-z_]+`(, | and )?)+\)' |
        while read -r mention; do
            file=$(grep -oE '[a-z_]+/src/[a-z_]+\.rt' <<<"$mention")
            for name in $(sed -E 's@`[a-z_]+/src/[a-z_]+\.rt`@@' <<<"$mention" | grep -oE '`[A-Za-z_]+`' | tr -d '`'); do echo "crates/$file $name"; done
        done
}

# What files cite, a line each: the file, what kind of thing, and the words. A page is cited with its heading and the
# steps below it, where they are named; a number
# of a section or step that is of no other paper or page is of the page where it stands.
cited() {
    awk '
        function find(kind, pattern,    rest) {
            for (rest = text; match(rest, pattern); rest = substr(rest, RSTART + RLENGTH)) print file "\t" kind "\t" substr(rest, RSTART, RLENGTH)
        }
        function finish() {
            gsub(/  +/, " ", text)
            numbers = "[0-9]+((,| and| to) [0-9]+)*"
            find("page", "[A-Za-z0-9_/-]+\\.md`?(\\]\\([^)]*\\)|\\))?(, \"[^\"]+\"(, steps? " numbers ")?)?")
            find("section", "((00[0-9](\047s)?|RFC [0-9]+), |of which )?sections? [0-9.]*[0-9]((,| and| to) [0-9]+)*")
            find("step", "(\", )?[Ss]teps? " numbers)
            find("path", "[a-z_/]*/(src|specs|proofs|must-fail)(/[A-Za-z0-9_]+)*(\\.[a-z]+)?")
            find("path", "(^|[^A-Za-z0-9_/-])(src|specs|proofs|must-fail)(/[A-Za-z0-9_]+)+(\\.[a-z]+)?")
            find("path", "(tests|bench|docs|examples|include)/[A-Za-z0-9_/-]*[A-Za-z0-9_](\\.[a-z]+)?")
        }
        FNR == 1 { if (file) finish(); file = FILENAME; text = "" }
        { line = $0; sub(/^[ \t]*(--|\/\/[!\/]?|#|\*)[ \t]?/, "", line); text = text " " line }
        END { finish() }' "$@"
}

# a page's lines below a heading, to the next one that is not below it
below() { awk -v title="$2" '/^##/ { depth = index($0, " "); if (substr($0, depth + 1) == title) on = depth; else if (depth <= on) on = 0; next } on' "$1"; }

# what leads to the headings of a page: lower case, blanks as dashes, nothing else but letters and digits
anchors() { sed -nE 's/^#+ //p' "$1" | tr 'A-Z ' 'a-z-' | tr -cd 'a-z0-9\n-'; }
# whether a page has a heading of these words
heading() { grep -qxE -- "##+ $2" "$1"; }
# a file on one line, without what leads a line of a comment
unbroken() { sed -E 's@^[[:space:]]*(--|//[!/]?|#|\*)[[:space:]]?@@' "$1" | tr '\n' ' '; }

for page in README.md docs/*.md; do
    while IFS='#' read -r file anchor; do
        target=$(dirname "$page")/$file
        [ -n "$file" ] || target=$page
        anchors "$target" | grep -qxF -- "$anchor" || fault "$page: $target has no heading for #$anchor"
    done < <(grep -oE '\]\([^):]*#[^)]+\)' "$page" | sed 's/^](//; s/)$//')
    for link in $(grep -oE '\]\([^)#:]+\)' "$page" | sed 's/^](//; s/)$//'); do
        [ -e "$(dirname "$page")/$link" ] || fault "$page: no file $link"
    done
    for edit in $(grep -oE '[a-z_]+/must-fail/[a-z0-9_]+\.edit' "$page"); do
        [ -e "crates/$edit" ] || fault "$page: no edit $edit"
    done
    while read -r file name; do
        if [ ! -e "$file" ]; then
            fault "$page: no file $file"
        elif ! grep -qE "(^|[[:space:]])(record |data )?$name( [^=]*)? :" "$file"; then
            fault "$page: $file states no $name"
        fi
    done < <(mentions "$page" | sort -u)
    while read -r file name; do
        [ ! -e "$file" ] || grep -qE "(fn|const|struct|enum|type|mod) $name\b" "$file" || fault "$page: $file has no $name"
    done < <(coded "$page" | sort -u)
done

for note in docs/changes/*.md; do
    grep -qF "]($note)" README.md || fault "README.md: does not lead to $note"
done

citations=0
while IFS=$'\t' read -r file kind words; do
    citations=$((citations + 1))
    case $kind in
    page)
        name=${words%%.md*}.md target=
        for at in "$name" "docs/$name" "${file%/*}/$name"; do [ ! -e "$at" ] || target=$at; done
        [ -n "$target" ] || { fault "$file: no page $name"; continue; }
        [[ $words == *\"* ]] || continue
        title=${words#*\"} title=${title%%\"*}
        grep -E '^##+ ' "$target" | sed -E 's/^#+ //' | grep -qxF -- "$title" || { fault "$file: $target has no section $title"; continue; }
        for number in $(grep -oE '[0-9]+' <<<"${words##*\"}"); do
            below "$target" "$title" | grep -qE "^(\*\*)?$number\. " || fault "$file: $target, \"$title\", has no step $number"
        done
        ;;
    section | step)
        [[ $words == [Ss]* ]] || continue # of another paper, or of the page that is cited with it
        begin='(\*\*)?'
        [ "$kind" = step ] || begin='## '
        for number in $(grep -oE '[0-9]+' <<<"$words"); do
            [[ $file == *.md ]] && grep -qE "^$begin$number\. " "$file" || fault "$file: $words: of which page?"
        done
        ;;
    path)
        path=${words#"${words%%[a-z]*}"}
        case $path in
        */NAME* | */FUNCTION*) continue ;; # whatever its name is
        crates/* | tests/* | bench/* | docs/* | examples/* | include/*) ;;
        src/* | specs/* | proofs/* | must-fail/*) path=${file%"${file#crates/*/}"}$path ;;
        *) path=crates/$path ;;
        esac
        [ -e "$path" ] || [ -e "$path.antt" ] || [ -e "$path.sh" ] || fault "$file: no file $path"
        ;;
    esac
done < <(cited $(git ls-files 'crates/*.antt' 'crates/*.rt' 'crates/*.edit' README.md 'docs/*.md' | grep -v '^docs/changes/') | sort -u)
[ "$citations" -gt 0 ] || fault "no citation was found"

# Pages say what document 01 is by a link, and the class's own word for the greatest load ratio is met once.
bare=$(grep -nE '[Dd]ocument 01|the mission' README.md docs/*.md | grep -v -e '^docs/METHOD.md:' -e 'METHOD\.md')
[ -z "$bare" ] || fault "without a link: $bare"
[ "$(git grep -iE 'utili[sz]ation' | wc -l)" -eq 1 ] && grep -q 'often called utili[s]ation' docs/COURSE.md || fault "the class's word belongs into docs/COURSE.md, once"

page=docs/METHOD.md
while read -r title; do
    heading "$page" "$title" || fault "$page: lacks the section $title of document 01"
done < <(git ls-files README.md bench crates docs examples include tests | grep -vE '^tests/listing/|\.(csv|max|svg)$' | while read -r file; do
    unbroken "$file" | grep -oE "01('s [a-z]+)?, \"[^\"]*\"" | cut -d'"' -f2
done | sort -u)
while read -r title; do
    heading "$page" "$title" || fault "docs/READING.md: $page has no section $title"
done < <(grep -E '^\| `[a-z_]+/specs/' docs/READING.md | awk -F'|' '{ print $(NF - 1) }' | grep -oE '"[^"]+"' | tr -d '"' | sort -u)
for note in docs/changes/*.md; do
    grep -qF "$(basename "$note" .md)" "$page" || fault "$page: does not tell of $(basename "$note" .md)"
done
# the trade's words are the header's
while read -r name word; do
    number=$(sed -nE "s/^ *$name = ([0-9]+).*/\1/p" include/vithmork.h)
    grep -qF "| $number | $word |" "$page" || fault "$page: lacks the refusal $number, $word"
done < <(sed -nE 's/^ *case (VITHMORK_REFUSED_[A-Z_]+): return "(.*)";/\1 \2/p' include/vithmork.h)
for picture in docs/pictures/*.svg; do
    cat README.md docs/*.md | grep -qE "\]\((docs/)?pictures/$(basename "$picture")\)" || fault "no page shows $picture"
done

page=docs/READING.md
words=" $(sed -n '/^## 0\./,/^## 1\./p' "$page" | grep -oE '`[^`]+`' | tr -d '`\\' | tr ' ,\n' '   ') "
read_so_far=" "
while IFS='|' read -r _ file _; do
    file=$(tr -d '` ' <<<"$file")
    [ -e "crates/$file" ] || { fault "$page: no file $file"; continue; }
    while read -r word; do
        case $words in *" $word "*) ;; *) fault "$page: section 0 lacks $word, which $file uses" ;; esac
    done < <(kit "crates/$file")
    for used in $(uses "crates/$file"); do
        case $read_so_far in
        *" $used "*) ;;
        *) [ "$used" = length/specs/Levels.antt ] || fault "$page: $file uses $used, which does not stand above it" ;;
        esac
    done
    read_so_far="$read_so_far$file "
done < <(grep -E '^\| `[a-z_]+/specs/[A-Za-z]+\.antt` \| [0-9]+ \|' "$page")
for contract in call/specs/Host whole/specs/Whole site/specs/Site dimacs/specs/Result report/specs/Listed records/specs/Records; do
    case $read_so_far in *" $contract.antt "*) ;; *) fault "$page: lacks $contract" ;; esac
done

echo "docs: $(wc -w <<<"$read_so_far") definition files, $(grep -c '^| [0-9]' docs/METHOD.md) refusals, $citations citations; $faults faults"
[ "$faults" -eq 0 ]
