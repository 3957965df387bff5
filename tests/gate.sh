#!/usr/bin/env bash
# The gate itself and docs/status.sh, on a tree of next to nothing with a stand-in for rt: the note about another kit, the counts and the
# status, bad edits, and what status.sh asks for.
set -u
cd "$(dirname "$0")/.." || exit 2
work=$(mktemp -d) || exit 2
trap 'rm -rf "$work"' EXIT
faults=0
fault() { echo "gate: $*" && faults=$((faults + 1)); }

mkdir -p "$work/.ci" "$work/tests" "$work/bin"
cp .ci/run "$work/.ci/run"
cp README.md "$work"
cat >"$work/bin/rt" <<'END'
#!/bin/sh
case $1 in
version) [ -n "$KIT" ] && echo "$KIT" ;;
ci)
    [ $# -eq 1 ] || exit 2
    cat said
    exit "$(cat ended)"
    ;;
esac
END
# says STATUS LINE..: rt ci prints these and ends so
says() {
    echo "$1" >"$work/ended"
    shift
    printf '%s\n' "$@" >"$work/said"
}
ok="rt: ok; handles allowed: none; must-fail edits"
all="every proof and must-fail edit was done in this run"
says 0 "rt: arith proved" "$ok: 2 refused; $all" "3 passed, 0 failed"
chmod +x "$work/bin/rt"
echo 'echo said' >"$work/tests/good.sh"
echo 'exit 77' >"$work/tests/lacking.sh"

# gate STATUS COUNT KIT: runs it with this kit; its note, if any, is left in $note
gate() {
    local ended
    PATH=$work/bin:$PATH KIT=$3 bash "$work/.ci/run" >"$work/log" 2>&1 && ended=0 || ended=$?
    [ "$ended" -eq "$1" ] || fault "with the kit $3 it ends with $ended, not $1"
    [ "$(tail -n 1 "$work/log")" = "$2" ] || fault "its last line is $(tail -n 1 "$work/log"), not $2"
    note=$(grep '^gate: note: ' "$work/log")
}
kit=$(grep -o 'rattle-kit-[^`]*' README.md | head -n 1)
[ -n "$kit" ] || fault "README names no kit"
gate 0 "4 passed, 0 failed" "$kit"
[ -z "$note" ] || fault "with the kit that README names it says $note"
grep -qx 'gate: tests/lacking.sh skipped: a tool is absent' "$work/log" || fault "a test that lacks its tool is not said to be skipped"
gate 0 "4 passed, 0 failed" "rattle-kit-0 logic 0"
[ "$note" = "gate: note: README names the kit $kit; the one here is rattle-kit-0 logic 0" ] || fault "with another kit it says '$note'"
gate 0 "4 passed, 0 failed" ""
[ "$note" = "gate: note: README names the kit $kit; the one here is none" ] || fault "with a kit that has no name it says '$note'"
grep -qxE 'gate: arith was proved after [0-9]+ s' "$work/log" || fault "a proved crate has no time"

# Bad edits, which rt ci passes, and what it prints where it fails or its words are others.
share="done in this run: 1 of the 3 proofs (of crates and of their tests); the others are kept from earlier runs of the same files on this machine"
for edits in "2 refused, 1 of them only by a limit" "2 refused"; do
    says 0 "$ok: $edits; $share" "3 passed, 0 failed"
    gate 0 "4 passed, 0 failed" "$kit"
    says 0 "$ok: $edits, 2 bad; $share" "3 passed, 0 failed"
    gate 1 "4 passed, 2 failed" "$kit"
    grep -q '^gate: 2 must-fail edits are bad' "$work/log" || fault "bad edits are not told of"
done
says 0 "rt: ok; handles allowed: none; $all" "3 passed, 0 failed (1 bad egg)"
gate 0 "4 passed, 0 failed" "$kit"
says 0 "3 passed, 0 failed"
gate 1 "4 passed, 1 failed" "$kit"
says 1 "rt: FAILED: arith" "2 passed, 1 failed"
gate 1 "3 passed, 1 failed" "$kit"
says 2 "rt: crates.txt lists no crate: there is nothing to prove" "0 passed, 1 failed"
gate 1 "1 passed, 1 failed" "$kit"
says 1 "$ok: 2 refused; $all" "3 passed, 0 failed"
gate 1 "4 passed, 1 failed" "$kit"
says 0 "$ok: 2 refused; $all" "all passed"
gate 1 "1 passed, 1 failed" "$kit"

says 0 "rt: arith proved" "rt: bounds is kept: an earlier run on this machine proved the same files over the same libraries" \
    "rt: must-fail arith/one.edit: refused, as it must be" "rt: must-fail arith/two.edit: BAD EDIT: it changes nothing" "$ok: 1 refused; $all" "3 passed, 0 failed"
echo 'exit 1' >"$work/tests/bad.sh"
gate 1 "4 passed, 1 failed" "$kit"

for words in "" "absent.log" "README.md README.md"; do
    # shellcheck disable=SC2086
    docs/status.sh $words >"$work/out" 2>"$work/err" && ended=0 || ended=$?
    if [ "$ended" -ne 2 ] || [ -s "$work/out" ] || ! grep -qx 'usage: docs/status.sh LOG, a file .*' "$work/err"; then
        fault "docs/status.sh $words does not say what it wants: $(cat "$work/err")"
    fi
done
gate 1 "4 passed, 1 failed" "$kit"
sed -i 's/^gate: arith was proved after .*/gate: arith was proved after 7 s/' "$work/log"
(cd "$work" && "$OLDPWD/docs/status.sh" log) >"$work/out"
for row in '^4 passed, 1 failed, [0-9]+ s in all, [0-9]+ s of processor time' '^\| `arith` \| .* \| 1 \| 7 \|$' '^\| `bounds` \| .* \| 0 \| kept \|$' '^\| `good.sh` \| [0-9]+ \| said \|$' \
    '^\| `bad.sh` \| [0-9]+ \| FAILED \|$' '^\| `lacking.sh` \|  \| skipped'; do
    grep -qE "$row" "$work/out" || fault "docs/status.sh makes no $row of a log"
done

echo "gate: its note, its counts and docs/status.sh; $faults faults"
[ "$faults" -eq 0 ]
