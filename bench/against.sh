#!/usr/bin/env bash
# bench/run.sh --against: links this tree's archive and another into one program and
# runs it with the words that follow. Exits with 2 where the other cannot be used.
set -eu
cd "$(dirname "$0")/.."
refuse() {
    echo "bench: $*" >&2
    exit 2
}

other=$1
shift
for tool in nm objcopy; do
    command -v "$tool" >/dev/null || refuse "$tool is not installed here, and without it two archives cannot stand in one program"
done
[ -f "$other" ] && [ -r "$other" ] || refuse "cannot read the archive $other"
work=target/second/against
rm -rf "$work"
mkdir -p "$work"
nm --extern-only --defined-only "$other" 2>/dev/null | awk 'NF == 3 { print $3 }' | sort -u >"$work/defined"
grep -qx vithmork_solve "$work/defined" || refuse "$other is no archive that has vithmork_solve"

# Whatever the other archive defines gets another name, lest this tree's be taken
# for it. Both begin their functions at a page: where the linker would happen to
# put them is worth some hundredths.
sed 's/.*/& other_&/; s/ other_vithmork_solve$/ other_solve/' "$work/defined" >"$work/renamed"
page() { objcopy --set-section-alignment '.text.*=4096' "$@"; }
page --redefine-syms="$work/renamed" "$other" "$work/libother.a" || refuse "objcopy cannot rename what $other defines"
tests/second/archive.sh
page target/staticlib/libvithmork.a "$work/libhere.a"

rustc --edition 2021 -O -L "native=$work" -o "$work/against" bench/against.rs ||
    refuse "this tree's archive and $other do not link into one program"
"$work/against" "$@"
