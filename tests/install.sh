#!/usr/bin/env bash
# ./install into a scratch folder, which is then moved, and the examples built from there as any C program would be: by hand and, where it is
# installed, through pkg-config.
set -u
cd "$(dirname "$0")/.." || exit 2
root=$PWD
tests/second/archive.sh || exit 1
work=$(mktemp -d) || exit 2
trap 'rm -rf "$work"' EXIT
faults=0
fault() { echo "install: $*" && faults=$((faults + 1)); }

# said STATUS TEXT COMMAND..: the command ends so, and TEXT is the last line that it says, on whichever channel
said() {
    local status=$1 text=$2 ended
    shift 2
    "$@" >"$work/out" 2>&1 && ended=0 || ended=$?
    [ "$ended" -eq "$status" ] || fault "$*: ends with $ended, not $status"
    [ "$(tail -n 1 "$work/out")" = "$text" ] || fault "$*: says '$(cat "$work/out")', not '$text'"
}
files() { echo "$1/include/vithmork.h, $1/lib/libvithmork.a, $1/lib/pkgconfig/vithmork.pc"; }
usage="usage: ./install PREFIX, a folder such as ~/.local; what a C program needs goes into its include and lib"
said 2 "$usage" ./install
said 2 "$usage" ./install ""
said 2 "$usage" ./install one two
said 0 "$usage" ./install --help
: >"$work/file"
said 2 "install: $work/file cannot be written" ./install "$work/file"
version=$(sed -n 's/^#define VITHMORK_VERSION "\(.*\)"$/\1/p' include/vithmork.h)
[ -n "$version" ] || fault "include/vithmork.h names no version"
said 0 "installed Vithmork $version: $(files "$work/in two words")" ./install "$work/in two words"
cd "$work" || exit 2
ln -s "$root/install" link
said 0 "installed Vithmork $version: $(files "$work/here")" ./link here
mv here prefix
cmp prefix/include/vithmork.h "$root/include/vithmork.h" || fault "the header is another"
cmp prefix/lib/libvithmork.a "$root/target/staticlib/libvithmork.a" || fault "the archive is another"
diff -r prefix "in two words" || fault "two folders have different files"

# build_all WAY WORDS..: the examples built with these words print what they should
build_all() {
    local way=$1 example name
    shift
    for example in "$root"/examples/*.c; do
        name=$(basename "$example" .c)
        cp "$example" .
        if ! cc -std=c99 -o "$name" "$name.c" "$@" || ! ./"$name" | diff "$root/tests/$name.expected" -; then
            fault "$name.c is not built, or prints otherwise, $way"
        fi
    done
}
build_all "by hand" -I prefix/include -L prefix/lib -lvithmork
if command -v pkg-config >/dev/null; then
    export PKG_CONFIG_PATH=$work/prefix/lib/pkgconfig
    [ "$(pkg-config --modversion vithmork)" = "$version" ] || fault "pkg-config has another version than the header"
    # shellcheck disable=SC2046
    build_all "through pkg-config" $(pkg-config --cflags --libs vithmork)
    way="by hand and through pkg-config"
else
    way="by hand; pkg-config is not installed here"
fi
echo "install: Vithmork $version, the examples built from an installed folder $way; $faults faults"
[ "$faults" -eq 0 ]
