#!/usr/bin/env bash
# ./list as a builder meets it: what it writes, what it says and how it ends, on floors listed and turned down and with whatever else may be in
# the way. Then ./build, on a small tree with a stand-in for rt that proves nothing and notes that it was asked.
set -u
cd "$(dirname "$0")/.." || exit 2
root=$PWD
work=$(mktemp -d) || exit 2
trap 'rm -rf "$work"' EXIT
chmod 755 "$work"
faults=0 tried=0
fault() { echo "list: $*" && faults=$((faults + 1)); }

# expect STATUS OUTPUT SAID COMMAND..: the command ends so, writes what the file OUTPUT holds and says just SAID on standard error
expect() {
    local status=$1 output=$2 said=$3 ended
    shift 3
    "$@" >"$work/out" 2>"$work/err" && ended=0 || ended=$?
    tried=$((tried + 1))
    [ "$ended" -eq "$status" ] || fault "$*: ends with $ended, not $status"
    cmp -s "$work/out" "$output" || fault "$*: writes otherwise than $output"
    [ "$(cat "$work/err")" = "$said" ] || fault "$*: says '$(cat "$work/err")', not '$said'"
}
none=/dev/null
whole='listing: the listing is not whole: standard output is full or closed'
usage='usage: ./list FILE, a floor in the DIMACS maximum flow layout, such as examples/two_docks.max; - is standard input'

# The tools of this script and of those that it tries, without rt.
mkdir "$work/tools"
for tool in awk bash cat cmp cut dirname env find grep head mkdir mktemp readlink rm sed sha256sum sort tail tr; do
    ln -s "$(command -v $tool)" "$work/tools/$tool"
done

./build listing 2>"$work/err" || { cat "$work/err" && exit 1; }

# Floors that are listed, however they are handed in.
floor=examples/two_docks rows=$root/examples/two_docks.csv
expect 0 "$rows" "" ./list $floor.max
expect 0 "$rows" "" ./list - <$floor.max
expect 0 "$rows" "" bash -c "cat $floor.max | ./list -"
expect 0 "$rows" "" bash -c "./list <(cat $floor.max)"
expect 0 "$rows" "" bash -c "./list $floor.max <&-"
expect 0 "$rows" "" env PATH="$work/tools" ./list $floor.max
expect 0 "$root/tests/listing/unjoined.csv" "" ./list tests/listing/unjoined.max
ln -s "$root/list" "$work/tools/lists"
ln -s tools/lists "$work/link to list"
expect 0 "$rows" "" bash -c "cd examples && ../list two_docks.max"
expect 0 "$rows" "" bash -c "cd '$work' && './link to list' '$root/$floor.max'"
expect 0 "$rows" "" env PATH="$work/tools:$PATH" lists $floor.max

# Floors that are turned down.
while IFS='|' read -r name said; do
    expect 1 "$root/$name.csv" "turned down: $said" ./list "$name.max"
done <<'END'
examples/refused|capacity, belt 3
tests/listing/stations_65|stations
tests/listing/belts_257|belts
tests/listing/belt_end_zero|loose belt, belt 2
tests/listing/capacity_1001|capacity, belt 2
tests/listing/pair_ends_equal|loose pair, pair 1
tests/listing/second_p|layout, line 2
tests/listing/empty_line|layout, line 3
tests/listing/empty_file|layout, at the end of the file: a line is missing
tests/listing/no_t|layout, at the end of the file: a line is missing
tests/listing/carriage_return|layout, line 2, which ends in a carriage return: save the file with line feeds alone
tests/listing/long_65537|long file
END
expect 1 "$root/examples/refused.csv" "turned down: capacity, belt 3" ./list - <examples/refused.max
# A carriage return elsewhere than at the end of the line that is refused is not named.
printf 'c a comment\r\np max 2 1\nn 1\rs\n' >"$work/inside"
printf 'row,tail,head,upper,lower\r\nrefused,,,9,3\r\n' >"$work/rows"
expect 1 "$work/rows" "turned down: layout, line 3" ./list "$work/inside"

# Output that cannot be written.
expect 3 $none "$whole" bash -c "./list $floor.max >/dev/full"
expect 3 $none "$whole" bash -c "./list $floor.max >&-"
expect 3 $none "$whole" bash -c "./list - <$floor.max >&-"
expect 3 $none "$whole"$'\n'"turned down: capacity, belt 3" bash -c "./list examples/refused.max >/dev/full"
expect 0 $none "$whole" bash -c "target/bin/listing <$floor.max >/dev/full"
expect 0 $none "$whole" bash -c "target/bin/listing <$floor.max >&-"
expect 3 $none "$whole" bash -c "trap '' PIPE; { sleep 0.2; ./list $floor.max; echo \$? >'$work/ended'; } | true; exit \$(cat '$work/ended')"
# A reader that has gone ends the program by a signal, unless whoever runs this had signals of that kind ignored.
{ sleep 0.2; ./list $floor.max 2>/dev/null; echo $? >"$work/ended"; } | true
[ "$(cat "$work/ended")" -ne 0 ] || fault "./list into a closed pipe ends with 0"

# Nothing to list.
expect 2 $none "$usage" ./list
expect 2 $none "$usage" ./list $floor.max $floor.max
printf '%s\n' "$usage" >"$work/usage"
expect 0 "$work/usage" "" ./list --help
expect 2 $none "list: there is no file examples/absent.max" ./list examples/absent.max
expect 2 $none "list: examples is a directory, and a floor is a file" ./list examples
expect 2 $none "list: standard input is a directory, and a floor is a file" ./list - <examples
expect 2 $none "list: standard input is closed" bash -c "timeout 20 ./list - <&-"
cp $floor.max "$work/secret"
chmod 000 "$work/secret"
nobody=()
if [ "$(id -u)" -eq 0 ]; then nobody=(setpriv --reuid=65534 --regid=65534 --clear-groups); fi
cp list build "$work"
if "${nobody[@]}" test -x "$work/list" 2>/dev/null; then
    expect 2 $none "list: $work/secret cannot be read" "${nobody[@]}" "$work/list" "$work/secret"
else
    echo "list: a file that may not be read is not tried: root cannot be nobody here"
fi
if [ -r /proc/self/mem ] && ! head -c 1 /proc/self/mem >/dev/null 2>&1; then
    ./list /proc/self/mem >"$work/out" 2>"$work/err" && fault "./list /proc/self/mem: ends with 0"
    grep -q '^list: /proc/self/mem could not be read into a scratch file (.*)$' "$work/err" || fault "/proc/self/mem: says $(cat "$work/err")"
fi
TMPDIR=$work/absent ./list $floor.max >"$work/out" 2>"$work/err"
if [ $? -ne 2 ] || [ -s "$work/out" ] || [ "$(tail -n 1 "$work/err")" != "list: no scratch folder can be made" ]; then
    fault "without a scratch folder: $(cat "$work/err")"
fi

# A tree of four crates, of which the program rests on three. The stand-in makes, as rt does where a source or the file itself has changed, a
# program, which it runs, or an archive; that program writes the file rows.
tree="$work/a tree"
mkdir -p "$tree/crates/"{ground,middle,listing,other}/{src,must-fail} "$work/stand_in"
cp list build "$tree"
touch "$tree/crates/"{ground,middle,other}/src/lib.rt "$tree/crates/listing/src/main.rt"
printf '%s\n' '# NAME: DEP' 'ground:' 'middle: ground' 'other staticlib: middle' 'listing: middle io' >"$tree/crates.txt"
printf '#!/bin/sh\ncat rows\n' >"$work/program"
chmod +x "$work/program"
cat >"$work/stand_in/rt" <<'END'
#!/bin/sh
name=${PWD##*/}
echo "$name: $*" >>../../asked
proved() { printf '%s\n' "fn $1::f: proved" "crate $1: modules loaded=0 checked=1" "logic=proved functions=1"; }
mkdir -p out
case $1 in
run)
    if [ -e ../../unproved ]; then
        printf '%s\n' "fn middle::f: no proof" "crate middle: modules loaded=0 checked=1" "logic=not-proved" >&2
        echo "rt: the library middle did not build, so nothing above it was checked" >&2
        exit 1
    fi
    sources=$(cd ../.. && cksum crates.txt crates/*/src/*)
    if [ "$sources" = "$(cat out/listing.stamp 2>&1)" ] && cmp -s ../../../program out/listing; then
        echo "rt: nothing has changed since the last proved build, by out/listing.stamp, so nothing is checked now" >&2
    else
        { proved middle && proved listing; } >&2
        cp ../../../program out/listing
        echo "$sources" >out/listing.stamp
    fi
    echo "rt: running out/listing; to give it other input, run that file yourself" >&2
    out/listing
    ;;
lib)
    proved "$name"
    echo archive >"out/lib$name.a"
    ;;
esac
END
chmod +x "$work/stand_in/rt"
cd "$tree" || exit 2
with=(env PATH="$work/stand_in:$work/tools:$PATH") without=(env PATH="$work/tools")
: >rows
needs_rt='has to be built, and rt, the command of the Rattle kit, is not on the PATH'
building='every function is proved first, which takes long where none is proved yet'
as_it_was='(unchanged since it was last proved)'
expect 2 $none "build: target/bin/listing $needs_rt" "${without[@]}" ./list rows
expect 2 $none "build: target/staticlib/libother.a $needs_rt" "${without[@]}" ./build other
progress="build: building target/bin/listing; $building
build: 1 of 3: ground proved $as_it_was
build: 2 of 3: middle proved
build: 3 of 3: listing proved"
expect 0 $none "$progress" "${with[@]}" ./list rows
expect 0 $none "build: building target/staticlib/libother.a; $building
build: 1 of 3: ground proved $as_it_was
build: 2 of 3: middle proved $as_it_was
build: 3 of 3: other proved" "${with[@]}" ./build other
cmp -s crates/other/out/libother.a target/staticlib/libother.a || fault "target/staticlib/libother.a is not what rt made"
[ "$(tail -n 2 asked)" = "listing: run
other: lib" ] || fault "rt was asked otherwise: $(cat asked)"
expect 2 $none "build: crates.txt lists middle as a library for other crates, of which alone nothing is built" "${with[@]}" ./build middle
expect 2 $none "usage: ./build NAME, a crate of crates.txt, such as listing or vithmork" "${with[@]}" ./build absent

# Only what goes into the program has it built anew, and by its content.
asked() { wc -l <asked; }
unchanged() {
    local before
    before=$(asked)
    expect 0 $none "" "${with[@]}" ./list rows
    [ "$(asked)" -eq "$before" ] || fault "built anew though $1"
}
# changed WHY SAID: built anew, with this said if it is not that two crates were proved
changed() {
    expect 0 $none "${2-$progress}" "${with[@]}" ./list rows
    cmp -s target/bin/listing ../program || fault "not built anew though $1"
    unchanged "nothing has changed since $1"
}
unchanged "nothing has changed"
touch crates/ground/src/lib.rt && unchanged "a file was only touched"
echo edit >crates/ground/must-fail/one.edit && unchanged "only an edit that must fail is new"
echo "// other" >crates/other/src/lib.rt && unchanged "only a crate that the program does not rest on has changed"
echo "// ground" >crates/ground/src/lib.rt && changed "a file changed"
touch -d 2001-01-01 crates/ground/src/older.rt && changed "an old file came in"
rm crates/ground/src/older.rt && changed "a file went"
echo "# new" >>crates.txt && changed "the list of crates changed"
copied="build: building target/bin/listing; $building
build: 1 of 3: ground proved $as_it_was
build: 2 of 3: middle proved $as_it_was
build: 3 of 3: listing proved $as_it_was"
echo "# of other sources" >>target/bin/listing && changed "the program became another" "$copied"
rm target/bin/listing && changed "the program went" "$copied"
rm -r target/built target/bin/listing && changed "a program went that rt alone had built" "$copied"
echo "# of other sources" >>crates/listing/out/listing && unchanged "only what rt made is another"
rm target/bin/listing && changed "the program went, and what rt made is another"
touch unproved && echo "// middle" >crates/middle/src/lib.rt
expect 2 $none "build: building target/bin/listing; $building
fn middle::f: no proof
logic=not-proved
rt: the library middle did not build, so nothing above it was checked
build: target/bin/listing was not built; target/built/listing.log has all that rt said" "${with[@]}" ./list rows
rm unproved && changed "a build failed"

# The word for each refusal, those too that no file meets.
number=0
while read -r word; do
    number=$((number + 1))
    printf 'row,tail,head,upper,lower\r\nrefused,,,%s,7\r\n' $number >rows
    expect 1 rows "turned down: $word" "${with[@]}" ./list rows
done <<'END'
stations
belts
pairs
precision
short table
loose belt, belt 7
capacity, belt 7
loose pair, pair 7
layout, line 7
long file
full count
refusal 12
END
printf '#!/bin/sh\nexit 126\n' >"$work/program" && rm target/bin/listing
"${with[@]}" ./build listing 2>/dev/null
expect 2 $none "list: target/bin/listing does not run here (status 126)" "${with[@]}" ./list rows

echo "list: $tried calls, $faults faults"
[ "$faults" -eq 0 ]
