#!/bin/sh
# Builds the libraries and the programs of this folder, runs them, pulls the plug behind each store of a sale and of a load, and fails each store of
# them and of their recovery. The last line is 'ok'.
set -eu
cd "$(dirname "$0")/.."
tmp=$(mktemp -d)
boxes=$(mktemp -d -p /dev/shm 2>/dev/null || mktemp -d) # in memory where there is such a place: each store is flushed
trap 'rm -rf "$tmp" "$boxes"' EXIT
tools/build capi loadapi convertapi purselist >"$tmp/build" || { tail -n 20 "$tmp/build" >&2; exit 1; }
c="gcc -std=c11 -Wall -Wextra -pedantic -Werror -O2 -Iinclude"
library="target/staticlib/libcapi.a target/staticlib/libloadapi.a"
conversions=target/staticlib/libconvertapi.a
for p in calls box sale load; do
    $c "examples/$p.c" $library -o "$tmp/$p"
done
$c examples/convert.c $conversions -o "$tmp/convert"
for p in sale load; do
    $c -U_FORTIFY_SOURCE -Wl,--wrap=pread,--wrap=pwrite,--wrap=fsync,--wrap=fdatasync "examples/$p.c" examples/faults.c $library -o "$tmp/faulty-$p"
done
gcc -std=c99 -Wall -Wextra -pedantic -Werror -Iinclude -fsyntax-only -xc include/purse.h
g++ -std=c++17 -Wall -Wextra -Wold-style-cast -Wuseless-cast -pedantic -Werror -O2 -Iinclude examples/header.cpp $library $conversions -o "$tmp/header"
"$tmp/calls"
"$tmp/convert"
"$tmp/box"
"$tmp/header"
box=$boxes/box.img

fail() {
    echo "test.sh: $*" >&2
    exit 1
}

# ends STATUS COMMAND..: the command ends in this status; its words are in out.
ends() {
    want=$1
    shift
    status=0
    "$@" >"$tmp/out" 2>&1 || status=$?
    [ $status -eq "$want" ] || fail "status $status, not $want: $* [$(cat "$tmp/out")]"
}

says() { grep -qx "$1" "$tmp/out" || fail "no '$1' in [$(cat "$tmp/out")]"; }

# The next sale on the box goes through, and there were N sales with it: balance and files are theirs.
sold() {
    ends 0 "$tmp/sale" "$box"
    says "balance $((5000 - 670 * $1))"
    target/bin/purselist <"$box" >"$tmp/list"
    printf 'files 3 free 19\n4250102600000417 8 44+1\n4D50102600000417 %s 42+1\n5750102600000417 %s 43+1\n' $((8 * $1)) $((8 * $1)) |
        cmp - "$tmp/list" || fail "$(cat "$tmp/list")"
}

# A first sale takes 12 stores. Its list is stored with the sixth: before that the box is empty, from then on the sale is there.
k=0
while [ $k -le 12 ]; do
    rm -f "$box"
    ends 0 "$tmp/sale" "$box" $k
    if [ $k -lt 6 ]; then sold 1; else sold 2; fi
    k=$((k + 1))
done

# Each of them fails: lost, or written but not flushed. The program says whether the sale is in force, and the next run finds it so.
k=1
while [ $k -le 12 ]; do
    for fault in write sync; do
        rm -f "$box"
        ends 1 env FAULT="$fault $k" "$tmp/faulty-sale" "$box"
        case $k in
        [1-5]) says "the sale is not in force" && n=1 ;;
        6) says "the sale is in force or not, the next run tells" && if [ $fault = write ]; then n=1; else n=2; fi ;;
        *) says "the sale is in force, the next run finishes it" && n=2 ;;
        esac
        says "store $k of 12, block .*: Input/output error"
        sold "$n"
    done
    k=$((k + 1))
done

# The plug is pulled when the list is stored, then block 0 as it was read, or a store of the recovery fails: the sale stays in force.
k=1
while [ $k -le 7 ]; do
    for fault in write sync; do
        rm -f "$box"
        ends 0 "$tmp/sale" "$box" 6
        ends 1 env FAULT="$fault $k" "$tmp/faulty-sale" "$box"
        if [ $k -eq 1 ]; then
            says "the sale before is in force or not, the next run tells"
            says "store 1 of 6, block .*: Input/output error"
        else
            says "the sale before is in force, the next run finishes it"
            says "store $((k - 1)) of 6, block .*: Input/output error"
        fi
        sold 2
    done
    k=$((k + 1))
done

# Short and interrupted reads and writes are gone on with.
rm -f "$box"
ends 0 env FAULT=slow "$tmp/faulty-sale" "$box"
ends 0 env FAULT=slow "$tmp/faulty-sale" "$box"
sold 3

# A box that cannot be read is not made anew.
cp "$box" "$tmp/before"
ends 1 env FAULT=read "$tmp/faulty-sale" "$box"
cmp "$box" "$tmp/before"

# A new box that cannot be written is gone again, one that was empty is empty again.
for fault in image flush; do
    rm -f "$box"
    ends 1 env FAULT=$fault "$tmp/faulty-sale" "$box"
    [ ! -e "$box" ] || fail "$fault: the file is there"
    : >"$box"
    ends 1 env FAULT=$fault "$tmp/faulty-sale" "$box"
    if [ ! -f "$box" ] || [ -s "$box" ]; then fail "$fault: the file is not empty"; fi
    sold 1
done

# What is no box is refused and left as it is: a text, one as long as a box, a box cut short or with a byte more, zeros, a folder, no file at all.
refused() {
    cp "$1" "$tmp/before"
    ends 1 "$tmp/sale" "$1"
    cmp "$1" "$tmp/before" || fail "$1 has changed"
}
cp README.md "$tmp/notes.md"
refused "$tmp/notes.md"
cat README.md README.md README.md README.md README.md README.md README.md README.md | head -c 32768 >"$tmp/long.md"
[ "$(wc -c <"$tmp/long.md")" -eq 32768 ] || fail "long.md is too short"
refused "$tmp/long.md"
for n in 1 511 512 32767 32769 65536 3000000; do
    { cat "$box"; head -c 3000000 /dev/zero; } | head -c $n >"$tmp/odd.img"
    refused "$tmp/odd.img"
done
head -c 32768 /dev/zero >"$tmp/zeros.img"
refused "$tmp/zeros.img"

# A damaged box is refused with the record or the block that is. damaged PLACE BYTE WORDS: by this byte, in octal digits.
damaged() {
    cp "$box" "$tmp/odd.img"
    printf "\\$2" | dd of="$tmp/odd.img" bs=1 seek="$1" conv=notrunc 2>"$tmp/dd"
    refused "$tmp/odd.img"
    says "$tmp/odd.img: $3"
    ends 1 "$tmp/load" "$tmp/odd.img" samples/monday.txt
    says "$tmp/odd.img: $3"
    cmp "$tmp/odd.img" "$tmp/before"
}
damaged 16 041 "10, the list of a commit in block 0 is damaged, record 1"
damaged $((34 * 512 + 5 * 32 + 20)) 001 "22, a file record is damaged, record 5"
damaged $((33 * 512 + 7)) 020 "23, a block is marked wrong in the bit table, or used twice, block 60"
damaged $((33 * 512 + 511)) 177 "23, a block is marked wrong in the bit table, or used twice, block 4095"

mkdir "$tmp/folder"
ends 1 "$tmp/sale" "$tmp/folder"
[ -z "$(ls "$tmp/folder")" ] || fail "something is in the folder"
ends 1 "$tmp/sale" /dev/null
ends 1 "$tmp/sale" "$tmp/none/box.img"
ends 2 "$tmp/sale"
ends 2 "$tmp/sale" "$box" five

# An empty box of so many blocks, a number divisible by 8: all zero but the bit table.
empty_box() {
    head -c $((33 * 512)) /dev/zero
    printf '\377\377\377\377\377\003'
    head -c $(($1 / 8 - 6)) /dev/zero
    head -c $((512 - $1 / 8)) /dev/zero | tr '\0' '\377'
    head -c $((($1 - 34) * 512)) /dev/zero
}

# A box of another size is a box.
empty_box 128 >"$tmp/large.img"
ends 0 "$tmp/sale" "$tmp/large.img"
says "balance 4330"

# Two sales at once: the second is told at once, and the first goes on.
rm -f "$box"
mkfifo "$tmp/pipe"
FAULT="hold $tmp/pipe" "$tmp/faulty-sale" "$box" >"$tmp/first" 2>&1 &
first=$!
timeout 20 head -c 1 "$tmp/pipe" >"$tmp/out" || fail "the first sale did not begin: $(cat "$tmp/first")"
cp "$box" "$tmp/before"
ends 3 "$tmp/sale" "$box"
says "$box: in use"
cmp "$box" "$tmp/before"
echo >"$tmp/pipe"
wait $first || fail "the first sale: $(cat "$tmp/first")"
sold 2

# ---- Loads: three lines, of 8 stores each. The list of a line is its fourth store.
text=$tmp/monday.txt
head -n 3 samples/monday.txt >"$text"
printf '0404A1B2C3000000 8 42+1\n049C3E5A07000000 8 43+1\n0704A1B2C3D4E5F6 8 44+1\n' >"$tmp/cards"

# The box holds the first N cards, and no other purse.
has() {
    target/bin/purselist <"$box" >"$tmp/list"
    { echo "files $1 free $((22 - $1))" && head -n "$1" "$tmp/cards"; } | cmp - "$tmp/list" || fail "$(cat "$tmp/list")"
}

# N lines are there, a log perhaps: a load from the next one on loads the others, and one from the beginning is refused.
goes_on() {
    cp "$box" "$tmp/left"
    if [ "$1" -gt 0 ]; then
        ends 1 "$tmp/load" "$box" "$text"
        says "$text: line 1, 0 before it were loaded and stay; go on at line 1 when the cause is gone"
        says "$box: 14, a file has this name already"
        has "$1"
        cp "$tmp/left" "$box"
    fi
    ends 0 "$tmp/load" "$box" "$text" $(($1 + 1))
    if [ "$1" -eq 2 ]; then says "loaded 1 line"; else says "loaded $((3 - $1)) lines"; fi
    has 3
}

# The plug is pulled behind each store.
k=0
while [ $k -le 24 ]; do
    empty_box 64 >"$box"
    ends 0 "$tmp/load" "$box" "$text" 1 $k
    if [ $k -lt 24 ]; then says "the plug is pulled"; else says "loaded 3 lines"; fi
    goes_on $(((k + 4) / 8))
    k=$((k + 1))
done

# Block 0 as it was read, or each of the stores fails: lost, or written but not flushed. The program says which line it is, whether it is in
# force and where to go on, and it is so.
k=0
while [ $k -le 24 ]; do
    for fault in write sync; do
        empty_box 64 >"$box"
        ends 1 env FAULT="$fault $((k + 1))" "$tmp/faulty-load" "$box" "$text"
        line=$(((k + 7) / 8)) number=$(((k + 7) % 8 + 1))
        if [ $k -eq 0 ]; then line=1 number=1; fi
        n=$((line - 1))
        place="$text: line $line, $n before it were loaded and stay; go on at line"
        case $number in
        [1-3]) says "line $line is not in force" && says "$place $line when the cause is gone" ;;
        4) says "line $line is in force or not, the next run tells" && says "$place $line, or at line $((line + 1)) if that is refused with 14"
            if [ $fault = sync ]; then n=$line; fi ;;
        *) says "line $line is in force, the next run finishes it" && says "$place $((line + 1))" && n=$line ;;
        esac
        says "store $number of 8, block .*: Input/output error"
        goes_on "$n"
    done
    k=$((k + 1))
done

# The plug is pulled when the list of line 2 is stored, then block 0 as it was read, or a store of the recovery fails: line 2 stays in force.
k=0
while [ $k -le 4 ]; do
    for fault in write sync; do
        empty_box 64 >"$box"
        ends 0 "$tmp/load" "$box" "$text" 1 12
        ends 1 env FAULT="$fault $((k + 1))" "$tmp/faulty-load" "$box" "$text" 3
        if [ $k -eq 0 ]; then
            says "the change before is in force or not, the next run tells"
        else
            says "the change before is in force, the next run finishes it"
        fi
        goes_on 2
    done
    k=$((k + 1))
done

# A refused line is named, the lines before it stay; a box that is full; a text that is longer than what is read.
# stops N LINE WORDS..: these lines, of which N are loaded, are refused so.
stops() {
    empty_box 64 >"$box"
    ends 1 "$tmp/load" "$box" "$tmp/lines"
    says "$tmp/lines: line $2, $1 before it were loaded and stay; go on at line $2 when the cause is gone"
    says "$box: $3"
    [ "$(target/bin/purselist <"$box" | head -n 1)" = "files $1 free $((22 - $1))" ] || fail "$(target/bin/purselist <"$box")"
}
head -n 1 "$text" >"$tmp/lines"
echo "04A1B2C4;h;5" >>"$tmp/lines"
stops 1 2 "21, the line is not serial;letter;amount, or has no line feed"
printf '04A1B2C3;H;5' >"$tmp/lines"
stops 0 1 "21, the line is not serial;letter;amount, or has no line feed"
head -c 1000000 /dev/zero | tr '\0' '0' >"$tmp/lines"
stops 0 1 "20, the line is longer than 64 bytes"
{ cat "$text" && echo "3283263748;D;9"; } >"$tmp/lines"
stops 3 4 "14, a file has this name already"
seq -f '04%06.0f;H;7' 1000 9999 >"$tmp/lines"
stops 22 23 "16, too few blocks are free"
ends 1 "$tmp/load" "$box" "$tmp/lines" 9000
says "$tmp/lines: line 9000, 0 before it were loaded and stay; go on at line 9000 when the cause is gone"
ends 0 "$tmp/load" "$box" "$tmp/lines" 9001
says "loaded 0 lines"

# A text or a box that cannot be read stores nothing, and none is made; short and interrupted calls are gone on with.
empty_box 64 >"$box"
cp "$box" "$tmp/before"
for file in "$tmp/folder" "$tmp/none" ""; do
    ends 1 "$tmp/load" "$box" "$file"
    ends 1 "$tmp/load" "$box" "$file" 2
done
ends 1 env FAULT=read "$tmp/faulty-load" "$box" "$text"
cmp "$box" "$tmp/before"
ends 1 "$tmp/load" "$tmp/none.img" "$text"
[ ! -e "$tmp/none.img" ] || fail "a box is made"
for file in "$tmp/notes.md" "$tmp/long.md" "$tmp/zeros.img" /dev/null; do
    ends 1 "$tmp/load" "$file" "$text"
done
ends 0 env FAULT=slow "$tmp/faulty-load" "$box" "$text"
has 3
ends 2 "$tmp/load" "$box"
ends 2 "$tmp/load" "$box" "$text" 0
ends 2 "$tmp/load" "$box" "$text" 1st
ends 2 "$tmp/load" "$box" "$text" 1 -1

# Two loads at once: the second is told at once, and the first goes on.
empty_box 64 >"$box"
FAULT="hold $tmp/pipe" "$tmp/faulty-load" "$box" "$text" >"$tmp/first" 2>&1 &
first=$!
timeout 20 head -c 1 "$tmp/pipe" >"$tmp/out" || fail "the first load did not begin: $(cat "$tmp/first")"
ends 3 "$tmp/load" "$box" "$text"
says "$box: in use"
echo >"$tmp/pipe"
wait $first || fail "the first load: $(cat "$tmp/first")"
has 3
echo ok
