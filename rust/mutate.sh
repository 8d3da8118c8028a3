#!/bin/sh
# Nineteen known errors in the plain store, one at a time: the comparison has to find each.
# usage: rust/mutate.sh [LISTS [SEED]]; exit status 1 if one is missed.
cd "$(dirname "$0")" || exit 2
lists=${1:-300} seed=${2:-1}
what() {
    case $1 in
    1) echo "rename tests 14 before 13" ;;
    2) echo "the second lowest free block is taken" ;;
    3) echo "the tail is not cleared on shortening" ;;
    4) echo "a block that follows on begins a new extent" ;;
    5) echo "read shows the device's block where one is staged" ;;
    6) echo "block 0 is cleared before the last target" ;;
    7) echo "images and records in the order of staging" ;;
    8) echo "extent blocks held are counted as wanted again" ;;
    9) echo "read touches the byte behind the last one" ;;
    10) echo "staged numbers stay in the session after a commit" ;;
    11) echo "the number of a D line is not reversed" ;;
    12) echo "a refused line moves the place of the load" ;;
    13) echo "the image of a create stays behind a line refused with 16" ;;
    14) echo "a D line of a conversion is not padded with zeros" ;;
    15) echo "25 is told before a later line's refusal" ;;
    16) echo "a refused conversion leaves the lines before in the buffer" ;;
    17) echo "the first of two records with equal names is told" ;;
    18) echo "the lowest block reached twice is told though a lower bit is wrong" ;;
    19) echo "wrong bits are looked for from block 42 up only" ;;
    esac
}
missed=0
for m in 1 2 3 4 5 6 7 8 9 10 11 12 13 14 15 16 17 18 19; do
    cargo build -q --release -p compare --features "m$m" --target-dir target/mutants || exit 2
    out=$(target/mutants/release/compare "$lists" "$seed")
    case $? in
    0) verdict=missed missed=$((missed + 1)) ;;
    1) verdict=caught ;;
    *) verdict=broken missed=$((missed + 1)) ;;
    esac
    echo "m$m $verdict: $(what "$m")"
    printf "%s\n" "$out" | sed -n '/^difference: /{s/^/    /;s/\(.\{150\}\).*/\1 ../;p;}'
done
echo "missed $missed"
[ "$missed" -eq 0 ]
