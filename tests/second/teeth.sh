#!/bin/sh
# Builds the self test once per seeded fault; each build must compile and fail.
# usage: SOURCES=... TESTS=... teeth.sh compiler folder
cc=$1
dir=$2/teeth
flags="-std=c11 -Wall -Wextra -Wpedantic -Wconversion -Werror"
last=$(sed -n 's/^#define SECOND_FAULTS //p' second.h)
[ "${last:-0}" -gt 0 ] || { echo "second.h does not say how many faults there are"; exit 1; }
mkdir -p "$dir" || exit 1
objects=
for file in $TESTS; do
    $cc $flags -O1 -c -o "$dir/${file%.c}.o" "$file" || exit 1
    objects="$objects $dir/${file%.c}.o"
done
missed=0
n=0
while [ "$n" -le "$last" ]; do
    $cc $flags -O0 -DFAULT="$n" -o "$dir/selftest" $SOURCES $objects || exit 1
    if "$dir/selftest" >"$dir/$n.txt"; then
        [ "$n" -eq 0 ] || { echo "fault $n is not seen"; missed=$((missed + 1)); }
    else
        [ "$n" -ne 0 ] || { echo "the good program fails"; exit 1; }
    fi
    n=$((n + 1))
done
echo "$last faults, $missed not seen"
[ "$missed" -eq 0 ]
