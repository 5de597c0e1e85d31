#!/usr/bin/env bash
# The comparison once per seeded fault of the second program that shows through run or reset: each must be found. The others, which
# show in the decoder, the encoder or the region view only, must be found by the walks (tests/walks).
# A second column tells which of them two runs with other secrets find by themselves, in the faulty program alone.
# Prints docs/FAULTS-FOUND.md; called by 'make teeth', which sets X86, SECOND, BUILD, LIBRARY, CFLAGS, OWN and THEIRS.
set -euo pipefail
export LC_ALL=C
cases=${TEETH_CASES:-300000}
secret_cases=${TEETH_SECRET_CASES:-100000}
dir=$BUILD/teeth
mkdir -p "$dir/x86" "$dir/self"

# rows: number, what is wrong, where it shows; from the table of faults.
rows() { sed -n 's/^| *\([0-9][0-9]*\) *| *\(.*[^ ]\) *| *[^|]* *| *\([a-z, ]*[a-z]\) *|$/\1\t\2\t\3/p' "$SECOND/FAULTS.md" | sort -n; }

# build FAULT WAY COMPILER..: only the files that hold the fault are compiled anew, all of them if it is in a header.
build() {
    local n=$1 way=$2 from=$BUILD objects=() file name
    shift 2
    [ "$way" = x86 ] || from=$BUILD/self
    local holds
    holds=$(cd "$SECOND" && grep -l "FAULT_IS($n)" ./*.[ch])
    for name in $OWN; do objects+=("$from/${name%.c}.o"); done
    for name in $THEIRS; do
        name=${name%.c}
        file=$from/second/$name.o
        if grep -q '\.h$' <<<"$holds" || grep -qx "./$name.c" <<<"$holds"; then
            "$@" $CFLAGS -DFAULT="$n" -c -o "$dir/$way/$name.o" "$SECOND/$name.c"
            file=$dir/$way/$name.o
        fi
        objects+=("$file")
    done
    [ "$way" != x86 ] || objects+=(-static "$LIBRARY")
    "$@" -o "$dir/$way/compare" "${objects[@]}"
}

# walks FAULT TARGET: the walks with a fault, or with none for 0.
walks() { make -s --no-print-directory -C ../walks FAULT="$1" BUILD="$dir/walks/$1" "$2"; }

# walk FAULT WHERE: found if the walks fail with it; they must build.
walk() {
    walks "$1" build
    if walks "$1" run >"$dir/$1.walks.txt" 2>&1; then
        passed=$((passed + 1)) elsewhere+=("$1 ($2, not found)")
    else
        stopped=$((stopped + 1)) elsewhere+=("$1 ($2)")
    fi
}

# The number of the first case that differs, or '-'.
first_case() { sed -n 's/^DIFFERENCE in case \([0-9]*\) .*/\1/p' "$1" | grep . || echo -; }

stop() {
    echo "teeth: $*" >&2
    exit 1
}

# What fails without a fault would find every one.
walks 0 run >"$dir/0.walks.txt" 2>&1 || stop "the walks fail without a fault, see $dir/0.walks.txt"
"$X86" run "$BUILD/compare" cases="$cases" >"$dir/0.txt" || true
[ "$(first_case "$dir/0.txt")" = - ] || stop "the comparison differs without a fault, see $dir/0.txt"
# A row of another shape would be passed over.
[ "$(rows | wc -l)" = "$(sed -n 's/^#define SECOND_FAULTS //p' "$SECOND/second.h")" ] || stop "FAULTS.md has not a row for each fault"

beside="the library"
case $LIBRARY in */target/staticlib/libv850.a) ;; *) beside="a stand-in with the library's entries" ;; esac
emulated=
[ -z "$("$X86" runner)" ] || emulated=", under emulation"
found=0 missed=0 stopped=0 passed=0 elsewhere=()
cat <<END
# What the comparison finds

The second program with one deliberate fault at a time (\`tests/second/FAULTS.md\`), beside $beside.

- "Found in case" is the first case of seed 1 in which the answer or a byte differs; the seconds are those of the run up to there$emulated.
- The last column is another test: the faulty program beside itself with other secrets, $secret_cases cases, and the first in which a
  secret shows. Most faults let no secret out, and have a dash there.

\`make -s teeth >docs/FAULTS-FOUND.md\` writes this page.

END
echo "| Fault | What is wrong | Found in case | Seconds | Other secrets show in case |"
echo "|---|---|---|---|---|"
while IFS=$'\t' read -r n what seen; do
    case $seen in
        *run* | *reset*) ;;
        *) walk "$n" "$seen"; continue ;;
    esac
    build "$n" x86 "$X86" cc
    start=$(date +%s.%N)
    "$X86" run "$dir/x86/compare" cases="$cases" >"$dir/$n.txt" || true
    seconds=$(echo "$(date +%s.%N) $start" | awk '{ printf "%.1f", $1 - $2 }')
    build "$n" self cc
    "$dir/self/compare" cases="$secret_cases" >"$dir/$n.secrets.txt" || true
    case_number=$(first_case "$dir/$n.txt")
    if [ "$case_number" = - ]; then missed=$((missed + 1)); else found=$((found + 1)); fi
    echo "| $n | $what | $case_number | $seconds | $(first_case "$dir/$n.secrets.txt") |"
done < <(rows)
echo
echo "$found faults found, $missed not found, of those that show through run or reset."
echo "By \`make walks\` $stopped faults found, $passed not found, of those that show elsewhere only: $(printf '%s, ' "${elsewhere[@]}" | sed 's/, $//')."
[ "$missed" -eq 0 ] && [ "$passed" -eq 0 ]
