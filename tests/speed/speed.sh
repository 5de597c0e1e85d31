#!/usr/bin/env bash
# Prints ns and instructions a step of both programs on the four images, and the cost of a short run.
# Called by 'make speed', which sets X86 and BUILD.
set -euo pipefail
export LC_ALL=C
images="alu mem branch mulsat"
speed=$BUILD/speed
# Counting needs an emulator that takes plugins, as Debian's does; the toolchain's own does not.
[ "$(uname -m)" = x86_64 ] || command -v qemu-x86_64 >/dev/null || "$X86" install qemu-user || true
runner=$("$X86" runner)
size=65536

# ---- Instructions: the emulator's plugin, or valgrind; the difference of two runs leaves the start out.

if [ -n "$runner" ]; then
    emulated=" (emulated)" tries=3 budget=2000000
    # The emulator takes plugins of its own interface version only.
    for version in 1 2 3 4 5 6; do
        cc -std=c11 -O2 -shared -fPIC -DINTERFACE=$version -o "$BUILD/icount.so" icount.c
        said=$("$runner" -plugin "$BUILD/icount.so" "$speed" 2>&1 || true)
        [[ $said != *instructions=* ]] || break
    done
    count() { "$runner" -plugin "$BUILD/icount.so" "$speed" "$@" 2>&1 >/dev/null | sed -n 's/^instructions=//p'; }
else
    emulated="" tries=5 budget=20000000
    command -v valgrind >/dev/null || "$X86" install valgrind || true
    count() { valgrind --tool=callgrind --callgrind-out-file=/dev/null "$speed" "$@" 2>&1 >/dev/null | sed -n 's/^==.*Collected : //p'; }
fi

# per N A B: (B - A) / N, or a question mark where nothing could be counted.
per() { awk -v n="$1" -v a="${2:-?}" -v b="${3:-?}" 'BEGIN { if (a != "?" && b != "?") printf "%.1f", (b - a) / n; else print "?" }'; }
ratio() { awk -v a="$1" -v b="$2" 'BEGIN { if (a != "?" && b != "?") printf "%.2f", a / b; else print "?" }'; }
steps_cost() { per 500000 "$(count "$1" "images/$2.bin" $size 100000 1)" "$(count "$1" "images/$2.bin" $size 600000 1)"; }
run_cost() { per 2000 "$(count "$1" images/alu.bin "$2" 100 100)" "$(count "$1" images/alu.bin "$2" 100 2100)"; }
field() { sed -n "s/.*$1=\([0-9A-F.]*\).*/\1/p"; }

# ---- The whole image first: steps, PSW and registers as counts.txt has them; PC is 4 behind its HALT.

check() {
    local want got
    want=$(grep -A1 "^$1.bin:" images/counts.txt | sed 's/^[^ ]* bytes=[0-9]* \(steps=[0-9]*\) .* \(psw=.*\)/answer=4 \1 \2/')
    got=$("$X86" run "$speed" v850 "images/$1.bin" $size 0xFFFFFFFF 1 registers | sed 's/ pc=[0-9A-F]*//; s/ ns=.*//')
    [ "$(tr -s ' \n' ' ' <<<"$want")" = "$(tr -s ' \n' ' ' <<<"$got")" ] || { printf '%s ends differently:\n%s\n%s\n' "$1" "$want" "$got"; return 1; }
}

run_ns() { "$X86" run "$speed" "$1" images/alu.bin "$2" 100 2000 | field ns; }
ns() { "$X86" run "$speed" "$1" "images/$2.bin" $size $budget $tries | field ns; }

model=$(lscpu 2>/dev/null | sed -n 's/^Model name: *//p' || true)
printf '%s, %s\n\n' "$(date +%F)" "${model:-$(uname -m)}"
printf '%-8s %26s %8s   %26s %8s\n' image "ns a step$emulated" "times" "instructions a step" "times"
printf '%-8s %13s %12s %8s   %13s %12s %8s\n' "" v850 second "as fast" v850 second "fewer"
for image in $images; do
    check "$image"
    a=$(ns v850 "$image") b=$(ns second "$image")
    c=$(steps_cost v850 "$image") d=$(steps_cost second "$image")
    printf '%-8s %13.1f %12.1f %8s   %13s %12s %8s\n' "$image" "$(ratio "$a" $budget)" "$(ratio "$b" $budget)" "$(ratio "$b" "$a")" "$c" "$d" "$(ratio "$d" "$c")"
    [ "$image" != alu ] || { ours=$c theirs=$d; }
done
echo
echo "A run of 100 steps of alu, and what of its instructions is not steps (entry and exit):"
for memory in 4096 65536; do
    a=$(run_cost v850 $memory) b=$(run_cost second $memory)
    printf '%6s bytes of memory: v850 %s instructions (%s), %s ns%s; second %s (%s), %s ns%s\n' $memory \
        "$a" "$(per 1 "$(ratio "$ours" 0.01)" "$a")" "$(run_ns v850 $memory)" "$emulated" \
        "$b" "$(per 1 "$(ratio "$theirs" 0.01)" "$b")" "$(run_ns second $memory)" "$emulated"
done
