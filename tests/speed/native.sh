#!/usr/bin/env bash
# On a processor other than x86-64: the times of the library's code there, not emulated. The toolchain makes x86-64 code alone, so what it
# hands to LLVM is kept, optimized as for x86-64, and only then turned into code for this processor. That is not the product.
# Called by 'make speed', which sets BUILD, CFLAGS and THEIRS. It wants a kit that runs on that processor, as an older one did; the present one
# runs on x86-64 alone, so this has not been tried with it.
set -euo pipefail
export LC_ALL=C
images="alu mem branch mulsat"
machine=$(uname -m) size=65536 budget=20000000 tries=5
kit=$(cd "$(dirname "$(rt doc)")/.." && pwd)
tools=on/$machine/toolchain
clang=$kit/$tools/bin/clang
module=$BUILD/module

# ---- The kit once more, with a compiler that keeps what it is given.

rm -rf "$BUILD/kit" "$module".*
mkdir -p "$BUILD/kit/$tools/bin"
cat >"$BUILD/kit/$tools/bin/clang" <<END
#!/bin/sh
for word in "\$@"; do case \$word in *.bc) cp "\$word" "$module.bc" ;; esac; done
exec "$clang" "\$@"
END
chmod +x "$BUILD/kit/$tools/bin/clang"
for folder in . on "on/$machine" "$tools" "$tools/bin"; do
    for file in "$kit/$folder"/*; do
        [ -e "$BUILD/kit/$folder/${file##*/}" ] || ln -s "$file" "$BUILD/kit/$folder/"
    done
done
(cd ../../crates/v850_c && RATTLE_HOME="$BUILD/kit" rt lib >&2)

# ---- Optimized for x86-64, then without a word of x86-64.

traps="-mllvm -trap-unreachable -mllvm -no-trap-after-noreturn"
"$clang" --target=x86_64-unknown-linux-gnu -march=x86-64 -O3 -fPIC $traps -S -emit-llvm -x ir "$module.bc" -o "$module.ll"
sed -i '/^target /d; s/"target-cpu"="[^"]*"//; s/"tune-cpu"="[^"]*"//; s/"target-features"="[^"]*"//' "$module.ll"
"$clang" --target="$machine-linux-gnu" -O3 -fPIC $traps -Xclang -disable-llvm-passes -Wno-override-module -c -x ir "$module.ll" -o "$module.o"
cc $CFLAGS -static -o "$BUILD/native" speed.c $THEIRS "$module.o"

ns() { "$BUILD/native" "$1" "images/$2.bin" $size $budget $tries | awk -v n=$budget '{ sub(/.*ns=/, ""); printf "%.2f", $0 / n }'; }

printf '\nNot the product, but its code by way of this processor (%s):\n' "$machine"
printf '%-8s %13s %12s %14s\n' image "v850, ns" "second, ns" "times as fast"
for image in $images; do
    a=$(ns v850 "$image") b=$(ns second "$image")
    printf '%-8s %13s %12s %14s\n' "$image" "$a" "$b" "$(awk -v a="$a" -v b="$b" 'BEGIN { printf "%.2f", b / a }')"
done
