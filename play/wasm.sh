#!/bin/bash
# Makes the engine's WebAssembly module of its LLVM module: wasm.sh MODULE OUT NOTE
#
# clang takes the module, which was made for this machine, for one of WebAssembly with places of 64 bits, which have the same sizes and alignments;
# binaryen makes these places of 32 bits of a memory, as browsers have had for longer. NOTE comes into the module's section `made`.
here=$(dirname "$(readlink -f "${BASH_SOURCE[0]}")")
module=$(realpath "$1") && out=$(realpath -m "$2") || exit 1
clang=$(dirname "$(dirname "$(readlink -f "$(command -v rt)")")")/toolchain/bin/clang
work=$(mktemp -d) || exit 1
trap 'rm -rf "$work"' EXIT
cd "$work" || exit 1
ln -s "$clang" wasm-ld && ln -s "$clang" llvm-objcopy   # the toolchain's clang is these tools too, by their names
# As the toolchain compiles for WebAssembly, but for -Os, whose module is two fifths smaller than that of -O3, and as fast.
flags="--target=wasm64-unknown-unknown --no-default-config -mcpu=lime1 -Os -ffunction-sections -fdata-sections"
for flag in expand-div-rem-bits=64 expand-fp-convert-bits=64 trap-unreachable disable-machine-licm disable-postra-machine-licm sink-common-insts=false; do
    flags+=" -mllvm -$flag"
done
features="--enable-memory64 --enable-bulk-memory --enable-mutable-globals --enable-nontrapping-float-to-int --enable-sign-ext --enable-multivalue"
printf '%s' "$3" >note
made() {
    "$clang" $flags -Wno-override-module -c -x ir "$module" -o engine.o || return 1
    for part in heap memory wide; do
        "$clang" $flags -ffreestanding -nostdinc -c "$here/$part.c" -o "$part.o" || return 1
    done
    ./wasm-ld -mwasm64 --no-entry --gc-sections --strip-all --stack-first -z stack-size=1048576 \
        --export=rbl_ask --export=rblview_ask --export=take --export=give -o linked engine.o heap.o memory.o wide.o &&
        ./llvm-objcopy --remove-section=TABLE --add-section=made=note linked marked &&   # a table of 64 bits, empty, which few engines read
        wasm-opt $features --memory64-lowering -O1 marked -o lowered
}
made >said 2>&1 && mv lowered "$out" && exit 0
cat said >&2
exit 1
