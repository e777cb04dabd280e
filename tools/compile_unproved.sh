#!/bin/bash
# Compiles a program, rbl if none is named, with nothing proved, and writes it to a file: compile_unproved.sh OUT [NAME]
#
# The toolchain's own clang compiles the module that `rt try` makes of the sources as fast as it can, and its linker makes the program.
out=$(realpath -m "$1")
name=${2:-rbl}
here=$(dirname "$(dirname "$(readlink -f "${BASH_SOURCE[0]}")")")
work=$(mktemp -d) || exit 1
trap 'rm -rf "$work"' EXIT
"$here/tools/unproved_module.sh" "$here/crates/$name" "$work/module.bc" || exit 1
kit=$(dirname "$(dirname "$(readlink -f "$(command -v rt)")")")
target=x86_64-unknown-linux-gnu
"$kit/toolchain/bin/clang" --target=$target --no-default-config -ffunction-sections -fdata-sections -O2 -fPIE -c -x ir "$work/module.bc" -o "$work/module.o" >"$work/said" 2>&1 &&
    "$kit/bin/rattle-link" --target $target --toolchain "$kit/toolchain" -o "$work/rbl" "$work/module.o" "$kit/c/libos_c.a" "$kit/c/liblibc_c.a" >>"$work/said" 2>&1 &&
    mkdir -p "$(dirname "$out")" && mv "$work/rbl" "$out.$$" && mv "$out.$$" "$out" && exit 0
cat "$work/said" >&2
echo "$name: the module of crates/$name was not compiled: this toolchain is not the one that README.md names" >&2
exit 1
