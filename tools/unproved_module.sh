#!/bin/bash
# Makes the LLVM module of a program, with nothing proved: unproved_module.sh FOLDER OUT, where FOLDER is the program's crate
#
# `rt try` compiles a program for one run and keeps nothing; so it is called in a copy of its toolchain that does. Where that no longer fits, this
# says so, and `rt run` in the crate is left.
here=$(dirname "$(readlink -f "${BASH_SOURCE[0]}")")
work=$(mktemp -d) || exit 1
trap 'rm -rf "$work"' EXIT
"$here/keeping_kit.sh" "$work" >/dev/null || exit 1
(cd "$1" && "$work/kit/bin/rt" try) >"$work/said" 2>&1 </dev/null
[ -s "$work/module.bc" ] && mv "$work/module.bc" "$2" && exit 0
cat "$work/said" >&2
echo "'rt try' made no module of $1: its sources have a fault, or this toolchain is not the one that README.md names" >&2
exit 1
