#!/bin/bash
# Tells what `./rbl` runs, or `./rblview`: program.sh rbl|rblview [native]
#
# It is the proved program, if that was built (`rt run` in its crate builds it) and no source is younger. Else, where the program need not be one
# of this machine, it is play/rbl.js, which runs the engine's module in the page play/rbl.html by node, if no source is younger than the page. Else
# it is one that is compiled once, with nothing proved, and kept; it is compiled again where a source is younger. Status 70 where it can't be.
name=$1
here=$(dirname "$(dirname "$(readlink -f "${BASH_SOURCE[0]}")")")
proved=$here/crates/$name/out/$name
kept=$here/out/$name-unproved
stands() { [ -e "$1" ] && [ -z "$(find "$here"/crates/*/src -name '*.rt' -newer "$1" -print -quit)" ]; }
has_node() { local version; version=$(node --version 2>/dev/null) && version=${version#v} && [ "${version%%.*}" -ge 18 ]; }
if stands "$proved"; then
    echo "$proved"
    exit
fi
if [ "$2" != native ] && stands "$here/play/rbl.html" && has_node; then
    echo "$here/play/rbl.js"
    exit
fi
if ! stands "$kept"; then
    mkdir -p "$here/out" || exit 70
    exec 9>"$here/out/$name-unproved.lock"
    flock 9 2>/dev/null
    if ! stands "$kept"; then
        echo "$name: compiling it once, which takes one to three minutes and proves nothing; 'cd $here/crates/$name && rt run' proves and builds it" >&2
        "$here/tools/compile_unproved.sh" "$kept" "$name" 9>&- || exit 70
    fi
    exec 9>&-
fi
echo "$kept"
