#!/bin/bash
# Makes the page that holds everything, play/rbl.html, of the engine's module and the parts of the page: build.sh [--unproved | --check] [WORD..]
#
# The module is made of the proved library (module.sh, which gets the words), or with --unproved of the sources alone. With --check the page is not
# written, but compared with the one that stands here; the status is 1 where it is another, and 77 where that can't be told: a tool is missing or
# is another than the page was made with, or the libraries below are not proved.
here=$(dirname "$(readlink -f "${BASH_SOURCE[0]}")")
page=$here/rbl.html
kind=
case $1 in --unproved | --check) kind=$1; shift ;; esac
work=$(mktemp -d) || exit 1
trap 'rm -rf "$work"' EXIT

# The module in a page, and by what it was made.
module_in() { sed -n 's/.*\bid="module"[^>]*>\([^<]*\)<.*/\1/p' "$1" | base64 -d | gzip -dc; }
made() { module_in "$1" | grep -aoE '(not )?proved(, compiled)? by [ -~]*$'; }

if [ "$kind" = --check ]; then
    here_made=$("$here/module.sh" --made) || exit 77
    [ "$(made "$page")" = "$here_made" ] || { echo "play/rbl.html is $(made "$page"); here it would be $here_made: not compared" >&2; exit 77; }
fi
"$here/module.sh" $([ "$kind" != --unproved ] || echo --unproved) "$work/engine.wasm" "$@" || exit
if [ "$kind" != --check ]; then
    python3 -B "$here/join.py" "$work/engine.wasm" "$page"
    exit
fi
# Compressors differ, and what they pack does not: so the module is compared, and all else by join.py.
module_in "$page" >"$work/module.wasm"
cmp "$work/engine.wasm" "$work/module.wasm" >&2 && python3 -B "$here/join.py" --check "$page" && exit
echo "play/rbl.html is not what play/build.sh makes of these sources" >&2
exit 1
