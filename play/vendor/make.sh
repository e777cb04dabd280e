#!/bin/bash
# Makes codemirror.min.js, codemirror.css and LICENSE of this folder anew, from Debian's `libjs-codemirror`, with `terser`: make.sh
#
# What stands here was made of libjs-codemirror 5.65.0+~cs5.83.9-2 by terser 5.16.5-2. The page's build wants neither of them.
here=$(dirname "$(readlink -f "${BASH_SOURCE[0]}")")
from=/usr/share/javascript/codemirror
[ -d "$from" ] && [ -n "$(command -v terser)" ] || { echo "install libjs-codemirror and terser first" >&2; exit 1; }
export NODE_PATH=/usr/share/nodejs
for part in lib/codemirror addon/edit/matchbrackets addon/comment/comment; do
    terser "$from/$part.js" --compress --mangle --format ascii_only=true,comments=false && echo || exit 1
done >"$here/codemirror.min.js"
tr '\n' ' ' <"$from/lib/codemirror.css" | sed 's@/\*[^*]*\*\+\([^/*][^*]*\*\+\)*/@@g; s/  */ /g; s/ *\([{};,]\) */\1/g; s/}/}\n/g' >"$here/codemirror.css"
# Of Debian's file: the copyright, and the licence, whose paragraph comes last.
{
    sed -n '/^Files: \*/,/^$/p' /usr/share/doc/libjs-codemirror/copyright
    tac /usr/share/doc/libjs-codemirror/copyright | sed '/^License: Expat/q' | tac
} >"$here/LICENSE"
