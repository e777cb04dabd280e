#!/bin/bash
# Makes the engine's WebAssembly module: module.sh [--unproved] OUT [WORD..]
#
# It is made of the static library crates/rb_web, which is proved here over the libraries that `rt ci` has proved and left in crates/*/out/rlib;
# the words go to `rattle build`, as `--jobs 1`. With --unproved it is made of the sources alone, which takes two minutes and proves nothing. The
# status is 77 where a tool or a library is missing. `module.sh --made` tells what the module would say of itself.
here=$(dirname "$(dirname "$(readlink -f "${BASH_SOURCE[0]}")")")
how=proved
[ "$1" = --unproved ] && { how="not proved, compiled"; shift; }
[ -n "$1" ] || { echo "module.sh [--unproved] OUT [WORD..]" >&2; exit 2; }
for tool in rt wasm-opt; do
    command -v "$tool" >/dev/null || { echo "there is no $tool, which the module is made with" >&2; exit 77; }
done
clang=$(dirname "$(dirname "$(readlink -f "$(command -v rt)")")")/toolchain/bin/clang
made="$how by $(rt version); LLVM $("$clang" -dumpversion); binaryen $(wasm-opt --version | grep -o '[0-9]*')"
[ "$1" = --made ] && { echo "$made"; exit; }
out=$(realpath -m "$1"); shift
work=$(mktemp -d) || exit 1
trap 'rm -rf "$work"' EXIT

# The module of the proved library.
proved() {
    local kit words=() name folder
    kit=$("$here/tools/keeping_kit.sh" "$work") || return 1
    for name in $(sed -n 's/^rb_web staticlib: *//p' "$here/crates.txt"); do
        folder=$here/crates/$name/out/rlib/$name.rlib
        [ -e "$folder" ] || { echo "$name is not proved: 'rt ci' proves it" >&2; return 77; }
        words+=(--extern "$name=$folder")
    done
    for folder in "$here"/crates/*/out/rlib; do words+=(-L "dependency=$folder"); done
    (cd "$here/crates/rb_web" && "$kit/bin/rattle" build --crate-name rb_web --crate-type staticlib src/lib.rt -o "$work/librb_web.a" \
        --extern "std=$kit/rlibs/std.rlib" -L "dependency=$kit/rlibs" "${words[@]}" --links rb_web= --toolchain "$work/kit/toolchain" \
        --antt-project "$kit/rattle/logic/antt-project.json" --logic-built "$kit/logic_built" "$@") 2>&1 | tee "$work/said" >&2
    grep -q '^logic=proved' "$work/said"
}

# The module of the sources: a program is made of the library, since only that is compiled unproved; its exports get their names, and it no longer
# fills each new place with a pattern.
unproved() {
    local copy=$work/copy crate
    for crate in "$here"/crates/*; do
        mkdir -p "$copy/${crate#"$here"/}" && ln -s "$crate"/[!o]* "$copy/${crate#"$here"/}/"
    done
    rm "$copy/crates/rb_web/src" && mkdir "$copy/crates/rb_web/src" && ln -s "$here"/crates/rb_web/src/* "$copy/crates/rb_web/src/"
    rm "$copy/crates/rb_web/src/lib.rt"
    sed 's/^rb_web staticlib:/rb_web:/' "$here/crates.txt" >"$copy/crates.txt"
    cat "$here/crates/rb_web/src/lib.rt" - >"$copy/crates/rb_web/src/main.rt" <<'END_OF_MAIN'

fn main(rt: HostRuntime) {
    let mut ended = Ended {
        status: 0,
        written: 0,
        told: 0,
    };
    rbl_ask(rt.alloc(), &[], 0, &[], &[], &[], &mut [], &mut [], &mut ended);
    rblview_ask(rt.alloc(), &[], 0, &[], &[], &[], &mut [], &mut [], &mut ended);
}
END_OF_MAIN
    "$here/tools/unproved_module.sh" "$copy/crates/rb_web" "$work/program.bc" || return 1
    "$clang" -x ir "$work/program.bc" -S -emit-llvm -Xclang -disable-llvm-passes -Wno-override-module -o - |
        sed -E -e 's/^define internal (.*@"rb_web::(rbl|rblview)_ask")/define \1/' -e 's/@"rb_web::(rbl|rblview)_ask"/@\1_ask/g' \
            -e '/^  call void @llvm\.memset.* i8 -86,/d' -e '/^attributes/s/ sanitize_address//' >"$work/module.bc"
}

if [ "$how" = proved ]; then proved "$@"; else unproved; fi
status=$?
[ "$status" -eq 0 ] || exit "$status"
"$here/play/wasm.sh" "$work/module.bc" "$out" "$made"
