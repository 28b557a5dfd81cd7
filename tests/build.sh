#!/usr/bin/env bash
# Puts what is run outside Rattle where the other checks look for it: target/bin/tanktable, tanklookup and tankconvert, and
# target/staticlib/libcapi.a, the archive of the C interface. Right behind an `rt ci` of the same sources, and with --from-ci, what that has left is
# taken as it is: it cleans out/ before it begins. Else rt proves first, which takes a while.
set -euo pipefail
cd "$(dirname "$0")/.."
from_ci=${1:-}
mkdir -p target/bin target/staticlib

# Prints what a command says only if it fails.
quietly() {
    local log=target/build.log
    "$@" >"$log" 2>&1 </dev/null || {
        cat "$log"
        echo "FAILED: $*"
        return 1
    }
}

# A program is left in out/ by a run; with --help it reads nothing.
program() {
    [ "$from_ci" = --from-ci ] || (cd "crates/$1" && rm -f "out/$1" && rt run -- --help)
    cp "crates/$1/out/$1" target/bin/
}

# `rt ci` proves the archive's room and keeps no archive. The libraries that it left have no stamp, and `rt lib` would prove them all anew; so
# rattle builds over them, and proves the room itself once more. A stamp says that they are those of an earlier check, which rt brings up to date.
archive() {
    local kit name words=()
    kit=$(dirname "$(rt doc)")
    if [ "$from_ci" = --from-ci ] && [ ! -f crates/capi/out/rlib/stamp ]; then
        for name in core std; do words+=(--extern "$name=$kit/rlibs/$name.rlib"); done
        for name in $(sed -n 's/^capi_c staticlib: *//p' crates.txt); do words+=(--extern "$name=crates/$name/out/rlib/$name.rlib"); done
        for name in crates/*/out/rlib; do words+=(-L "dependency=$name"); done
        "$kit/bin/rattle" build --crate-name capi_c --crate-type staticlib crates/capi_c/src/lib.rt "${words[@]}" -L "dependency=$kit/rlibs" \
            --antt-project "$kit/rattle/logic/antt-project.json" --logic-built "$kit/logic_built" --toolchain "$kit/toolchain" \
            --links capi_c= -o target/staticlib/libcapi.a
    else
        (cd crates/capi_c && rt lib)
        cp crates/capi_c/out/libcapi_c.a target/staticlib/libcapi.a
    fi
}

for name in tanktable tanklookup tankconvert; do quietly program "$name"; done
quietly archive
ls target/bin target/staticlib
