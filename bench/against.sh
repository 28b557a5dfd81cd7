#!/usr/bin/env bash
# Times the largest table against another build of the library, both in one run: bench/against.sh OTHER/libcapi.a
# Everything that is built goes to target/.
set -euo pipefail
cd "$(dirname "$0")/.."
other=${1:?"expected: bench/against.sh OTHER/libcapi.a"}
export CARGO_TARGET_DIR=$PWD/target/cargo CARGO_NET_OFFLINE=true
unset RUSTFLAGS
mkdir -p target/against
tests/build.sh | tail -n 1
# shellcheck source=tests/archive_flags.sh
source tests/archive_flags.sh
cargo build --quiet --release --locked --jobs 2 --manifest-path bench/Cargo.toml
target/cargo/release/bench survey >target/against/largest.survey
# the other library's functions by other names, whichever it has
mapfile -t renames < <(nm -g --defined-only "$other" 2>/dev/null | sed -n 's/.* T \(milechime_\(.*\)\)$/--redefine-sym=\1=other_\2/p')
objcopy "${renames[@]}" "$other" target/against/libother.a
gcc -std=c11 -D_DEFAULT_SOURCE -O2 -Wall -Wextra -Werror -Iinclude bench/against.c target/staticlib/libcapi.a target/against/libother.a \
    -o target/against/against
target/against/against target/against/largest.survey
