#!/usr/bin/env bash
# Holds the proved library to its C header and to the independent reference program: takes the archive and the programs that tests/build.sh
# built, runs the C test, the reference's own tests, those of the Rust wrapper, and the comparison of both over generated surveys and lookups.
# Everything that is built or written goes to target/.
set -euo pipefail
cd "$(dirname "$0")/.."

# The reference needs nothing but the standard library.
export CARGO_TARGET_DIR=$PWD/target/cargo CARGO_NET_OFFLINE=true
unset RUSTFLAGS

step() {
    echo "== $1 ($SECONDS s)"
}

# Prints what a command says only if it fails.
quietly() {
    local log=target/compare.log
    "$@" >"$log" 2>&1 || {
        cat "$log"
        echo "FAILED: $*"
        return 1
    }
}

mkdir -p target/c

archive=target/staticlib/libcapi.a

step "the C test"
strict=(-pthread -Wall -Wextra -Werror -Iinclude)
c11=(-std=c11 -D_DEFAULT_SOURCE)
gcc "${c11[@]}" -O2 "${strict[@]}" tests/c/*.c "$archive" -o target/c/test
target/c/test
gcc "${c11[@]}" -g -fsanitize=address,undefined -fno-sanitize-recover=all "${strict[@]}" tests/c/*.c "$archive" -o target/c/test-sanitized
quietly target/c/test-sanitized
echo "with sanitizers: $(tail -n 1 target/compare.log)"
g++ -std=c++17 "${strict[@]}" tests/c/from_cpp.cpp "$archive" -o target/c/from-cpp
target/c/from-cpp

step "the reference's own tests"
quietly cargo test --locked --jobs 2 --manifest-path reference/Cargo.toml
grep '^test result' target/compare.log | grep -v ' 0 passed'

step "the Rust wrapper's tests"
# shellcheck source=tests/archive_flags.sh
source tests/archive_flags.sh
quietly cargo test --release --locked --jobs 2 --manifest-path reference/compare/Cargo.toml
grep '^test result' target/compare.log | grep -v ' 0 passed'

step "the comparison"
quietly cargo build --release --locked --jobs 2 --manifest-path reference/compare/Cargo.toml
rm -rf target/mismatches
target/cargo/release/compare target/bin/tanktable target/bin/tanklookup target/bin/tankconvert target/mismatches

step "done"
