#!/usr/bin/env bash
# Times the library against the reference. Everything that is built goes to target/.
set -euo pipefail
cd "$(dirname "$0")/.."
export CARGO_TARGET_DIR=$PWD/target/cargo CARGO_NET_OFFLINE=true
unset RUSTFLAGS
tests/build.sh | tail -n 1
# shellcheck source=tests/archive_flags.sh
source tests/archive_flags.sh
cargo build --quiet --release --locked --jobs 2 --manifest-path bench/Cargo.toml
target/cargo/release/bench
