# shellcheck shell=bash
# Sourced: has cargo link the archive of the C interface. Cargo does not look at an archive, so it is given by a path with its
# sum in it: a new archive is a new path, and what links it is built again.
sum=$(sha256sum target/staticlib/libcapi.a | cut -c1-16)
mkdir -p "target/archives/$sum"
cp target/staticlib/libcapi.a "target/archives/$sum/"
export RUSTFLAGS="-L native=$PWD/target/archives/$sum"
