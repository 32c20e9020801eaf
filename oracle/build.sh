#!/bin/sh
# usage: oracle/build.sh [PROFILE]      builds the oracle and prints where it stands; default release
set -eu
profile=${1:-release}
here=$(dirname -- "$0")
if ! command -v cargo >/dev/null 2>&1; then
  echo "build.sh: cargo is not on this machine" >&2
  exit 1
fi
cargo build --offline --quiet --manifest-path "$here/Cargo.toml" --profile "$profile" -j "${ORACLE_JOBS:-1}" >&2
echo "$here/target/$profile/oracle"
