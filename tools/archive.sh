#!/usr/bin/env bash
# Proves and builds the archive for C, the crate `ceviloneth_c`, as target/staticlib/libceviloneth.a.
#
#     tools/archive.sh
set -euo pipefail
cd "$(dirname "$0")/.."
(cd crates/ceviloneth_c && rt lib)
mkdir -p target/staticlib
cp crates/ceviloneth_c/out/libceviloneth_c.a target/staticlib/libceviloneth.a
