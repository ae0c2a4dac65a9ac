#!/usr/bin/env bash
# Links the proved archive to a shared library that exports the header's calls and nothing else.
#
#     tools/archive.sh
#     tools/shared-library.sh [ARCHIVE [LIBRARY]]
#
# Without arguments they are target/staticlib/libceviloneth.a and target/shared/libceviloneth.so. Fails where the archive lacks a call of
# the header, or has one that the header leaves out.
set -euo pipefail
root=$(cd "$(dirname "$0")/.." && pwd)
header=$root/include/ceviloneth.h
archive=${1:-$root/target/staticlib/libceviloneth.a}
library=${2:-$root/target/shared/libceviloneth.so}

fail() {
  echo "shared-library: $1" >&2
  exit 1
}

# Names of functions, one a line: those that the header declares, and those that a file of machine code defines for others.
declared() {
  grep -oE '\bceviloneth_[a-z_]+\(' "$header" | tr -d '(' | sort -u
}

defined() {
  nm --defined-only --extern-only "$@" | awk '$2 == "T" { print $3 }' | sort -u
}

[ -f "$archive" ] || fail "$archive is missing: run tools/archive.sh"
calls=$(declared)
diff <(echo "$calls") <(defined "$archive") || fail "$header (<) and $archive (>) have different calls"

mkdir -p "$(dirname "$library")"
map=${library%.so}.map
echo "{ global: ${calls//$'\n'/; }; local: *; };" >"$map"
cc -shared -o "$library" -Wl,-soname,libceviloneth.so -Wl,--no-undefined -Wl,-z,now -Wl,--version-script="$map" \
  -Wl,--whole-archive "$archive" -Wl,--no-whole-archive
diff <(echo "$calls") <(defined --dynamic "$library") || fail "$library exports other calls (>) than the header has (<)"
echo "$library: $(echo "$calls" | wc -l) calls"
