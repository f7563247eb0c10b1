#!/bin/bash
# tests/symbols.sh ARCHIVE: the functions that the archive has for callers are those that include/kanaouvel.h declares.
set -euo pipefail
cd "$(dirname "$0")/.."
diff <(nm --defined-only --extern-only "$1" | awk '$2 == "T" { print $3 }' | sort) \
    <(grep -v '^static' include/kanaouvel.h | grep -oE '\bkan_[a-z_0-9]+\(' | tr -d '(' | sort -u)
