#!/usr/bin/env bash
# The most stack that each of the C functions can use, from the compiled code: a line for each, its name and the bytes (see stack.awk).
# tests/stack.sh [LIBRARY]
set -u -o pipefail
cd "$(dirname "$0")/.." || exit 1
library=${1:-crates/host_calls/out/libhost_calls.a}
objdump -dr --no-show-raw-insn "$library" |
  awk -v outward='tzelmaruf_admit tzelmaruf_check_run tzelmaruf_check_regions tzelmaruf_make_list' -v outside='memcpy memmove memset memcmp' \
    -f tests/cycles.awk -f tests/stack.awk
