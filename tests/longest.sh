#!/usr/bin/env bash
# Writes the largest table (12,747 bytes, 321 records) and the longest run list for it (49,158 bytes, 2,048 steps), which is accepted:
# tests/longest.sh FOLDER
set -u
cd "$1" || exit 1
zeros() { head -c "$1" /dev/zero; }
# times COUNT COMMAND..: what the command prints, so often
times() {
  local count=$1 text
  shift
  text=$("$@" | od -An -v -tx1 | tr -d '\n' | sed 's/ /\\x/g')
  # shellcheck disable=SC2059
  printf "$text%.0s" $(seq "$count")
}
# four clocks of bound 0, 64 locations, all final, and 256 edges from 0 to 0 with eight guards, clock 0 ≥ 0
edge() {
  printf 'ED\x00\x00\x08'
  printf '\x00\x03\x00%.0s' 1 2 3 4 5 6 7 8
  zeros 20
}
step() {
  printf 'ST'
  zeros 22
}
{
  printf 'TA\x04\x40\x00\x01\x00'
  zeros 4
  times 64 printf 'LO\x01'
  times 256 edge
} > table.tab
{
  printf 'RN\x00\x01\x08\x00'
  times 2048 step
} > proof.prf
