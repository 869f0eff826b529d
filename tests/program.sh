#!/usr/bin/env bash
# Runs the program on each folder of tests/program and examples, and on files that are longer than any it accepts, and compares what it prints with the
# one line expected there. Then on a folder for each refusal: the number that it prints is the one that host/tzelmaruf.h gives the folder's name. Then
# on files that are read in small pieces, and of which a read fails. The last line is 'N passed, M failed'.
set -u
cd "$(dirname "$0")/.." || exit 1
program=$PWD/target/bin/tzelmaruf
room=$(mktemp -d) && trap 'rm -rf "$room"' EXIT
passed=0 failed=0
# what the program finds in its environment besides
settings=()
command -v gcc > /dev/null || { echo "program: no command 'gcc' on the PATH"; echo "0 passed, 1 failed"; exit 1; }
[ -x "$program" ] || { echo "program: there is no $program: build it with 'commands/build tzelmaruf'"; echo "0 passed, 1 failed"; exit 1; }

# check NAME FOLDER EXPECTED
check() {
  local got
  got=$(cd "$2" && env "${settings[@]}" "$program" 2>&1)
  if [ "$got" = "$3" ]; then passed=$((passed + 1)); else failed=$((failed + 1)); echo "program: $1: printed '$got', expected '$3'"; fi
}

for folder in tests/program/*/expected examples/*/expected; do
  folder=${folder%expected}
  check "$(basename "$folder")" "$folder" "$(cat "$folder/expected")"
done

# a megabyte after the last record, of a table, a region list and a run list
long() {
  rm -rf "$room/long" && cp -r "$2" "$room/long" && head -c 1000000 /dev/zero >> "$room/long/$3"
  check "$1" "$room/long" "$4"
}
long table-overlong tests/program/p1 table.tab 'REFUSED 4 6'
long list-overlong tests/program/p1 proof.prf 'REFUSED 9 9'
long run-overlong tests/program/p4-at-most proof.prf 'REFUSED 9 3'

# names that cannot be read as files: a folder, a link to itself, a device without end, five gigabytes that are not on the disk
mkdir -p "$room/folder/table.tab" "$room/folder/proof.prf" "$room/loop" "$room/device" "$room/sparse"
check folders "$room/folder" 'REFUSED 1 0'
ln -s table.tab "$room/loop/table.tab"
check loop "$room/loop" 'REFUSED 1 0'
cp tests/program/p1/table.tab "$room/device" && ln -s /dev/zero "$room/device/proof.prf"
check device "$room/device" 'REFUSED 7 0'
cp tests/program/p1/*.??? "$room/sparse" && truncate -s 5G "$room/sparse/proof.prf"
check sparse "$room/sparse" 'REFUSED 9 9'

# number NAME: that of a refusal, by the name of its folder
number() { sed -nE "s/^ *X\(([0-9]+), $(tr a-z- A-Z_ <<< "$1"), .*/\1/p" host/tzelmaruf.h; }
for folder in tests/refusals/*/; do
  name=$(basename "$folder")
  line=$(cd "$folder" && "$program" 2>&1)
  case $line in
    "REFUSED $(number "$name") "*) passed=$((passed + 1)) ;;
    *) failed=$((failed + 1)); echo "program: refusals/$name: printed '$line', host/tzelmaruf.h has the number '$(number "$name")'" ;;
  esac
done

# ---- a slow stick: with another `read` before that of the C library (failing_read.c) the verdict does not hang on how many bytes a read hands out
gcc -O2 -std=c99 -pedantic -Wall -Wextra -Werror -shared -fPIC -o "$room/stick.so" tests/failing_read.c || failed=$((failed + 1))
# stick PIECE SETTINGS..
stick() { settings=(LD_PRELOAD="$room/stick.so" STICK_COUNT="$room/count" STICK_PIECE="$1" "${@:2}"); }
for piece in 1 7; do
  stick $piece
  for folder in tests/program/*/expected examples/*/expected; do
    folder=${folder%expected}
    check "$(basename "$folder") in pieces of $piece" "$folder" "$(cat "$folder/expected")"
  done
done
# that `read` is really the one that the program calls
check 'read in pieces of 7' examples/empty 'EMPTY 8'
least=$(($(cat examples/empty/*.??? | wc -c) / 7))
if [ "$(cat "$room/count" || echo 0)" -gt $least ]; then passed=$((passed + 1)); else failed=$((failed + 1)); echo "program: tests/failing_read.c sleeps"; fi

# ---- a bad stick: a file of which a read fails counts as one that cannot be opened, so it is empty, whatever was read of it before. The failure comes
# at each byte, and last where the file has been read whole and its end is asked for: a program that takes a failed read for the end of its file would
# accept examples/empty and examples/reached there. One byte later the failure is never met, and the verdict is given.
size() { wc -c < "$1"; }
# fails NAME FOLDER FILE BYTE EXPECTED: read in some pieces, with a failure at that byte of the file
fails() {
  local piece
  for piece in 1 7 65536; do
    stick $piece STICK_FILE="$3" STICK_BYTE="$4"
    check "$1: a read of $3 in pieces of $piece that fails at byte $4" "$2" "$5"
  done
}
for folder in examples/empty examples/reached; do
  for file in table.tab proof.prf; do
    case $file in table.tab) empty='REFUSED 1 0' ;; proof.prf) empty='REFUSED 7 0' ;; esac
    end=$(size $folder/$file)
    for byte in $(seq 0 "$end"); do fails $folder $folder $file "$byte" "$empty"; done
    fails $folder $folder $file $((end + 1)) "$(cat $folder/expected)"
  done
done
# what is wrong with the table comes first
fails table-cut tests/program/table-cut proof.prf 0 "$(cat tests/program/table-cut/expected)"
# 65,536 bytes are enough: a failure behind them is never met, one before the last of them is
# enough NAME FOLDER FILE LINE EMPTY: the line by the first bytes, and that of an empty file
enough() {
  local length
  for length in 65536 70000; do
    rm -rf "$room/long" && cp -r "$2" "$room/long" && truncate -s $length "$room/long/$3"
    fails "$1 of $length bytes" "$room/long" "$3" 65536 "$4"
    fails "$1 of $length bytes" "$room/long" "$3" 65535 "$5"
  done
}
enough table examples/empty table.tab 'REFUSED 4 6' 'REFUSED 1 0'
enough list examples/empty proof.prf 'REFUSED 9 9' 'REFUSED 7 0'
enough run examples/reached proof.prf 'REFUSED 9 3' 'REFUSED 7 0'

echo "$passed passed, $failed failed"
[ "$failed" -eq 0 ]
