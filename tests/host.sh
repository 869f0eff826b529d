#!/usr/bin/env bash
# Builds the C program with the header and the static library alone, and runs it, a program that damages files (damage.c) and one that makes lists
# into buffers of many lengths (making.c), under valgrind and in a build with the address and undefined-behaviour sanitizers. Files, and what is
# written to, stand in heap blocks of exactly their size: valgrind watches every load and store of the library too, the sanitizers only the C code
# around it. Then installs header and library, and builds with what is installed. The last line is 'N passed, M failed'.
set -u
cd "$(dirname "$0")/.." || exit 1
room=$(mktemp -d) && trap 'rm -rf "$room"' EXIT
passed=0 failed=0
written=crates/host_calls/out/libhost_calls.a
library=$room/libtzelmaruf.a
flags='-O2 -g -std=c99 -pedantic -Wall -Wextra -Werror'
sanitizers='-O1 -g -std=c99 -fsanitize=address,undefined -fno-sanitize-recover=all'
caught=99
export ASAN_OPTIONS=exitcode=$caught:detect_leaks=0 UBSAN_OPTIONS=exitcode=$caught

ok() { passed=$((passed + 1)); }
bad() { failed=$((failed + 1)); echo "host: $*"; }

# is WHAT EXPECTED GOT
is() { if [ "$2" = "$3" ]; then ok; else bad "$1: '$3', expected '$2'"; fi; }

for tool in gcc g++ make valgrind; do
  command -v $tool > /dev/null || bad "no command '$tool' on the PATH"
done
[ -f "$written" ] || bad "there is no $written: build it with 'rt lib' in crates/host_calls"
[ "$failed" -eq 0 ] || { echo "0 passed, $failed failed"; exit 1; }

# build WHAT COMMAND..: shows what the compiler says if it fails
build() {
  local what=$1
  shift
  if "$@" > "$room/log" 2>&1; then ok; else bad "$what does not build:"; cat "$room/log"; fi
}

# watched TOOL PROGRAM ARGUMENTS..: with the exit status $caught if the tool has seen anything
watched() {
  local tool=$1 program=$2
  shift 2
  case $tool in
    valgrind) valgrind -q --leak-check=full --error-exitcode=$caught "$room/$program" "$@" ;;
    sanitizers) "$room/sanitized/$program" "$@" ;;
  esac
}

# of the archive as it is: that make asks rt where it is at hand is tried below, with stand-ins
build 'the C program' make -s -C host RT= OUT="$room"
build 'the C program with sanitizers' make -s -C host RT= OUT="$room/sanitized" CFLAGS="$sanitizers"
for program in damage making; do
  # shellcheck disable=SC2086
  build "tests/$program.c" gcc $flags -Ihost -o "$room/$program" tests/$program.c "$library"
  # shellcheck disable=SC2086
  build "tests/$program.c with sanitizers" gcc $sanitizers -Ihost -o "$room/sanitized/$program" tests/$program.c "$library"
done
# the header is C++ too, and silent where nothing of it is used
printf '#include "tzelmaruf.h"\nint main() { return (int)tzelmaruf_admit(nullptr, 0) & 0; }\n' > "$room/use.cc"
build 'the header in C++' g++ -std=c++11 -pedantic -Wall -Wextra -Werror -Ihost -o "$room/use" "$room/use.cc" "$library"
printf '#include "tzelmaruf.h"\nint main(void) { return 0; }\n' > "$room/unused.c"
# shellcheck disable=SC2086
build 'the header alone' gcc $flags -Ihost -o "$room/unused" "$room/unused.c"
# the words and parts of answers, the words written here once more
cat > "$room/words.c" << 'END'
#include "tzelmaruf.h"
#include <stdio.h>

int main(void) {
    unsigned number;
    const uint8_t table[] = "TA\2";
    for (number = 0; number < 23; number++)
        printf("%u %s\n", number, tzelmaruf_meaning(number));
    printf("%d %d %d\n", TZELMARUF_ROWS_NOT_ASCENDING, TZELMARUF_ROW_FINAL, TZELMARUF_FINAL_ENTERED);
    printf("%u %u %u %u\n", TZELMARUF_COUNT(8u), TZELMARUF_NUMBER(8u), TZELMARUF_COUNT(720898u), TZELMARUF_PLACE(720898u));
    printf("%u %u\n", (unsigned)tzelmaruf_list_length(table, 8u), (unsigned)tzelmaruf_list_length(table, 1310720u));
    printf("%u %u\n", (unsigned)sizeof(struct tzelmaruf_row), 4u + TZELMARUF_WAITING_ROWS * 11u - TZELMARUF_LONGEST_LIST);
    return 0;
}
END
# shellcheck disable=SC2086
build 'the words' gcc $flags -Ihost -o "$room/words" "$room/words.c"
is 'the words' "0 accepted
$({
  sed -nE 's/^ *X\(([0-9]+), [A-Z_]+, "(.*)"\).*/\1 \2/p' host/tzelmaruf.h
  printf '%s unknown refusal\n' 18 19 22
} | sort -n)
14 15 21
8 0 0 2
60 0
14 0" "$("$room/words")"

# run STATUS TEXT ARGUMENTS: what the C program prints and its exit status
run() {
  local status=$1 text=$2 got tool
  shift 2
  for tool in valgrind sanitizers; do
    got=$(watched $tool check "$@" 2>&1)
    if [ $? -eq "$status" ] && [ "$got" = "$text" ]; then ok; else bad "check $* ($tool): '$got'"; fi
  done
}
# words LINE: how the C program says what the line says
words() {
  local verdict number place
  read -r verdict number place <<< "$1"
  case $verdict in
    EMPTY) echo "EMPTY, no run enters a final location: $number rows" ;;
    REACHED) echo "REACHED a final location: $number steps" ;;
    REFUSED) echo "REFUSED $number at record $place: $(sed -nE "s/^ *X\\($number, [A-Z_]+, \"(.*)\"\\).*/\\1/p" host/tzelmaruf.h)" ;;
  esac
}
# the examples that have a paper, each with the line expected there
for folder in examples/*/expected; do
  folder=${folder%expected}
  expected=$(cat "$folder/expected")
  case $expected in EMPTY*) status=0 ;; REFUSED*) status=1 ;; REACHED*) status=3 ;; esac
  run $status "$(words "$expected")" "$folder/table.tab" "$folder/proof.prf"
done
for folder in tests/refusals/*/; do
  got=$("$room/check" "$folder/table.tab" "$folder/proof.prf")
  is "status of $folder" 1 $?
  is "words of $folder" "$(cat "$folder/words")" "${got#*: }"
done
: > "$room/empty"
run 0 'ADMITTED: 6 records' examples/empty/table.tab
run 1 "$(words 'REFUSED 1 0')" examples/empty/proof.prf
run 1 "$(words 'REFUSED 1 0')" "$room/empty" "$room/empty"
run 1 "$(words 'REFUSED 7 0')" examples/empty/table.tab "$room/empty"
run 2 'check: cannot open nowhere: No such file or directory' nowhere
run 2 "check: cannot read $room: Is a directory" "$room"
# the longest files that are accepted, and longer ones: all that is needed of a file is read
mkdir "$room/long" && tests/longest.sh "$room/long"
run 0 'ADMITTED: 321 records' "$room/long/table.tab"
run 3 "$(words 'REACHED 2048')" "$room/long/table.tab" "$room/long/proof.prf"
for file in table.tab proof.prf; do head -c 65536 /dev/zero | cat "$room/long/$file" - > "$room/long/longer-$file"; done
run 1 "$(words 'REFUSED 4 321')" "$room/long/longer-table.tab"
run 1 "$(words 'REFUSED 9 2049')" "$room/long/table.tab" "$room/long/longer-proof.prf"

# lists that are made: a file that is not there yet, and then no other; it is a paper like any other
made=$room/made.prf
for folder in examples/*/made; do
  folder=${folder%made}
  read -r _ rows < "$folder/made"
  for tool in valgrind sanitizers; do
    rm -f "$made"
    is "check --make ($tool)" "MADE, no run enters a final location: $rows rows" "$(watched $tool check --make "$folder/table.tab" "$made" 2>&1)"
    run 0 "$(words "EMPTY $rows")" "$folder/table.tab" "$made"
  done
  if cmp -s "$made" tests/program/p1/proof.prf; then ok; else bad "check --make makes another list of $folder"; fi
  run 2 "check: cannot make $made: File exists" --make "$folder/table.tab" "$made"
done
echo 'somebody else' > "$made"
run 2 "check: cannot make $made: File exists" --make examples/table-alone/table.tab "$made"
is 'a file that was there' 'somebody else' "$(cat "$made")"
rm "$made"
for folder in tests/makings/*/; do
  number=$(sed -nE "s/^ *X\\(([0-9]+), $(basename "$folder" | tr 'a-z-' 'A-Z_'), .*/\\1/p" host/tzelmaruf.h)
  case $number in 21) status=3 ;; *) status=1 ;; esac
  run $status "REFUSED $number at record 0: $(cat "$folder/words")" --make "$folder/table.tab" "$made"
done
run 1 "$(words 'REFUSED 1 0')" --make examples/empty/proof.prf "$made"
run 2 'check: cannot open nowhere: No such file or directory' --make nowhere "$made"
run 2 "check: cannot make $room/nowhere/list: No such file or directory" --make examples/table-alone/table.tab "$room/nowhere/list"
is 'a list after a refusal' '' "$(cat "$made" 2> /dev/null)"
"$room/check" --make examples/table-alone/table.tab /dev/full > "$room/line" 2> "$room/said"
is 'status, with a device for a list' 2 $?
"$room/check" --make examples/table-alone/table.tab > "$room/line" 2> "$room/said"
is 'status without a name for the list' 2 $?

# buffers and waiting lists of many lengths: for two lists, for a table that is refused, and for an initial location that is final
printf 'TA\x01\x01\x00\x00\x00\x00LO\x01' > "$room/final.tab"
# lengths CALLS ARGUMENTS..
lengths() {
  local expected="$1 calls" tool
  shift
  is "making $*" "$expected" "$("$room/making" "$@" 2>&1)"
  for tool in valgrind sanitizers; do is "making $* ($tool)" "$expected" "$(watched $tool making "$@" 2>&1)"; done
}
lengths 306 examples/empty/table.tab examples/empty/proof.prf
lengths 306 examples/empty-not-equal/table.tab examples/empty-not-equal/proof.prf
lengths 210 tests/refusals/table-cut/table.tab 0 1 5
lengths 234 "$room/final.tab" 4 21 0

# help and version
for option in -h --help; do
  "$room/check" $option > "$room/help" 2> "$room/said"
  is "status of $option" 0 $?
  is "what $option says besides" '' "$(cat "$room/said")"
  is "the statuses that $option names" '0 EMPTY;1 REFUSED;2 no answer;3 REACHED;' \
    "$(sed -nE 's/^  ([0-9])   (EMPTY|REFUSED|REACHED|no answer).*/\1 \2/p' "$room/help" | tr '\n' ';')"
  for word in 'usage: check TABLE [PAPER]' --help --version -h --make ADMITTED MADE 'REFUSED 21'; do
    if grep -qF -- "$word" "$room/help"; then ok; else bad "$option does not name $word"; fi
  done
done
"$room/check" > "$room/line" 2> "$room/said"
is 'status without a file' 2 $?
is 'what is printed without a file' '' "$(cat "$room/line")"
if cmp -s "$room/help" "$room/said"; then ok; else bad 'without a file the usage is not on standard error'; fi
run 0 "tzelmaruf $(sed -n 's/^#define TZELMARUF_VERSION "\(.*\)"$/\1/p' host/tzelmaruf.h)" --version
"$room/check" examples/empty/table.tab > /dev/full 2> "$room/said"
if [ $? -eq 2 ] && grep -q 'cannot write the answer' "$room/said"; then ok; else bad "a full disk goes unnoticed"; fi

# the tools see a read of one byte behind a block, of an empty file too
for tool in valgrind sanitizers; do
  for word in past past-empty; do
    watched $tool damage $word > "$room/log" 2>&1
    if [ $? -eq $caught ]; then ok; else bad "$tool does not see a read behind a block ($word)"; fi
  done
done

# every cut and some changes of every byte, of each example: nothing is seen, and the answers are those of a plain run
for folder in examples/*/expected; do
  folder=${folder%expected}
  "$room/damage" "$folder/table.tab" "$folder/proof.prf" > "$room/plain" || bad "damage $folder"
  for tool in valgrind sanitizers; do
    if watched $tool damage "$folder/table.tab" "$folder/proof.prf" > "$room/said" 2>&1 && cmp -s "$room/plain" "$room/said"; then
      ok
    else
      bad "damage $folder ($tool): $(cat "$room/said")"
    fi
  done
  echo "$folder: $(cat "$room/plain")"
done

# what is installed: the program of README.md builds with it alone
prefix=$room/pre-fix
build 'make install' make -s -C host RT= OUT="$room" PREFIX="$prefix" install
is 'files installed' './bin/tzelmaruf-check ./include/tzelmaruf.h ./lib/libtzelmaruf.a ./lib/pkgconfig/tzelmaruf.pc ' \
  "$(cd "$prefix" && find . -type f | sort | tr '\n' ' ')"
is 'the program installed' 'ADMITTED: 6 records' "$("$prefix/bin/tzelmaruf-check" examples/empty/table.tab)"
sed -n '/^    #include "tzelmaruf.h"/,/^    }/s/^    //p' README.md > "$room/admit.c"
if command -v pkg-config > /dev/null; then
  export PKG_CONFIG_PATH=$prefix/lib/pkgconfig
  installed=$(pkg-config --cflags --libs tzelmaruf)
  is 'the release that pkg-config names' "$("$prefix/bin/tzelmaruf-check" --version)" "tzelmaruf $(pkg-config --modversion tzelmaruf)"
else
  installed="-I$prefix/include -L$prefix/lib -ltzelmaruf"
fi
# shellcheck disable=SC2086
build 'the program in README.md' gcc $flags -o "$room/admit" "$room/admit.c" $installed
is 'the program in README.md' 'admitted, 6 records' "$("$room/admit" < examples/empty/table.tab)"
is 'the program in README.md' 'refused at record 0: the table ends inside a record, or a record has another mark' "$("$room/admit" < examples/empty/proof.prf)"
# shellcheck disable=SC2086
build 'the program in README.md, without installing' gcc $flags -Ihost -o "$room/admit" "$room/admit.c" "$library"
build 'make uninstall' make -s -C host PREFIX="$prefix" uninstall
is 'files left by make uninstall' '' "$(find "$prefix" -type f)"
build 'make install with DESTDIR' make -s -C host RT= OUT="$room" DESTDIR="$room/stage" PREFIX=/opt/tzelmaruf install
is 'prefix under DESTDIR' 'prefix=/opt/tzelmaruf' "$(head -n 1 "$room/stage/opt/tzelmaruf/lib/pkgconfig/tzelmaruf.pc")"

# make asks rt, each time, and leaves nothing that rt has refused
mkdir "$room/stub" "$room/asked" && cp "$written" "$room/asked.a"
# shellcheck disable=SC2016
printf '#!/bin/sh\necho "$* in ${PWD##*/}" >> "%s"\nexit "$(cat "%s")"\n' "$room/calls" "$room/status" > "$room/stub/rt" && chmod +x "$room/stub/rt"
ask() {
  echo "$1" > "$room/status"
  PATH=$room/stub:$PATH make -s -C host OUT="$room/asked" LIBRARY="$room/asked.a" > "$room/log" 2>&1
}
ask 0
is 'make, where rt agrees' '0 0' "$? $([ -x "$room/asked/check" ]; echo $?)"
ask 0
is 'calls of rt' 'lib in host_calls;lib in host_calls;' "$(tr '\n' ';' < "$room/calls")"
ask 1
is 'make, where rt refuses' '2 1 1' "$? $([ -e "$room/asked.a" ]; echo $?) $([ -e "$room/asked/libtzelmaruf.a" ]; echo $?)"

echo "$passed passed, $failed failed"
[ "$failed" -eq 0 ]
