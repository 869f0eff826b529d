#!/usr/bin/env bash
# Calls ./make as somebody may who has a table and no list: on the example, on tables that are refused, where a paper is there already, where nothing can
# be written; and the program behind it on all tables that are at hand. Then, on a copy of the checkout and with stand-ins for rt and for the program, as
# nobody should: a list that is not written whole, a call that is broken off, a program that says what it has not done. What ./make has in common with
# ./run is tried in tests/run.sh. The last line is 'N passed, M failed'.
set -u
export LC_ALL=C
cd "$(dirname "$0")/.." || exit 1
here=$PWD
program=$here/target/bin/maker
checker=$here/target/bin/tzelmaruf
list=$here/tests/program/p1/proof.prf
room=$(mktemp -d) && trap 'chmod -R u+rwX "$room"; rm -rf "$room"' EXIT
passed=0 failed=0
command -v gcc > /dev/null || { echo "make: no command 'gcc' on the PATH"; echo "0 passed, 1 failed"; exit 1; }
for needed in maker tzelmaruf; do
  [ -x "target/bin/$needed" ] || { echo "make: there is no target/bin/$needed: build it with 'commands/build $needed'"; echo "0 passed, 1 failed"; exit 1; }
done

ok() { passed=$((passed + 1)); }
bad() { failed=$((failed + 1)); echo "make: $*"; }

# is WHAT EXPECTED GOT
is() { if [ "$2" = "$3" ]; then ok; else bad "$1: '$3', expected '$2'"; fi; }

# made NAME STATUS LINE NOTE COMMAND..: what the command prints, its exit status, and a part of what it says besides
made() {
  local name=$1 status=$2 line=$3 note=$4 got said is_right=0
  shift 4
  got=$("$@" 2> "$room/said")
  [ $? -eq "$status" ] && is_right=1
  said=$(cat "$room/said")
  [ "$got" = "$line" ] || is_right=0
  case $said in *"$note"*) ;; *) is_right=0 ;; esac
  if [ $is_right -eq 1 ]; then ok; else bad "$name: printed '$got', said '$said'; expected $status, '$line' and '$note'"; fi
}

# what was said last has, or has not, a line that begins so
has() { if grep -q -- "^$2" "$room/said"; then ok; else bad "$1: no line '$2' in '$(cat "$room/said")'"; fi; }
has_not() { if grep -q -- "^$2" "$room/said"; then bad "$1: a line '$2' in '$(cat "$room/said")'"; else ok; fi; }

# what is in a folder
names() { (cd "$1" && find . -mindepth 1 | sort | tr '\n' ' '); }
# left NAME FOLDER NAMES: nothing else has come, or gone
left() { is "$1: what is in the folder" "$3" "$(names "$2")"; }
# is_list NAME FILE: it is P1's list, byte for byte
is_list() { if cmp -s "$2" "$list"; then ok; else bad "$1: $2 is not P1's list"; fi; }
# with_table NAME [TABLE]: a new folder with a table alone, that of the example
with_table() {
  rm -rf "${room:?}/$1" && mkdir "$room/$1" && cp "${2:-examples/table-alone/table.tab}" "$room/$1/table.tab" && chmod u+w "$room/$1/table.tab"
}
both='./proof.prf ./table.tab '

# ---- the examples; the first call may have to build
for folder in examples/*/made; do
  folder=$(dirname "$folder")
  expected=$(cat "$folder/made")
  with_table example "$folder/table.tab"
  made "$folder" 0 "$expected" "made: no run of the table enters a final location; $room/example/proof.prf shows it with ${expected#MADE } rows" ./make "$room/example"
  is_list "$folder" "$room/example/proof.prf"
  left "$folder" "$room/example" "$both"
  is "the line of ./run on what was made of $folder" "EMPTY ${expected#MADE }" "$(./run "$room/example" 2> /dev/null)"
  is 'who may read the list' "$(umask 022; : > "$room/new"; stat -c %a "$room/new")" "$(umask 022; ./make --force "$room/example" > /dev/null 2>&1; stat -c %a "$room/example/proof.prf")"
done

# every command but rt: a call without it goes by the record that the first call has left, and is quicker
mkdir "$room/bare"
IFS=: read -ra folders <<< "$PATH"
for folder in "${folders[@]}"; do
  for tool in "$folder"/*; do
    case ${tool##*/} in rt) ;; *) [ ! -x "$tool" ] || [ -e "$room/bare/${tool##*/}" ] || ln -s "$tool" "$room/bare" ;; esac
  done
done
quick() { PATH=$room/bare timeout 60 ./make "$@"; }

# ---- a paper that is there
echo 'a paper of the supplier' > "$room/example/proof.prf"
made 'a paper that is there' 2 '' "there is a file $room/example/proof.prf already, and it stays as it is" quick "$room/example"
is 'a paper that is there' 'a paper of the supplier' "$(cat "$room/example/proof.prf")"
left 'a paper that is there' "$room/example" "$both"
made 'a paper that is there, with --force' 0 'MADE 8' 'made: ' quick --force "$room/example"
is_list 'a paper that is there, with --force' "$room/example/proof.prf"
left 'a paper that is there, with --force' "$room/example" "$both"
echo 'a paper of the supplier' > "$room/example/proof.prf"
cp tests/makings/final-entered/table.tab "$room/example/table.tab"
made 'a paper that is there, with --force, and a refusal' 3 'REFUSED 21 0' "$room/example/proof.prf stays as it was" quick --force "$room/example"
is 'a paper that is there, with --force, and a refusal' 'a paper of the supplier' "$(cat "$room/example/proof.prf")"
with_table example
ln -s nowhere "$room/example/proof.prf"
made 'a link that leads nowhere' 2 '' 'there is a file' quick "$room/example"
made 'a link that leads nowhere, with --force' 0 'MADE 8' '' quick --force "$room/example"
is_list 'a link that leads nowhere, with --force' "$room/example/proof.prf"
is 'what the link led to' '' "$(ls "$room/example/nowhere" 2> /dev/null)"
with_table example
mkdir "$room/example/proof.prf"
made 'a folder for the paper' 2 '' 'proof.prf is a folder' quick --force "$room/example"

# ---- names
with_table example
made 'no folder' 2 '' 'usage: ./make FOLDER' ./make
has 'no folder' 'make: no folder is named'
made 'an empty name' 2 '' 'usage: ./make FOLDER' ./make ''
made 'two folders' 2 '' 'one folder at a time' ./make "$room/example" "$room/example"
made 'no such folder' 2 '' "there is no folder 'nowhere'" ./make nowhere
made 'a file' 2 '' 'is no folder' ./make examples/empty/table.tab
made 'unknown option' 2 '' "there is no folder '--fast'" ./make --fast
mkdir -p "$room/two words/-x" && cp examples/table-alone/table.tab "$room/two words/-x"
beside() { (cd "$room/two words" && PATH=$room/bare "$here/make" "$@"); }
made 'a folder -x, of a name with a blank' 0 'MADE 8' '' beside -- -x
is_list 'a folder -x' "$room/two words/-x/proof.prf"
ln -s "$here/make" "$room/link"
by_link() { PATH=$room/bare "$room/link" "$@"; }
made 'by a link' 0 'MADE 8' '' by_link "$room/example"

# ---- help and version
for option in -h --help; do
  ./make $option > "$room/help" 2> "$room/said"
  is "status of $option" 0 $?
  is "what $option says besides" '' "$(cat "$room/said")"
  is "the statuses that $option names" '0 MADE;1 REFUSED;2 no verdict;3 REFUSED 21;' \
    "$(sed -nE 's/^  ([0-9])   (MADE|REFUSED 21|REFUSED|no verdict).*/\1 \2/p' "$room/help" | tr '\n' ';')"
  for word in 'usage: ./make FOLDER' --force --record --version --help -h table.tab proof.prf 'MADE rows' 'REFUSED 20 0' 'REFUSED 21 0' 'REFUSED number place' \
    TZELMARUF_WAIT; do
    if grep -qF -- "$word" "$room/help"; then ok; else bad "$option does not name $word"; fi
  done
done
release=$(sed -n 's/^#define TZELMARUF_VERSION "\(.*\)"$/\1/p' host/tzelmaruf.h)
made 'version' 0 "tzelmaruf $release
toolchain $(rt version)" '' ./make --version

# ---- refusals: number, words, place, status, and no list
number() { sed -nE "s/^ *X\(([0-9]+), $(tr a-z- A-Z_ <<< "$1"), .*/\1/p" host/tzelmaruf.h; }
for folder in tests/refusals/*/ tests/makings/*/; do
  name=$(basename "$folder")
  number=$(number "$name")
  case $number in
    [1-6]) status=1 said="refused: $(cat "$folder/words") ($(cat "$folder/where"))" ;;
    20) status=1 said="refused: $(cat "$folder/words")" ;;
    21) status=3 said="the library is bad: $(cat "$folder/words")" ;;
    *) continue ;;
  esac
  with_table refused "$folder/table.tab"
  line=$(quick "$room/refused" 2> "$room/said")
  is "status of $name" "$status" $?
  case $line in "REFUSED $number "*) ok ;; *) bad "$name: printed '$line', host/tzelmaruf.h has the number '$number'" ;; esac
  has "$name" "make: $said\$"
  has "$name" 'make: .*do not load the library; .*send the table back to the supplier with this line$'
  case $name in
    *-cut | *-long) has "$name" 'make: .*copy it again and try once more' ;;
    *) has_not "$name" 'make: .*copy it again' ;;
  esac
  left "$name" "$room/refused" './table.tab '
done
mkdir "$room/nothing"
made 'no table' 1 'REFUSED 1 0' "there is no file $room/nothing/table.tab: it counts as empty" quick "$room/nothing"
left 'no table' "$room/nothing" ''

# ---- sizes: a chain of locations of 256 rows each; 16 of them have as many rows as a list may have
# chain LOCATIONS
chain() {
  local i
  printf 'TA\x01'
  # shellcheck disable=SC2059
  printf "\\x$(printf %02x "$1")\x00\x00\\x$(printf %02x $(($1 - 1)))\x7f"
  for ((i = 0; i < $1; i++)); do printf 'LO\x00'; done
  # shellcheck disable=SC2059
  for ((i = 1; i < $1; i++)); do printf "ED\\x$(printf %02x $((i - 1)))\\x$(printf %02x "$i")\x00\x00\x00\x00\x00\x00"; done
}
chain 16 > "$room/chain.tab"
with_table chain "$room/chain.tab"
made 'a list of 4,096 rows' 0 'MADE 4096' 'shows it with 4096 rows' quick "$room/chain"
is 'the length of a list of 4,096 rows' 20484 "$(wc -c < "$room/chain/proof.prf")"
is 'the line of ./run on a list of 4,096 rows' 'EMPTY 4096' "$(./run "$room/chain" 2> /dev/null)"
chain 17 > "$room/chain.tab"
if cmp -s "$room/chain.tab" tests/makings/no-room/table.tab; then ok; else bad 'tests/makings/no-room is not a chain of 17 locations'; fi
# a table that is longer than any that is accepted
with_table long && head -c 1000000 /dev/zero >> "$room/long/table.tab"
made 'an overlong table' 1 'REFUSED 4 6' 'after its 6 records' quick "$room/long"

# ---- the program on all tables at hand: what it makes is accepted by the one that checks, and never where a run of the table is accepted
for folder in tests/program/*/ examples/*/ tests/refusals/*/; do
  rm -rf "$room/both" && mkdir "$room/both"
  [ ! -f "$folder/table.tab" ] || cp "$folder/table.tab" "$room/both"
  line=$(cd "$room/both" && "$program" 2>&1)
  paper=$(cd "$folder" && "$checker")
  case $line in
    MADE*)
      mv "$room/both/proof.prf.new" "$room/both/proof.prf"
      is "$folder: what is made" "EMPTY ${line#MADE }" "$(cd "$room/both" && "$checker")"
      case $paper in REACHED*) bad "$folder: a list is made, and a run enters a final location" ;; *) ok ;; esac
      ;;
    'REFUSED 21 0') case $paper in EMPTY*) bad "$folder: refused by 21, and a list is accepted" ;; *) ok ;; esac ;;
    'REFUSED '[1-6]' '*) is "$folder: a table that is none" "$paper" "$line" ;;
    *) bad "$folder: printed '$line'" ;;
  esac
  case $line in MADE*) ;; *) is "$folder: a list after '$line'" '' "$(find "$room/both" -name 'proof*')" ;; esac
done
# a file of the name that it writes to stays as it is, and no line is printed
with_table taken && echo 'taken' > "$room/taken/proof.prf.new"
is 'a name that is taken: the line' '' "$(cd "$room/taken" && "$program" 2> "$room/said")"
has 'a name that is taken' 'proof.prf.new is there already, or cannot be written to its end'
is 'a name that is taken: the file' 'taken' "$(cat "$room/taken/proof.prf.new")"
# a slow stick, and a bad one: a table of which a read fails counts as one that cannot be opened
gcc -O2 -std=c99 -pedantic -Wall -Wextra -Werror -shared -fPIC -o "$room/stick.so" tests/failing_read.c || bad 'tests/failing_read.c does not build'
# sticky SETTINGS..: what the program prints with them
sticky() { (cd "$room/stick" && env LD_PRELOAD="$room/stick.so" "$@" "$program"); }
end=$(wc -c < examples/table-alone/table.tab)
for byte in $(seq 0 "$end"); do
  with_table stick
  is "a read that fails at byte $byte" 'REFUSED 1 0' "$(sticky STICK_PIECE=7 STICK_FILE=table.tab STICK_BYTE="$byte")"
done
for piece in 1 7; do
  with_table stick
  is "a table in pieces of $piece" 'MADE 8' "$(sticky STICK_PIECE=$piece STICK_FILE=table.tab STICK_BYTE=$((end + 1)))"
  is_list "a table in pieces of $piece" "$room/stick/proof.prf.new"
done

# ---- files and folders that cannot be read or written
with_table stick
bad_stick() { LD_PRELOAD=$room/stick.so STICK_FILE=table.tab STICK_BYTE="$end" quick "$room/stick"; }
made 'a read of the table that fails' 2 '' 'table.tab could not be read to its end: no verdict' bad_stick
left 'a read of the table that fails' "$room/stick" './table.tab '
rm "$room/stick/table.tab" && mkfifo "$room/stick/table.tab"
timeout 30 dd if=examples/table-alone/table.tab of="$room/stick/table.tab" status=none &
made 'a pipe' 0 'MADE 8' 'is a pipe' quick "$room/stick"
wait
rm "$room/stick/proof.prf"
impatient() { TZELMARUF_WAIT=1 quick "$@"; }
made 'a pipe without a writer' 2 '' 'nobody closed the pipe' impatient "$room/stick"
left 'a pipe without a writer' "$room/stick" './table.tab '
# root writes where it may not: it tries as nobody
other_user=()
[ "$(id -u)" -ne 0 ] || other_user=(setpriv --reuid=65534 --regid=65534 --clear-groups)
with_table shut && chmod -R a+rX "$room" && chmod a-w "$room/shut"
shut() { TMPDIR=/tmp PATH=$room/bare timeout 60 "${other_user[@]}" ./make "$@" "$room/shut"; }
made 'a folder that cannot be written to' 2 '' "cannot write to the folder $room/shut (Permission denied): no verdict" shut
is 'lines about a folder that cannot be written to' 1 "$(wc -l < "$room/said")"
left 'a folder that cannot be written to' "$room/shut" './table.tab '
full() { quick "$room/example" > /dev/full; }
with_table example
made 'no room for the line' 2 '' 'No space left' full
is_list 'no room for the line' "$room/example/proof.prf"

# ---- the record: what is hashed is what was read and made
field() { sed -n "s/^$1: *//p" "$room/record"; }
sha() { sha256sum | cut -d ' ' -f 1; }
with_table example
quick --record "$room/example" > "$room/record" 2> "$room/said"
is 'status with a record' 0 $?
is 'fields of a record' 'verdict date version toolchain table.tab proof.prf program sources ' "$(sed -n 's/^\([a-z.]*\): .*/\1/p' "$room/record" | tr '\n' ' ')"
is 'verdict in a record' 'MADE 8' "$(field verdict)"
is 'table in a record' "SHA-256 $(sha < examples/table-alone/table.tab)" "$(field table.tab)"
is 'paper in a record' "made; SHA-256 $(sha < "$list")" "$(field proof.prf)"
is 'program in a record' "SHA-256 $(sha < "$program")" "$(field program)"
quick --force --record "$room/refused" > "$room/record" 2> "$room/said"
is 'paper in a record of a refusal' 'none was made' "$(field proof.prf)"

# ---- a copy of the checkout, and stand-ins for rt and for the program
copy="$room/a copy"
mkdir -p "$copy/host" "$copy/crates" "$room/stub"
cp -r make commands crates.txt "$copy" && mkdir "$copy/crates/maker" && cp -r crates/maker/src "$copy/crates/maker" && cp host/tzelmaruf.h "$copy/host"
cat > "$room/stub/rt" << 'END'
#!/usr/bin/env bash
# A stand-in for rt, which puts the program beside it in place, or refuses to, as the file 'way' says.
stub=$(dirname "$0")
[ "$1" != version ] || { echo 'stub kit'; exit; }
echo "$* in ${PWD##*/}" >> "$stub/calls"
[ "$(cat "$stub/way")" != fails ] || { echo 'logic=not-proved' >&2; exit 1; }
mkdir -p out
cmp -s "$stub/program" out/maker || { rm -f out/maker && cat "$stub/program" > out/maker; }
chmod +x out/maker
: > out/maker.stamp
printf '%s\n' 'crate maker: modules loaded=1 checked=2' 'logic=proved functions=1 sum=0' >&2
echo 'REFUSED 1 0'
END
chmod +x "$room/stub/rt"
# with_rt WAY FOLDER
with_rt() {
  echo "$1" > "$room/stub/way"
  shift
  PATH=$room/stub:$room/bare timeout 60 "$copy/make" "$@"
}
cp "$program" "$room/stub/program"
with_table example
made 'rt refuses' 2 '' 'rt has refused' with_rt fails "$room/example"
left 'rt refuses' "$room/example" './table.tab '
made 'rt builds' 0 'MADE 8' 'proving and building' with_rt good "$room/example"
is 'what rt is asked for' 'run in maker' "$(sort -u "$room/stub/calls")"
is 'the record of a build' "program: $(sha < "$program")" "$(head -n 1 "$copy/target/maker.record")"
rm "$room/example/proof.prf"
# writes LIST LINE: a program that writes a list, if there is one, and prints a line
writes() {
  {
    echo '#!/bin/sh'
    [ -z "$1" ] || echo "cat '$1' > proof.prf.new"
    printf 'printf "%s"\n' "$2"
  } > "$room/stub/program"
}
for line in '' '\n' 'MADE\n' 'MADE 0\n' 'MADE 08\n' 'MADE 8' 'MADE 8\nMADE 8\n' ' MADE 8\n' 'MADE 8 \n' 'MADE 10000\n' 'made 8\n' 'EMPTY 8\n' 'REACHED 2\n' 'MADE 8\000\n'; do
  writes "$list" "$line"
  made "a program that prints '$line'" 2 '' 'no verdict' with_rt good "$room/example"
  left "a program that prints '$line'" "$room/example" './table.tab '
done
for line in 'REFUSED 7 0\n' 'REFUSED 17 1\n' 'REFUSED 18 0\n' 'REFUSED 19 0\n' 'REFUSED 20 1\n' 'REFUSED 21 1\n' 'REFUSED 22 0\n' 'REFUSED 21\n' 'REFUSED 1 1000\n'; do
  writes '' "$line"
  made "a program that prints '$line'" 2 '' 'no verdict' with_rt good "$room/example"
done
writes '' 'MADE 8\n'
made 'a program that writes no list' 2 '' 'has printed MADE, and written no list' with_rt good "$room/example"
writes "$list" 'REFUSED 21 0\n'
made 'a program that writes a list and refuses' 2 '' 'and written a list' with_rt good "$room/example"
writes "$list" 'MADE 8\n' && echo 'exit 1' >> "$room/stub/program"
made 'a program that fails' 2 '' 'ended with status 1' with_rt good "$room/example"
left 'programs that are none' "$room/example" './table.tab '
# a paper that comes while the list is made stays
# shellcheck disable=SC2016
writes "$list" 'MADE 8\n' && echo 'echo late > "'"$room"'/example/proof.prf"' >> "$room/stub/program"
made 'a paper that comes meanwhile' 2 '' 'has come meanwhile, and it stays as it is' with_rt good "$room/example"
is 'a paper that comes meanwhile' 'late' "$(cat "$room/example/proof.prf")"
left 'a paper that comes meanwhile' "$room/example" "$both"
made 'a paper that comes meanwhile, with --force' 0 'MADE 8' '' with_rt good --force "$room/example"
is_list 'a paper that comes meanwhile, with --force' "$room/example/proof.prf"
# a disk that fills up: the list is brought to the folder in part, and then the write fails, or is not seen to fail
writes "$list" 'MADE 8\n'
for status in 1 0; do
  with_table example && echo 'a paper of the supplier' > "$room/example/proof.prf"
  # shellcheck disable=SC2016
  printf '#!/bin/sh\nhead -c 20 "$2" > "$3"\necho "cp: error writing: No space left on device" >&2\nexit %s\n' $status > "$room/stub/cp" && chmod +x "$room/stub/cp"
  made "a full disk, and status $status" 2 '' 'no verdict' with_rt good --force "$room/example"
  is "a full disk, and status $status" 'a paper of the supplier' "$(cat "$room/example/proof.prf")"
  left "a full disk, and status $status" "$room/example" "$both"
done
rm "$room/stub/cp"
# a call that is broken off while the program is at work, by each of the signals that a user may send
for signal in INT TERM HUP; do
  with_table example
  # shellcheck disable=SC2016
  printf '#!/bin/sh\nhead -c 20 "%s" > proof.prf.new\n: > "%s"\nsleep 9\n' "$list" "$room/began" > "$room/stub/program"
  rm -f "$room/began"
  # job control, so that the call has a group of its own and takes SIGINT
  set -m
  PATH=$room/stub:$room/bare "$copy/make" "$room/example" > "$room/line" 2> "$room/said" &
  call=$!
  set +m
  for _ in $(seq 300); do [ ! -e "$room/began" ] || break; sleep 0.1; done
  kill -s $signal -- -$call
  wait $call 2> /dev/null
  status=$?
  if [ $status -ne 0 ] && [ -e "$room/began" ] && [ ! -s "$room/line" ]; then ok; else bad "broken off by $signal: status $status, printed '$(cat "$room/line")'"; fi
  left "broken off by $signal" "$room/example" './table.tab '
done

echo "$passed passed, $failed failed"
[ "$failed" -eq 0 ]
